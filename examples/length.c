/* Walks over an image by lengths alone: of an instruction its first two bytes are read, whatever stands behind them.
 * cc -Iinclude examples/length.c target/library/libm16c.a -o length && ./length */
#include <stdio.h>
#include "m16c.h"

static const uint8_t image[] = {
    0x74, 0x0F, 0x34, 0x12, 0x89, 0x67, 0xF5, /* STE.B 1234H, 56789H */
    0x7E, 0x20, 0x05, 0x07, /* 07 is no condition: decoding refuses it, but it has the length of those with a condition */
    0x78, 0x83, 0x10, /* no bytes behind 78 83 make an instruction */
    0x7D, 0xC8, 0x05, /* JLE */
    0x75, 0xC0, 0xE8 /* MOV.W #.., R0: the image ends inside it */
};

/* Shows the length at a place, and returns the next: behind the instruction, or a byte further where there is none. */
static size_t pass(size_t place)
{
    size_t left = sizeof image - place, length;
    uint32_t refusal = m16c_length(image + place, left, &length);
    if (refusal != M16C_ACCEPTED) {
        printf("%04X REFUSED %u\n", (unsigned)place, (unsigned)refusal);
        return place + 1;
    }
    printf("%04X %u", (unsigned)place, (unsigned)length);
    if (length > left)
        printf(", of which %u are here", (unsigned)left);
    putchar('\n');
    return place + length;
}

int main(void)
{
    size_t place = 0;
    while (place < sizeof image)
        place = pass(place);
    return fflush(stdout) != 0;
}
