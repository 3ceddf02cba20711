/* Makes a record, and has its shortest bytes written.
 * cc -Iinclude examples/encode.c target/library/libm16c.a -o encode && ./encode */
#include <stdio.h>
#include "m16c.h"

static void encode(const char *text, const uint32_t *record, size_t room)
{
    uint8_t bytes[M16C_LONGEST_INSTRUCTION];
    size_t count;
    uint32_t refusal = m16c_encode(record, M16C_NUMBERS, bytes, room, 0, &count);
    printf("%s:", text);
    for (size_t k = 0; k < count; k++) /* 0 where it is refused */
        printf(" %02X", (unsigned)bytes[k]);
    if (refusal == M16C_NO_STRING)
        printf(" refused, 5: no bytes encode it");
    else if (refusal == M16C_TOO_LITTLE_ROOM)
        printf(" refused, 6: there is room for %u bytes only", (unsigned)room);
    putchar('\n');
}

int main(void)
{
    /* What is not named is 0: no third operand, no other number. */
    uint32_t record[M16C_NUMBERS] = {
        [M16C_OPCODE] = M16C_OPCODE_ADD,
        [M16C_SIZE] = M16C_SIZE_W,
        [M16C_WIDTH] = M16C_WIDTH_W,
        [M16C_OP0] = M16C_OPERAND_IMM16,
        [M16C_OP1] = M16C_OPERAND_DISP16_A0,
        [M16C_IMM_WIDE] = 0x03E8,
        [M16C_DISPABS] = 0x1234,
    };
    encode("ADD.W #03E8H, 1234H[A0]", record, M16C_LONGEST_INSTRUCTION);
    encode("the same, in 5 bytes", record, 5);
    record[M16C_DISPABS] = 0x12; /* 8 bits are enough */
    encode("ADD.W #03E8H, 12H[A0]", record, M16C_LONGEST_INSTRUCTION);
    record[M16C_IMM_WIDE] = 0x10000; /* 16 bits are not */
    encode("ADD.W #10000H, 12H[A0]", record, M16C_LONGEST_INSTRUCTION);
    return fflush(stdout) != 0;
}
