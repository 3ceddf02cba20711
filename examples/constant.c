/* Changes constants in an image where they stand: a record tells the offset and the width of each. Nothing is encoded, so no other byte
 * changes, even where encoding would write the rest otherwise.
 * cc -Iinclude examples/constant.c target/library/libm16c.a -o constant && ./constant */
#include <stdio.h>
#include "m16c.h"

static uint8_t image[] = {
    0x75, 0xCC, 0x34, 0x00, 0x02, 0x00, /* MOV.W #2, 34H[A0], with a displacement longer than it needs to be: encoding shortens it */
    0x74, 0x00, 0x61, 0xFE, 0x16, /* STE.B R0L, 6FE61H, with four bits that decoding drops: encoding makes them 0 */
    0x78, 0x89, 0x10, 0x20, /* MUL.B 10H[A0], 20H[A1] */
    0xEB, 0xC5 /* INT #5 */
};

static uint16_t starts[sizeof image];

static void list(void)
{
    size_t count, end, refused, read;
    m16c_sweep(image, sizeof image, starts, sizeof image, &count, &end, &refused, &read);
    for (size_t k = 0; k < count; k++) {
        uint8_t line[M16C_LONGEST_LINE];
        size_t length;
        m16c_line(image, sizeof image, starts[k], line, sizeof line, &length);
        printf("%.*s\n", (int)length, (const char *)line);
    }
}

/* Where a record has a number, and where it tells of the number's bytes. */
struct field {
    const char *name;
    enum m16c_number number, offset, width;
};

static const struct field first = {"first", M16C_FIRST, M16C_FIRST_OFFSET, M16C_FIRST_WIDTH};
static const struct field dispabs = {"dispabs", M16C_DISPABS, M16C_DISPABS_OFFSET, M16C_DISPABS_WIDTH};
static const struct field imm_wide = {"imm_wide", M16C_IMM_WIDE, M16C_IMM_WIDE_OFFSET, M16C_IMM_WIDE_WIDTH};

/* Writes a number over bytes, the low one first. Of a third byte the upper four bits are not the number's, and stay as they are. */
static void put(uint8_t *bytes, uint32_t width, uint32_t number)
{
    if (width == 3)
        number |= (uint32_t)(bytes[2] & 0xF0) << 16;
    for (uint32_t k = 0; k < width; k++)
        bytes[k] = (uint8_t)(number >> (8 * k));
}

/* Gives a number of the instruction at a place another value, if it has bytes and the value fits. */
static void change(size_t place, const struct field *field, uint32_t value)
{
    uint32_t record[M16C_NUMBERS];
    m16c_decode(image, sizeof image, place, record, M16C_NUMBERS);
    uint32_t offset = record[field->offset], width = record[field->width];
    uint32_t bits = width == 3 ? 20 : 8 * width;
    printf("%04X: %s %X instead of %X: ", (unsigned)place, field->name, (unsigned)value, (unsigned)record[field->number]);
    if (width == 0) {
        printf("left: no byte behind the code is read for it\n");
    } else if (value >> bits != 0) {
        printf("left: it does not fit in %u bits\n", (unsigned)bits);
    } else {
        put(image + place + offset, width, value);
        printf("written at %04X, width %u\n", (unsigned)(place + offset), (unsigned)width);
    }
}

int main(void)
{
    list();
    change(0x00, &imm_wide, 3);
    change(0x00, &dispabs, 0); /* encoding leaves a displacement of 0 out */
    change(0x00, &imm_wide, 0x10000);
    change(0x06, &imm_wide, 0x12345);
    change(0x06, &imm_wide, 0x100000);
    change(0x0B, &first, 0x7F);
    change(0x0B, &imm_wide, 1); /* there is no immediate */
    change(0x0F, &imm_wide, 6); /* the number of an INT is in its code */
    list();
    return fflush(stdout) != 0;
}
