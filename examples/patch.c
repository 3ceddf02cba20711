/* Changes numbers in an image and moves nothing: finds an instruction, decodes it, changes a number of its record, encodes it, and
 * writes the bytes back only if there are as many as before.
 * cc -Iinclude examples/patch.c target/library/libm16c.a -o patch && ./patch */
#include <stdio.h>
#include <string.h>
#include "m16c.h"

static uint8_t image[] = {
    0x75, 0xC0, 0x00, 0x00, /* MOV.W #0, R0 */
    0x77, 0x40, 0x0A, 0x00, /* ADD.W #10, R0 */
    0x77, 0x80, 0xE8, 0x03, /* CMP.W #1000, R0 */
    0x7D, 0xC8, 0xF6, /* JLE, back to the ADD */
    0x00, 0x40, /* data, which a sweep passes */
    0x75, 0xC8, 0x34, 0x01, 0x00, /* MOV.W #1, 34H[A0] */
    0x75, 0xCC, 0x34, 0x00, 0x02, 0x00 /* MOV.W #2, 34H[A0], with a displacement longer than it needs to be */
};

static uint16_t starts[sizeof image];

/* What a cable to the image would have carried for the sweeps. */
static size_t carried;

/* Finds the starts of the instructions, and returns how many there are. */
static size_t sweep(void)
{
    size_t count, end, refused, read;
    m16c_sweep(image, sizeof image, starts, sizeof image, &count, &end, &refused, &read);
    carried += read;
    return count;
}

static void list(void)
{
    size_t count = sweep();
    for (size_t k = 0; k < count; k++) {
        uint8_t line[M16C_LONGEST_LINE];
        size_t length;
        m16c_line(image, sizeof image, starts[k], line, sizeof line, &length);
        printf("%.*s\n", (int)length, (const char *)line);
    }
}

/* The place of the first instruction with an opcode and an immediate, and its record; 0 if there is none. */
static int find(uint32_t opcode, uint32_t immediate, size_t *place, uint32_t *record)
{
    size_t count = sweep();
    for (size_t k = 0; k < count; k++) {
        *place = starts[k];
        m16c_decode(image, sizeof image, *place, record, M16C_NUMBERS);
        if (record[M16C_OPCODE] == opcode && record[M16C_OP0] == M16C_OPERAND_IMM16 && record[M16C_IMM_WIDE] == immediate)
            return 1;
    }
    return 0;
}

/* Writes a changed record over the instruction it was decoded from, if it has as many bytes; says why not otherwise. */
static void put(const uint32_t *record, size_t place)
{
    uint8_t bytes[M16C_LONGEST_INSTRUCTION];
    size_t old_length = record[M16C_LENGTH], length;
    uint32_t refusal = m16c_encode(record, M16C_NUMBERS, bytes, old_length, 0, &length);
    if (refusal == M16C_NO_STRING) {
        printf("left: no bytes encode it\n");
    } else if (refusal == M16C_TOO_LITTLE_ROOM) {
        printf("left: it needs more than %u bytes\n", (unsigned)old_length);
    } else if (length != old_length) {
        printf("left: its shortest bytes are %u, not %u\n", (unsigned)length, (unsigned)old_length);
    } else {
        memcpy(image + place, bytes, length);
        printf("written\n");
    }
}

/* Gives a number of the instruction with this opcode and immediate another value. */
static void change(uint32_t opcode, uint32_t immediate, enum m16c_number which, uint32_t value)
{
    uint32_t record[M16C_NUMBERS];
    size_t place;
    if (!find(opcode, immediate, &place, record)) {
        printf("no such instruction\n");
        return;
    }
    printf("%04X: %s %X instead of %X: ", (unsigned)place, which == M16C_IMM_WIDE ? "immediate" : "displacement", (unsigned)value,
           (unsigned)record[which]);
    record[which] = value;
    put(record, place);
}

int main(void)
{
    list();
    change(M16C_OPCODE_CMP, 1000, M16C_IMM_WIDE, 1500);
    change(M16C_OPCODE_CMP, 1500, M16C_IMM_WIDE, 65536);
    change(M16C_OPCODE_MOV, 1, M16C_DISPABS, 0x1234);
    change(M16C_OPCODE_MOV, 2, M16C_IMM_WIDE, 3);
    change(M16C_OPCODE_SUB, 1, M16C_IMM_WIDE, 2);
    list();
    printf("the sweeps read %u bytes\n", (unsigned)carried);
    return fflush(stdout) != 0;
}
