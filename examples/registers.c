/* Reads subroutines, and tells whether each takes back the registers that it saved: PUSHM and POPM have the bits of their lists the other
 * way round, so one byte names other registers in each.
 * cc -Iinclude examples/registers.c target/library/libm16c.a -o registers && ./registers */
#include <stdio.h>
#include "m16c.h"

static const uint8_t good[] = {
    0xEC, 0xC9, /* PUSHM R0,R1,A0,FB */
    0x73, 0xBA, 0x05, 0x20, /* MOV.W 5[FB], 20H[SB] */
    0x72, 0xCF, 0x34, 0x12, 0x00, 0x04, /* MOV.B 1234H[A0], 0400H */
    0xED, 0x93 /* POPM R0,R1,A0,FB */
};

static const uint8_t bad[] = {
    0xEC, 0xC9, /* PUSHM R0,R1,A0,FB */
    0x73, 0xAB, 0x20, 0xFE, /* MOV.W 20H[SB], -2[FB] */
    0xED, 0xC9 /* the same byte: POPM R0,R3,SB,FB */
};

/* The register of each bit, 80 first. */
static const char *const pushed[] = {"R0", "R1", "R2", "R3", "A0", "A1", "SB", "FB"};
static const char *const popped[] = {"FB", "SB", "A1", "A0", "R3", "R2", "R1", "R0"};

static uint32_t turned_round(uint32_t list)
{
    uint32_t turned = 0;
    for (int k = 0; k < 8; k++)
        turned |= (list >> k & 1) << (7 - k);
    return turned;
}

static void show_line(const uint8_t *image, size_t length, size_t place)
{
    uint8_t line[M16C_LONGEST_LINE];
    size_t written;
    m16c_line(image, length, place, line, sizeof line, &written);
    printf("%.*s\n", (int)written, (const char *)line);
}

/* The numbers of both operands, with their signs: of two displacements the earlier one is in FIRST. */
static void show_numbers(const uint32_t *record)
{
    int64_t source, destination;
    if (m16c_operand_number(record, M16C_NUMBERS, 0, &source) == M16C_ACCEPTED &&
        m16c_operand_number(record, M16C_NUMBERS, 1, &destination) == M16C_ACCEPTED)
        printf("  from %lld, first %X, to %lld, dispabs %X\n", (long long)source, (unsigned)record[M16C_FIRST], (long long)destination,
               (unsigned)record[M16C_DISPABS]);
}

static void show_list(const uint32_t *record, const char *const *names)
{
    printf("  %u registers:", (unsigned)record[M16C_REGISTERS]);
    for (int k = 0; k < 8; k++)
        if (record[M16C_IMM_WIDE] & (0x80u >> k))
            printf(" %s", names[k]);
    putchar('\n');
}

/* Shows each instruction, and compares what was saved with what is taken back, both in PUSHM's order of bits. */
static void check(const uint8_t *image, size_t length)
{
    uint32_t record[M16C_NUMBERS], saved = 0, taken_back = 0;
    for (size_t place = 0; m16c_decode(image, length, place, record, M16C_NUMBERS) == M16C_ACCEPTED; place += record[M16C_LENGTH]) {
        show_line(image, length, place);
        if (record[M16C_OPCODE] == M16C_OPCODE_PUSHM) {
            show_list(record, pushed);
            saved = record[M16C_IMM_WIDE];
        } else if (record[M16C_OPCODE] == M16C_OPCODE_POPM) {
            show_list(record, popped);
            taken_back = turned_round(record[M16C_IMM_WIDE]);
        } else {
            show_numbers(record);
        }
    }
    printf("entry and exit name %s registers\n", saved == taken_back ? "the same" : "different");
}

int main(void)
{
    check(good, sizeof good);
    check(bad, sizeof bad);
    return fflush(stdout) != 0;
}
