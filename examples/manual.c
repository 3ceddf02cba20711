/* Decodes bytes by document 01 and by the manual, shows where they differ, and changes a number by the reading that decoded it.
 * cc -Iinclude examples/manual.c target/library/libm16c.a -o manual && ./manual */
#include <stdio.h>
#include "m16c.h"

/* Rows that document 01 marks, and at last one that both read alike. */
static const uint8_t image[] = {
    0x76, 0x90, /* DIVX.B R0L */
    0x7C, 0x48, 0x10, 0x22, /* MULU.B #22H, 10H[A0] */
    0x7D, 0x22, /* JMPI.W R2 */
    0xEB, 0x64, /* FSET I */
    0x7D, 0xC8, 0xF6 /* JLE */
};

static uint16_t starts[sizeof image];

/* The functions of a reading, side by side: a record is never passed to those of the other. */
struct reading {
    const char *name;
    uint32_t (*decode)(const uint8_t *, size_t, size_t, uint32_t *, size_t);
    uint32_t (*encode)(const uint32_t *, size_t, uint8_t *, size_t, size_t, size_t *);
    uint32_t (*line)(const uint8_t *, size_t, size_t, uint8_t *, size_t, size_t *);
    uint32_t (*sweep)(const uint8_t *, size_t, uint16_t *, size_t, size_t *, size_t *, size_t *, size_t *);
    uint32_t (*sweep_stopping)(const uint8_t *, size_t, uint16_t *, size_t, size_t *, size_t *, size_t *, size_t *);
};

static const struct reading document = {"document 01", m16c_decode, m16c_encode, m16c_line, m16c_sweep, m16c_sweep_stopping};
static const struct reading manual = {"the manual",      m16c_decode_manual,        m16c_encode_manual, m16c_line_manual,
                                      m16c_sweep_manual, m16c_sweep_manual_stopping};

static void list(const struct reading *by)
{
    size_t count, end, refused, read;
    by->sweep(image, sizeof image, starts, sizeof image, &count, &end, &refused, &read);
    printf("by %s, %u places refused:\n", by->name, (unsigned)refused);
    for (size_t k = 0; k < count; k++) {
        uint8_t line[M16C_LONGEST_LINE];
        size_t length;
        by->line(image, sizeof image, starts[k], line, sizeof line, &length);
        printf("%.*s\n", (int)length, (const char *)line);
    }
    by->sweep_stopping(image, sizeof image, starts, sizeof image, &count, &end, &refused, &read);
    printf("nothing is refused before %04X\n", (unsigned)end);
}

static void show_encoded(const struct reading *by, const uint32_t *record)
{
    uint8_t bytes[M16C_LONGEST_INSTRUCTION];
    size_t count;
    uint32_t refusal = by->encode(record, M16C_NUMBERS, bytes, sizeof bytes, 0, &count);
    printf("encoded by %s:", by->name);
    for (size_t k = 0; k < count; k++) /* 0 where it is refused */
        printf(" %02X", (unsigned)bytes[k]);
    if (refusal != M16C_ACCEPTED)
        printf(" refused, %u", (unsigned)refusal);
    putchar('\n');
}

/* Adds to the stack pointer: by document 01 the number has three bits, by the manual four, with a sign. */
static void add_to_stack(const struct reading *by, uint32_t *record)
{
    static const uint8_t add[] = {0x7D, 0xB9};
    by->decode(add, sizeof add, 0, record, M16C_NUMBERS);
    printf("7D B9 by %s: ADD.W #%d, SP, %smarked\n", by->name, (int)(int32_t)record[M16C_IMM_WIDE], record[M16C_MARKED] ? "" : "not ");
}

int main(void)
{
    uint32_t record[M16C_NUMBERS];
    list(&document);
    list(&manual);
    add_to_stack(&document, record);
    show_encoded(&document, record); /* no marked form is encoded */
    printf("WRONG, since the record does not say that it is document 01's: ");
    show_encoded(&manual, record);
    add_to_stack(&manual, record);
    show_encoded(&manual, record);
    record[M16C_IMM_WIDE] = (uint32_t)-4;
    show_encoded(&manual, record);
    return fflush(stdout) != 0;
}
