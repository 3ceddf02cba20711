/* Decodes instructions, and reads their records.
 * cc -Iinclude examples/decode.c target/library/libm16c.a -o decode && ./decode */
#include <stdio.h>
#include "m16c.h"

static const uint8_t store[] = {0x74, 0x0F, 0x34, 0x12, 0x89, 0x67, 0xF5};

/* A variable below the frame base: its displacement is negative. */
static const uint8_t local[] = {0x74, 0x5B, 0xF0};

static void show_numbers(const uint32_t *record)
{
    for (size_t k = 0; k < 3; k++) {
        int64_t number;
        if (m16c_operand_number(record, M16C_NUMBERS, k, &number) == M16C_ACCEPTED)
            printf("the number of operand %u is %lld\n", (unsigned)k, (long long)number);
    }
}

static void decode(const uint8_t *image, size_t length)
{
    uint32_t record[M16C_NUMBERS];
    uint32_t refusal = m16c_decode(image, length, 0, record, M16C_NUMBERS);
    printf("%u bytes: ", (unsigned)length);
    if (refusal != M16C_ACCEPTED) {
        printf("refused, %u, after %u bytes\n", (unsigned)refusal, (unsigned)record[M16C_TAKEN]);
        return;
    }
    printf("an instruction of %u bytes\n", (unsigned)record[M16C_LENGTH]);
    if (record[M16C_OPCODE] == M16C_OPCODE_STE && record[M16C_OP0] == M16C_OPERAND_ABS16 && record[M16C_OP1] == M16C_OPERAND_ABS20)
        printf("STE from address %04X to address %05X\n", (unsigned)record[M16C_DISPABS], (unsigned)record[M16C_IMM_WIDE]);
    if (record[M16C_DROPPED])
        printf("of the address's three bytes four bits were dropped, and were not zero\n");
    show_numbers(record);
}

/* The same as the listing shows it. */
static void list(const uint8_t *image, size_t image_length)
{
    uint8_t line[M16C_LONGEST_LINE];
    size_t length;
    if (m16c_line(image, image_length, 0, line, sizeof line, &length) == M16C_ACCEPTED)
        printf("%.*s\n", (int)length, (const char *)line);
}

int main(void)
{
    decode(store, sizeof store);
    list(store, sizeof store);
    decode(local, sizeof local);
    list(local, sizeof local);
    decode(store, sizeof store - 1); /* the image ends inside the instruction */
    return fflush(stdout) != 0;
}
