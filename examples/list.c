/* Lists an image, a file or standard input, as ./m16c list does: to its end, or with --stopping to the first refusal.
 * cc -Iinclude examples/list.c target/library/libm16c.a -o list && ./list [--stopping] [FILE] */
#include <stdio.h>
#include <string.h>
#include "m16c.h"

static uint8_t image[M16C_LONGEST_IMAGE + 1]; /* a byte more, so that an image too long is seen */
static size_t length;
static uint16_t starts[M16C_LONGEST_IMAGE];

/* Lists the instruction at a place, and returns the place behind it. */
static size_t list_instruction(size_t place)
{
    uint32_t record[M16C_NUMBERS];
    uint8_t line[M16C_LONGEST_LINE];
    size_t written;
    m16c_decode(image, length, place, record, M16C_NUMBERS);
    m16c_line(image, length, place, line, sizeof line, &written);
    printf("%.*s\n", (int)written, (const char *)line);
    return place + record[M16C_LENGTH];
}

/* Lists a refused place, and returns the next: a sweep that goes on passes a byte. */
static size_t list_refused(size_t place)
{
    uint32_t record[M16C_NUMBERS];
    uint32_t refusal = m16c_decode(image, length, place, record, M16C_NUMBERS);
    printf("%04X REFUSED %u TAKEN %u\n", (unsigned)place, (unsigned)refusal, (unsigned)record[M16C_TAKEN]);
    return place + 1;
}

/* Up to the end of the sweep a place is the next start, or it was refused. */
static void list(int stopping)
{
    size_t count, end, refused, read, place = 0, k = 0;
    uint32_t refusal = stopping ? m16c_sweep_stopping(image, length, starts, M16C_LONGEST_IMAGE, &count, &end, &refused, &read)
                                : m16c_sweep(image, length, starts, M16C_LONGEST_IMAGE, &count, &end, &refused, &read);
    while (place < end)
        place = k < count && starts[k] == place ? list_instruction(starts[k++]) : list_refused(place);
    if (refusal == M16C_IMAGE_TOO_LONG)
        printf("REFUSED %d\n", M16C_IMAGE_TOO_LONG);
    else if (refusal == M16C_ACCEPTED)
        printf("END %04X\n", (unsigned)end);
    else
        list_refused(end);
}

int main(int argc, char **argv)
{
    int stopping = argc > 1 && strcmp(argv[1], "--stopping") == 0;
    const char *name = argc > 1 + stopping ? argv[1 + stopping] : "-";
    int is_input = strcmp(name, "-") == 0;
    if (argc > 2 + stopping || (name[0] == '-' && !is_input)) {
        fprintf(stderr, "usage: list [--stopping] [FILE]\n");
        return 2;
    }
    FILE *file = is_input ? stdin : fopen(name, "rb");
    if (file == NULL) {
        perror(name);
        return 2;
    }
    length = fread(image, 1, sizeof image, file);
    list(stopping);
    return ferror(file) || fflush(stdout) != 0;
}
