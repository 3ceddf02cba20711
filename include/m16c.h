/* The library that ./m16c library builds, for x86-64: decoding, encoding, sweeping and listing part of the M16C/60 instruction set.
 *
 * Every function answers for every input, refused ones too. It asks one thing: a pointer and the length behind it, counted in elements,
 * are memory to read (const) or to write, and what is written overlaps nothing else that is passed. A pointer whose length is 0 may be
 * NULL; a pointer without a length may not.
 *
 * An instruction is a record of M16C_NUMBERS numbers; names are numbers too. The enumerators have the names as the listing spells them,
 * in upper case: Disp8_A0 is M16C_OPERAND_DISP8_A0. The number that belongs to an operand is in IMM_WIDE or in DISPABS; where two
 * operands need DISPABS, it has that of operand 0 if this is Disp8_SP, else that of operand 1, and FIRST has the other: m16c_operand_number
 * tells it, with its sign. MARKED is 1 where decoding departs from the maker's manual; no marked form is ever encoded. It is 0 for A0 or A1
 * on both sides of a byte's MOV, ADD and so on (72 to C0) and for a list of no registers, which the manual forbids and decoding accepts.
 * DROPPED is 1 where a 20-bit number was read from three bytes of which the upper four bits, which are not kept, were not all zero; zeros
 * are encoded there.
 *
 * There are two readings. m16c_decode, m16c_encode, m16c_sweep, m16c_sweep_stopping and m16c_line go by document 01, which keeps answers
 * that depart from the manual, and marks them. The same names with _manual go by the manual in these rows, which are then not marked:
 *   74/75 3x MOV to SP; 76/77 9x DIVX, Cx DIVU, Ex ADCF; 7A 8x to Fx LDC; 7C/7D 4x MULU, 5x MUL; 7D 2x JMPI.W, 3x JSRI.W, Ax LDIPL,
 *   Bx ADD to SP, DA BMGE, DD BMNO, DE BMLT; EB x4 FSET, x5 FCLR, x below 8.
 * All other rows are as by document 01, marked ones too. m16c_length tells lengths by document 01 alone, and in some of these rows the
 * manual has others; m16c_operand_number takes records of both readings.
 *
 * WARNING: A RECORD DOES NOT SAY WHICH READING MADE IT. Encode with the reading that decoded: what m16c_decode filled by m16c_encode,
 * what m16c_decode_manual filled by m16c_encode_manual. The wrong encoder cannot tell, and may write another instruction:
 *   7D B9  m16c_decode         ADD.W Imm8=1,SP, marked                 m16c_encode_manual makes 7D B1 of it, another instruction
 *   7D B9  m16c_decode_manual  ADD.W Imm8=FFFFFFF9,SP, which adds -7   m16c_encode_manual makes 7D B9 of it, the same again
 * Nor do starts say which sweep found them: decode and list there by the reading of the sweep.
 *
 * Six numbers tell which bytes of the instruction FIRST, DISPABS and IMM_WIDE were read from. An OFFSET counts from the instruction's
 * first byte. A WIDTH is 1, 2 or 3 bytes, of which the low one comes first; three hold 20 bits. Both are 0 where no byte behind the second
 * was read: there is no such number, or the code has it, as in INT and PUSHM. These bytes may be changed in place to any number of that
 * width: decoding gives the same record again, but for this number, and for DROPPED if there are three bytes. Encoding ignores the six.
 * They go by numbers, not by operands: in the rows 74 3x and 75 3x, which document 01 marks, DISPABS is by its reading the source's
 * displacement, operand 0's, although the listing shows that number under operand 1, Disp8_SP.
 *
 * The list of PUSHM and of POPM is one byte, the number of RegList in IMM_WIDE, with a bit for each register. REGISTERS is how many
 * registers the list names, so how many bits are one; 0 for the empty list, which is accepted, and in every other record. Encoding ignores
 * it. POPM has the bits the other way round:
 *          80 40 20 10 08 04 02 01
 *   PUSHM  R0 R1 R2 R3 A0 A1 SB FB
 *   POPM   FB SB A1 A0 R3 R2 R1 R0 */
#ifndef M16C_H
#define M16C_H

#include <stddef.h>
#include <stdint.h>

/* Made by scripts/interface: version */
#define M16C_VERSION "0.1.0"
#define M16C_VERSION_MAJOR 0
#define M16C_VERSION_MINOR 1
#define M16C_VERSION_PATCH 0
/* End of what is made */

#ifdef __cplusplus
extern "C" {
#endif

/* Made by scripts/interface: names */
enum m16c_longest {
    M16C_LONGEST_IMAGE = 4096, /* the longest image that is swept, in bytes */
    M16C_LONGEST_INSTRUCTION = 7, /* the longest instruction, in bytes */
    M16C_LONGEST_LINE = 120 /* room that is enough for every line, in bytes */
};

/* What a function returns. */
enum m16c_refusal {
    M16C_ACCEPTED = 0, /* done */
    M16C_EXHAUSTED_INPUT = 1, /* decoding: the image ends inside the instruction; asked for a length: there are fewer than two bytes */
    M16C_INVALID_OPCODE = 2, /* decoding: no instruction has this code or this condition byte */
    M16C_INVALID_OPERAND = 3, /* decoding: the instruction does not take this operand */
    M16C_FIRST_BYTE_OUTSIDE = 4, /* decoding: not one of the 34 first bytes that are decoded here */
    M16C_NO_STRING = 5, /* encoding: no bytes decode to this instruction, but for those of marked rows; asked for a number: there is none */
    M16C_TOO_LITTLE_ROOM = 6, /* what was passed in for the result is too short */
    M16C_IMAGE_TOO_LONG = 7 /* sweeping: the image is longer than 4,096 bytes */
};

/* The numbers of a record, by their index. */
enum m16c_number {
    M16C_TAKEN = 0,
    M16C_OPCODE = 1,
    M16C_SIZE = 2,
    M16C_WIDTH = 3,
    M16C_OP0 = 4,
    M16C_OP1 = 5,
    M16C_OP2 = 6,
    M16C_IMM_WIDE = 7,
    M16C_DISPABS = 8,
    M16C_FIRST = 9,
    M16C_LENGTH = 10,
    M16C_MARKED = 11,
    M16C_DROPPED = 12,
    M16C_FIRST_OFFSET = 13,
    M16C_FIRST_WIDTH = 14,
    M16C_DISPABS_OFFSET = 15,
    M16C_DISPABS_WIDTH = 16,
    M16C_IMM_WIDE_OFFSET = 17,
    M16C_IMM_WIDE_WIDTH = 18,
    M16C_REGISTERS = 19,
    M16C_NUMBERS = 20
};

/* The width that decoding starts with, by the first byte. */
enum m16c_width {
    M16C_WIDTH_NONE = 0,
    M16C_WIDTH_B = 1,
    M16C_WIDTH_W = 2
};

/* The size that an opcode carries. */
enum m16c_size {
    M16C_SIZE_NONE = 0,
    M16C_SIZE_B = 1,
    M16C_SIZE_W = 2,
    M16C_SIZE_L = 3
};

enum m16c_opcode {
    M16C_OPCODE_NOP = 0,
    M16C_OPCODE_ABS = 1,
    M16C_OPCODE_ADC = 2,
    M16C_OPCODE_ADCF = 3,
    M16C_OPCODE_ADD = 4,
    M16C_OPCODE_AND = 5,
    M16C_OPCODE_BAND = 6,
    M16C_OPCODE_BCLR = 7,
    M16C_OPCODE_BMEQ = 8,
    M16C_OPCODE_BMGEU = 9,
    M16C_OPCODE_BMGT = 10,
    M16C_OPCODE_BMGTU = 11,
    M16C_OPCODE_BMLE = 12,
    M16C_OPCODE_BMLEU = 13,
    M16C_OPCODE_BMLTU = 14,
    M16C_OPCODE_BMLT = 15,
    M16C_OPCODE_BMNO = 16,
    M16C_OPCODE_BMGE = 17,
    M16C_OPCODE_BMN = 18,
    M16C_OPCODE_BMNE = 19,
    M16C_OPCODE_BMO = 20,
    M16C_OPCODE_BMPZ = 21,
    M16C_OPCODE_BNAND = 22,
    M16C_OPCODE_BNOR = 23,
    M16C_OPCODE_BNOT = 24,
    M16C_OPCODE_BNTST = 25,
    M16C_OPCODE_BNXOR = 26,
    M16C_OPCODE_BOR = 27,
    M16C_OPCODE_BSET = 28,
    M16C_OPCODE_BTST = 29,
    M16C_OPCODE_BTSTC = 30,
    M16C_OPCODE_BTSTS = 31,
    M16C_OPCODE_BXOR = 32,
    M16C_OPCODE_CMP = 33,
    M16C_OPCODE_DADC = 34,
    M16C_OPCODE_DADD = 35,
    M16C_OPCODE_DIV = 36,
    M16C_OPCODE_DIVU = 37,
    M16C_OPCODE_DIVX = 38,
    M16C_OPCODE_DSBB = 39,
    M16C_OPCODE_DSUB = 40,
    M16C_OPCODE_ENTER = 41,
    M16C_OPCODE_EXITD = 42,
    M16C_OPCODE_EXTS = 43,
    M16C_OPCODE_FCLR = 44,
    M16C_OPCODE_FSET = 45,
    M16C_OPCODE_GE = 46,
    M16C_OPCODE_INT = 47,
    M16C_OPCODE_JGE = 48,
    M16C_OPCODE_JGT = 49,
    M16C_OPCODE_JLE = 50,
    M16C_OPCODE_JLT = 51,
    M16C_OPCODE_JMPI = 52,
    M16C_OPCODE_JNO = 53,
    M16C_OPCODE_JO = 54,
    M16C_OPCODE_JSRI = 55,
    M16C_OPCODE_LDC = 56,
    M16C_OPCODE_LDCTX = 57,
    M16C_OPCODE_LDE = 58,
    M16C_OPCODE_LDIPL = 59,
    M16C_OPCODE_LT = 60,
    M16C_OPCODE_MOV = 61,
    M16C_OPCODE_MOVA = 62,
    M16C_OPCODE_MOVHH = 63,
    M16C_OPCODE_MOVHL = 64,
    M16C_OPCODE_MOVLH = 65,
    M16C_OPCODE_MOVLL = 66,
    M16C_OPCODE_MUL = 67,
    M16C_OPCODE_MULU = 68,
    M16C_OPCODE_NEG = 69,
    M16C_OPCODE_NO = 70,
    M16C_OPCODE_NOT = 71,
    M16C_OPCODE_OR = 72,
    M16C_OPCODE_POP = 73,
    M16C_OPCODE_POPC = 74,
    M16C_OPCODE_POPM = 75,
    M16C_OPCODE_PUSH = 76,
    M16C_OPCODE_PUSHA = 77,
    M16C_OPCODE_PUSHC = 78,
    M16C_OPCODE_PUSHM = 79,
    M16C_OPCODE_RMPA = 80,
    M16C_OPCODE_ROLC = 81,
    M16C_OPCODE_RORC = 82,
    M16C_OPCODE_ROT = 83,
    M16C_OPCODE_SBB = 84,
    M16C_OPCODE_SHA = 85,
    M16C_OPCODE_SHL = 86,
    M16C_OPCODE_SMOVB = 87,
    M16C_OPCODE_SMOVF = 88,
    M16C_OPCODE_SSTR = 89,
    M16C_OPCODE_STC = 90,
    M16C_OPCODE_STCTX = 91,
    M16C_OPCODE_STE = 92,
    M16C_OPCODE_SUB = 93,
    M16C_OPCODE_TST = 94,
    M16C_OPCODE_WAIT = 95,
    M16C_OPCODE_XCHG = 96,
    M16C_OPCODE_XOR = 97
};

enum m16c_operand {
    M16C_OPERAND_NOTHING = 0,
    M16C_OPERAND_IMM4 = 1,
    M16C_OPERAND_IMM8 = 2,
    M16C_OPERAND_IMM16 = 3,
    M16C_OPERAND_R0L = 4,
    M16C_OPERAND_R0H = 5,
    M16C_OPERAND_R1L = 6,
    M16C_OPERAND_R1H = 7,
    M16C_OPERAND_R0 = 8,
    M16C_OPERAND_R1 = 9,
    M16C_OPERAND_R2 = 10,
    M16C_OPERAND_R3 = 11,
    M16C_OPERAND_R2R0 = 12,
    M16C_OPERAND_R3R1 = 13,
    M16C_OPERAND_A0 = 14,
    M16C_OPERAND_A1 = 15,
    M16C_OPERAND_A1A0 = 16,
    M16C_OPERAND_BIT_R0 = 17,
    M16C_OPERAND_BIT_R1 = 18,
    M16C_OPERAND_BIT_R2 = 19,
    M16C_OPERAND_BIT_R3 = 20,
    M16C_OPERAND_BIT_A0 = 21,
    M16C_OPERAND_BIT_A1 = 22,
    M16C_OPERAND_BIT_DEREF_A0 = 23,
    M16C_OPERAND_BIT_DEREF_A1 = 24,
    M16C_OPERAND_BIT_DISP8_A0 = 25,
    M16C_OPERAND_BIT_DISP8_A1 = 26,
    M16C_OPERAND_BIT_DISP8_SB = 27,
    M16C_OPERAND_BIT_DISP8_FB = 28,
    M16C_OPERAND_BIT_DISP16_A0 = 29,
    M16C_OPERAND_BIT_DISP16_A1 = 30,
    M16C_OPERAND_BIT_DISP16_SB = 31,
    M16C_OPERAND_BIT_ABS16 = 32,
    M16C_OPERAND_DISP8_A0 = 33,
    M16C_OPERAND_DISP8_A1 = 34,
    M16C_OPERAND_DISP8_SB = 35,
    M16C_OPERAND_DISP8_FB = 36,
    M16C_OPERAND_DISP8_SP = 37,
    M16C_OPERAND_DISP16_A0 = 38,
    M16C_OPERAND_DISP16_A1 = 39,
    M16C_OPERAND_DISP16_SB = 40,
    M16C_OPERAND_DISP20_A0 = 41,
    M16C_OPERAND_DISP20_A1 = 42,
    M16C_OPERAND_DEREF_A0 = 43,
    M16C_OPERAND_DEREF_A1 = 44,
    M16C_OPERAND_DEREF_A1A0 = 45,
    M16C_OPERAND_ABS16 = 46,
    M16C_OPERAND_ABS20 = 47,
    M16C_OPERAND_DISP8 = 48,
    M16C_OPERAND_REGLIST = 49,
    M16C_OPERAND_INTBL = 50,
    M16C_OPERAND_INTBH = 51,
    M16C_OPERAND_FLG = 52,
    M16C_OPERAND_ISP = 53,
    M16C_OPERAND_SP = 54,
    M16C_OPERAND_SB = 55,
    M16C_OPERAND_FB = 56
};
/* End of what is made */

/* Made by scripts/interface: functions */
/* Decodes at a place of an image. Returns the refusal, 0 for none, and fills twenty entries: taken, opcode, size, width, three
 * operands, imm_wide, dispabs, first, length, marked, dropped, then offset and width of the bytes that first, dispabs and imm_wide were
 * read from, and how many registers a list names. With fewer than twenty entries it returns 6 and touches none. */
uint32_t m16c_decode(const uint8_t *image, size_t image_length, size_t at, uint32_t *out, size_t out_length);

/* Decodes as m16c_decode does, by the manual. The record does not say so: encode it by m16c_encode_manual. */
uint32_t m16c_decode_manual(const uint8_t *image, size_t image_length, size_t at, uint32_t *out, size_t out_length);

/* Encodes the record of the first twelve numbers that m16c_decode fills, from a place of a buffer on. Taken, length and marked do not
 * count, nor what stands behind. Returns 0 and leaves the number of bytes written, or 5 or 6 with 0 and the buffer as it was. */
uint32_t m16c_encode(const uint32_t *numbers, size_t numbers_length, uint8_t *buf, size_t buf_length, size_t place, size_t *bytes_written);

/* Encodes as m16c_encode does, by the manual: records that m16c_decode_manual fills. A record does not say which reading made it, and of one
 * that m16c_decode filled this may write another instruction: the record of 7D B9 becomes 7D B1. */
uint32_t m16c_encode_manual(const uint32_t *numbers, size_t numbers_length, uint8_t *buf, size_t buf_length, size_t place, size_t *bytes_written);

/* The starts of an image's instructions, to its end: a refused place is counted, and the next byte decoded. Returns 0, and leaves how many
 * starts were kept, the image's length, how many places were refused and how many bytes all decodings took, at most three times the image's
 * length; or returns 7 or 6, and leaves 0 and the starts as they were. */
uint32_t m16c_sweep(const uint8_t *image, size_t image_length, uint16_t *starts, size_t starts_length, size_t *count, size_t *place, size_t *refused, size_t *read);

/* The starts of an image's instructions, to its end or the first refusal. Returns that refusal, 0 at the end, and leaves how many starts
 * were kept, where decoding stopped, 0 for refused and how many bytes all decodings took, the refused one too, at most the image's length;
 * or returns 7 or 6, and leaves 0 and the starts as they were. */
uint32_t m16c_sweep_stopping(const uint8_t *image, size_t image_length, uint16_t *starts, size_t starts_length, size_t *count, size_t *place, size_t *refused, size_t *read);

/* Sweeps as m16c_sweep does, by the manual. The starts do not say so: decode and list there by the manual too. */
uint32_t m16c_sweep_manual(const uint8_t *image, size_t image_length, uint16_t *starts, size_t starts_length, size_t *count, size_t *place, size_t *refused, size_t *read);

/* Sweeps as m16c_sweep_stopping does, by the manual. The starts do not say so: decode and list there by the manual too. */
uint32_t m16c_sweep_manual_stopping(const uint8_t *image, size_t image_length, uint16_t *starts, size_t starts_length, size_t *count, size_t *place, size_t *refused, size_t *read);

/* The listing's line of the instruction at a place of an image, without a newline, over the first bytes of a buffer. Returns 0 and leaves
 * the line's length; or decoding's refusal, or 6 where the line has no room, with length 0 and the buffer as it was. */
uint32_t m16c_line(const uint8_t *image, size_t image_length, size_t at, uint8_t *out, size_t out_length, size_t *line_length);

/* The line as m16c_line writes it, of the instruction that stands there by the manual. */
uint32_t m16c_line_manual(const uint8_t *image, size_t image_length, size_t at, uint8_t *out, size_t out_length, size_t *line_length);

/* The length that every instruction has that m16c_decode accepts and that begins with the first two bytes; more bytes do not count, and by
 * the manual some lengths are others. Returns 0 and leaves the length; or a refusal and 0: 4 for a first byte outside, then 1 for fewer than
 * two bytes, else 2 or 3 where no bytes behind these two make an instruction. */
uint32_t m16c_length(const uint8_t *bytes, size_t bytes_length, size_t *length);

/* The number of operand k of the record of the first twelve numbers that m16c_decode fills: signed for Disp8_FB and Disp8, whose low byte
 * counts from -128 to 127, and for any other name its field as it is. Taken, length and marked do not count, nor what stands behind.
 * Returns 0 and leaves the number; or 5 and 0 where the numbers make no record or it has no operand k with a number. */
uint32_t m16c_operand_number(const uint32_t *numbers, size_t numbers_length, size_t k, int64_t *number);
/* End of what is made */

#ifdef __cplusplus
}
#endif

#endif
