// The functions as C has them: a slice is a pointer and a length in elements, a number to be written a pointer.
// Made by scripts/interface from the crates of the functions: change those, not this.

/// The longest image that is swept, in bytes.
pub const LONGEST_IMAGE: usize = 4096;

/// The longest instruction, in bytes.
pub const LONGEST_INSTRUCTION: usize = 7;

/// Room that is enough for every line, in bytes.
pub const LONGEST_LINE: usize = 120;

extern "C" {
    /// Decodes at a place of an image. Returns the refusal, 0 for none, and fills twenty entries: taken, opcode, size, width, three
    /// operands, imm_wide, dispabs, first, length, marked, dropped, then offset and width of the bytes that first, dispabs and imm_wide were
    /// read from, and how many registers a list names. With fewer than twenty entries it returns 6 and touches none.
    pub fn m16c_decode(
        image: *const u8, image_length: usize,
        at: usize,
        out: *mut u32, out_length: usize,
    ) -> u32;

    /// Decodes as m16c_decode does, by the manual. The record does not say so: encode it by m16c_encode_manual.
    pub fn m16c_decode_manual(
        image: *const u8, image_length: usize,
        at: usize,
        out: *mut u32, out_length: usize,
    ) -> u32;

    /// Encodes the record of the first twelve numbers that m16c_decode fills, from a place of a buffer on. Taken, length and marked do not
    /// count, nor what stands behind. Returns 0 and leaves the number of bytes written, or 5 or 6 with 0 and the buffer as it was.
    pub fn m16c_encode(
        numbers: *const u32, numbers_length: usize,
        buf: *mut u8, buf_length: usize,
        place: usize,
        bytes_written: *mut usize,
    ) -> u32;

    /// Encodes as m16c_encode does, by the manual: records that m16c_decode_manual fills. A record does not say which reading made it, and of one
    /// that m16c_decode filled this may write another instruction: the record of 7D B9 becomes 7D B1.
    pub fn m16c_encode_manual(
        numbers: *const u32, numbers_length: usize,
        buf: *mut u8, buf_length: usize,
        place: usize,
        bytes_written: *mut usize,
    ) -> u32;

    /// The starts of an image's instructions, to its end: a refused place is counted, and the next byte decoded. Returns 0, and leaves how many
    /// starts were kept, the image's length, how many places were refused and how many bytes all decodings took, at most three times the image's
    /// length; or returns 7 or 6, and leaves 0 and the starts as they were.
    pub fn m16c_sweep(
        image: *const u8, image_length: usize,
        starts: *mut u16, starts_length: usize,
        count: *mut usize,
        place: *mut usize,
        refused: *mut usize,
        read: *mut usize,
    ) -> u32;

    /// The starts of an image's instructions, to its end or the first refusal. Returns that refusal, 0 at the end, and leaves how many starts
    /// were kept, where decoding stopped, 0 for refused and how many bytes all decodings took, the refused one too, at most the image's length;
    /// or returns 7 or 6, and leaves 0 and the starts as they were.
    pub fn m16c_sweep_stopping(
        image: *const u8, image_length: usize,
        starts: *mut u16, starts_length: usize,
        count: *mut usize,
        place: *mut usize,
        refused: *mut usize,
        read: *mut usize,
    ) -> u32;

    /// Sweeps as m16c_sweep does, by the manual. The starts do not say so: decode and list there by the manual too.
    pub fn m16c_sweep_manual(
        image: *const u8, image_length: usize,
        starts: *mut u16, starts_length: usize,
        count: *mut usize,
        place: *mut usize,
        refused: *mut usize,
        read: *mut usize,
    ) -> u32;

    /// Sweeps as m16c_sweep_stopping does, by the manual. The starts do not say so: decode and list there by the manual too.
    pub fn m16c_sweep_manual_stopping(
        image: *const u8, image_length: usize,
        starts: *mut u16, starts_length: usize,
        count: *mut usize,
        place: *mut usize,
        refused: *mut usize,
        read: *mut usize,
    ) -> u32;

    /// The listing's line of the instruction at a place of an image, without a newline, over the first bytes of a buffer. Returns 0 and leaves
    /// the line's length; or decoding's refusal, or 6 where the line has no room, with length 0 and the buffer as it was.
    pub fn m16c_line(
        image: *const u8, image_length: usize,
        at: usize,
        out: *mut u8, out_length: usize,
        line_length: *mut usize,
    ) -> u32;

    /// The line as m16c_line writes it, of the instruction that stands there by the manual.
    pub fn m16c_line_manual(
        image: *const u8, image_length: usize,
        at: usize,
        out: *mut u8, out_length: usize,
        line_length: *mut usize,
    ) -> u32;

    /// The length that every instruction has that m16c_decode accepts and that begins with the first two bytes; more bytes do not count, and by
    /// the manual some lengths are others. Returns 0 and leaves the length; or a refusal and 0: 4 for a first byte outside, then 1 for fewer than
    /// two bytes, else 2 or 3 where no bytes behind these two make an instruction.
    pub fn m16c_length(
        bytes: *const u8, bytes_length: usize,
        length: *mut usize,
    ) -> u32;

    /// The number of operand k of the record of the first twelve numbers that m16c_decode fills: signed for Disp8_FB and Disp8, whose low byte
    /// counts from -128 to 127, and for any other name its field as it is. Taken, length and marked do not count, nor what stands behind.
    /// Returns 0 and leaves the number; or 5 and 0 where the numbers make no record or it has no operand k with a number.
    pub fn m16c_operand_number(
        numbers: *const u32, numbers_length: usize,
        k: usize,
        number: *mut i64,
    ) -> u32;
}

// The types of the functions, for programs that pass them on.

pub type Decode = unsafe extern "C" fn(
    image: *const u8, image_length: usize,
    at: usize,
    out: *mut u32, out_length: usize,
) -> u32;

pub type DecodeManual = unsafe extern "C" fn(
    image: *const u8, image_length: usize,
    at: usize,
    out: *mut u32, out_length: usize,
) -> u32;

pub type Encode = unsafe extern "C" fn(
    numbers: *const u32, numbers_length: usize,
    buf: *mut u8, buf_length: usize,
    place: usize,
    bytes_written: *mut usize,
) -> u32;

pub type EncodeManual = unsafe extern "C" fn(
    numbers: *const u32, numbers_length: usize,
    buf: *mut u8, buf_length: usize,
    place: usize,
    bytes_written: *mut usize,
) -> u32;

pub type Sweep = unsafe extern "C" fn(
    image: *const u8, image_length: usize,
    starts: *mut u16, starts_length: usize,
    count: *mut usize,
    place: *mut usize,
    refused: *mut usize,
    read: *mut usize,
) -> u32;

pub type SweepStopping = unsafe extern "C" fn(
    image: *const u8, image_length: usize,
    starts: *mut u16, starts_length: usize,
    count: *mut usize,
    place: *mut usize,
    refused: *mut usize,
    read: *mut usize,
) -> u32;

pub type SweepManual = unsafe extern "C" fn(
    image: *const u8, image_length: usize,
    starts: *mut u16, starts_length: usize,
    count: *mut usize,
    place: *mut usize,
    refused: *mut usize,
    read: *mut usize,
) -> u32;

pub type SweepManualStopping = unsafe extern "C" fn(
    image: *const u8, image_length: usize,
    starts: *mut u16, starts_length: usize,
    count: *mut usize,
    place: *mut usize,
    refused: *mut usize,
    read: *mut usize,
) -> u32;

pub type Line = unsafe extern "C" fn(
    image: *const u8, image_length: usize,
    at: usize,
    out: *mut u8, out_length: usize,
    line_length: *mut usize,
) -> u32;

pub type LineManual = unsafe extern "C" fn(
    image: *const u8, image_length: usize,
    at: usize,
    out: *mut u8, out_length: usize,
    line_length: *mut usize,
) -> u32;

pub type Length = unsafe extern "C" fn(
    bytes: *const u8, bytes_length: usize,
    length: *mut usize,
) -> u32;

pub type OperandNumber = unsafe extern "C" fn(
    numbers: *const u32, numbers_length: usize,
    k: usize,
    number: *mut i64,
) -> u32;
