// Request A9's reading by the manual as a plain model, written from the request and from document 01's rows: of the codes that the request
// names it asks neither the port nor the Rust; all others are read as before. `oracle/build` puts it behind model.rs, as a module.

use super::model::{self, displacement_bytes, general, Decoded, Part, Width};
use super::{position, refused, Answer, ACCEPTED, EXHAUSTED_INPUT, INVALID_OPERAND, OPCODE_NAMES, OPERAND_NAMES, SIZE_NAMES};

/// Which decoding is asked: the one that was there before the request, or the one that the request adds.
#[derive(Debug, Copy, Clone, PartialEq, Eq)]
pub enum Reading {
    Present,
    Manual,
}

impl Reading {
    pub fn answer(self, bytes: &[u8]) -> Answer {
        match self.modelled(bytes) {
            Some(decoded) => decoded.answer,
            None => super::answer(bytes),
        }
    }

    /// What a model says of a string, where one has its code; else the Rust's nine decoders have it.
    pub fn modelled(self, bytes: &[u8]) -> Option<Decoded> {
        let named = match self {
            Reading::Present => None,
            Reading::Manual => decoded(bytes),
        };
        named.or_else(|| model::decoded(bytes))
    }
}

/// Whether the request names this code.
pub fn has(code: [u8; 2]) -> bool {
    row_of(code).is_some()
}

/// What the request says of a string that begins with a code that it names.
pub fn decoded(bytes: &[u8]) -> Option<Decoded> {
    match *bytes {
        [first, second, ..] => Some(read(row_of([first, second])?, bytes)),
        _ => None, // too short for a code: refused as before
    }
}

// ---- The rows that the request changes

struct Row {
    opcode: u8,
    size: u8,
    width: Width,
    operands: [u8; 2],
    /// A number that is part of the code.
    in_code: u32,
    /// What is done behind the code, in this order.
    steps: [Step; 3],
}

#[derive(Copy, Clone)]
enum Step {
    Nothing,
    /// With 3, whatever stands behind.
    Refuse,
    /// So many bytes for a displacement. An earlier one is kept in `first`.
    Dispabs(usize),
    /// So many bytes for `imm_wide`; of three bytes 20 bits count.
    ImmWide(usize),
}

macro_rules! opcode {
    ($name:ident) => {
        number!($name in OPCODE_NAMES)
    };
}

macro_rules! operand {
    ($name:ident) => {
        number!($name in OPERAND_NAMES)
    };
}

const NO_SIZE: u8 = position(SIZE_NAMES, "None");
const SIZE_B: u8 = position(SIZE_NAMES, "B");
const SIZE_W: u8 = position(SIZE_NAMES, "W");
const NOTHING: u8 = position(OPERAND_NAMES, "Nothing");

fn row_of([first, second]: [u8; 2]) -> Option<Row> {
    let (h, n) = (second >> 4, second & 0xF);
    let width = if first % 2 == 0 { Width::B } else { Width::W };
    Some(match (first, h, n) {
        (0x74 | 0x75, 3, _) => to_sp(width, n),
        (0x76 | 0x77, 9, _) => one_operand(opcode!(DIVX), width, n),
        (0x76 | 0x77, 0xC, _) => one_operand(opcode!(DIVU), width, n),
        (0x76 | 0x77, 0xE, _) => one_operand(opcode!(ADCF), width, n),
        (0x7A, 8..=0xF, _) => load_control(h - 8, n),
        (0x7C | 0x7D, 4, _) => multiply(opcode!(MULU), size_of(width), width, n),
        (0x7C | 0x7D, 5, _) => multiply(opcode!(MUL), NO_SIZE, width, n),
        (0x7D, 2, _) => word_jump(opcode!(JMPI), n),
        (0x7D, 3, _) => word_jump(opcode!(JSRI), n),
        (0x7D, 0xA, _) => Row { steps: [refuse_if(n >= 8), Step::Nothing, Step::Nothing], ..in_code(opcode!(LDIPL), n.into()) },
        (0x7D, 0xB, _) => Row { size: SIZE_W, operands: [operand!(Imm8), operand!(SP)], ..in_code(opcode!(ADD), extended(n)) },
        (0x7D, 0xD, 0xA) => condition(opcode!(BMGE)),
        (0x7D, 0xD, 0xD) => condition(opcode!(BMNO)),
        (0x7D, 0xD, 0xE) => condition(opcode!(BMLT)),
        (0xEB, 0..=7, 4) => flag(opcode!(FSET), h),
        (0xEB, 0..=7, 5) => flag(opcode!(FCLR), h),
        _ => return None,
    })
}

/// 74, 75: the source, then SP's byte.
fn to_sp(width: Width, n: u8) -> Row {
    Row {
        opcode: opcode!(MOV),
        size: size_of(width),
        width,
        operands: [general(n, width), operand!(Disp8_SP)],
        in_code: 0,
        steps: [displacement(n), Step::Dispabs(1), Step::Nothing],
    }
}

/// 76, 77: G(n) and no immediate.
fn one_operand(opcode: u8, width: Width, n: u8) -> Row {
    Row {
        opcode,
        size: size_of(width),
        width,
        operands: [general(n, width), NOTHING],
        in_code: 0,
        steps: [displacement(n), Step::Nothing, Step::Nothing],
    }
}

/// 7A: registers as at W, the width staying B; the control register is judged once the source was read, as before.
fn load_control(register: u8, n: u8) -> Row {
    const REGISTERS: [u8; 8] = [
        NOTHING, // refused
        operand!(INTBL),
        operand!(INTBH),
        operand!(FLG),
        operand!(ISP),
        operand!(SP),
        operand!(SB),
        operand!(FB),
    ];
    Row {
        opcode: opcode!(LDC),
        size: NO_SIZE,
        width: Width::B,
        operands: [general(n, Width::W), REGISTERS[usize::from(register)]],
        in_code: 0,
        steps: [displacement(n), refuse_if(register == 0), Step::Nothing],
    }
}

/// 7C, 7D: refused as before, then the destination, then the immediate.
fn multiply(opcode: u8, size: u8, width: Width, n: u8) -> Row {
    let refused = matches!((width, n), (_, 3 | 5) | (Width::B, 1) | (Width::W, 2));
    let (immediate, bytes) = if width == Width::B { (operand!(Imm8), 1) } else { (operand!(Imm16), 2) };
    Row {
        opcode,
        size,
        width,
        operands: [immediate, general(n, width)],
        in_code: 0,
        steps: [refuse_if(refused), displacement(n), Step::ImmWide(bytes)],
    }
}

/// 7D: six registers; above them as the jumps that were there before, C and D with 20 bits, and none refused.
fn word_jump(opcode: u8, n: u8) -> Row {
    let (operand, step) = match n {
        0xC => (operand!(Disp20_A0), Step::ImmWide(3)),
        0xD => (operand!(Disp20_A1), Step::ImmWide(3)),
        _ => (general(n, Width::W), displacement(n)),
    };
    Row { opcode, size: SIZE_W, width: Width::W, operands: [operand, NOTHING], in_code: 0, steps: [step, Step::Nothing, Step::Nothing] }
}

/// 7D: an immediate that is part of the code.
fn in_code(opcode: u8, number: u32) -> Row {
    Row { operands: [operand!(Imm8), NOTHING], in_code: number, ..condition(opcode) }
}

/// From -8 to 7, in 32 bits.
fn extended(n: u8) -> u32 {
    let n = u32::from(n);
    if n < 8 {
        n
    } else {
        n.wrapping_sub(16)
    }
}

/// 7D: the opcode alone.
fn condition(opcode: u8) -> Row {
    Row { opcode, size: NO_SIZE, width: Width::W, operands: [NOTHING; 2], in_code: 0, steps: [Step::Nothing; 3] }
}

/// EB, which has no width: the flag's number.
fn flag(opcode: u8, number: u8) -> Row {
    Row { width: Width::None, operands: [operand!(Imm4), NOTHING], in_code: number.into(), ..condition(opcode) }
}

fn size_of(width: Width) -> u8 {
    if width == Width::B {
        SIZE_B
    } else {
        SIZE_W
    }
}

fn displacement(code: u8) -> Step {
    Step::Dispabs(displacement_bytes(code))
}

fn refuse_if(refused: bool) -> Step {
    if refused {
        Step::Refuse
    } else {
        Step::Nothing
    }
}

// ---- Reading by a row

fn read(row: Row, bytes: &[u8]) -> Decoded {
    let mut taken = 2;
    let [mut first, mut dispabs, mut imm_wide]: [Part; 3] = [(0, 0); 3];
    for step in row.steps {
        let count = match step {
            Step::Nothing | Step::Dispabs(0) => continue,
            Step::Refuse => return blank(INVALID_OPERAND, taken),
            Step::Dispabs(count) | Step::ImmWide(count) => count,
        };
        if bytes.len() - taken < count {
            return blank(EXHAUSTED_INPUT, bytes.len());
        }
        let part = (taken as u32, count as u32);
        match step {
            Step::ImmWide(_) => imm_wide = part,
            _ => {
                first = dispabs;
                dispabs = part;
            }
        }
        taken += count;
    }
    let [op0, op1] = row.operands;
    Decoded {
        answer: Answer {
            refusal: ACCEPTED,
            taken,
            opcode: row.opcode,
            size: row.size,
            operands: [op0, op1, NOTHING],
            imm_wide: if imm_wide.1 == 0 { row.in_code } else { number(bytes, imm_wide) & 0xF_FFFF },
            dispabs: number(bytes, dispabs) as u16,
            first: number(bytes, first) as u16,
            length: taken as u8,
            registers: 0,
        },
        width: row.width,
        parts: [first, dispabs, imm_wide],
        dropped: imm_wide.1 == 3 && bytes[taken - 1] >= 0x10,
    }
}

fn blank(refusal: u8, taken: usize) -> Decoded {
    Decoded { answer: refused(refusal, taken), width: Width::None, parts: [(0, 0); 3], dropped: false }
}

/// Low byte first.
fn number(bytes: &[u8], (offset, width): Part) -> u32 {
    let byte = |k: u32| u32::from(bytes[(offset + k) as usize]) << (8 * k);
    (0..width).map(byte).sum()
}
