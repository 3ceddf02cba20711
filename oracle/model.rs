// Request A7's first bytes as a plain model, written from the request and from the rules' table of general operands: it asks neither the
// port nor the Rust. `oracle/build` puts it behind driver.rs, as a module.

use super::{position, refused, Answer, ACCEPTED, EXHAUSTED_INPUT, OPCODE_NAMES, OPERAND_NAMES, SIZE_NAMES};

// By the first byte at width B; the next is the same opcode at W.
const PAIRS: [(u8, u8); 10] = [
    (0x72, opcode("MOV")),
    (0x80, opcode("TST")),
    (0x88, opcode("XOR")),
    (0x90, opcode("AND")),
    (0x98, opcode("OR")),
    (0xA0, opcode("ADD")),
    (0xA8, opcode("SUB")),
    (0xB0, opcode("ADC")),
    (0xB8, opcode("SBB")),
    (0xC0, opcode("CMP")),
];
const LISTS: [(u8, u8); 2] = [(0xEC, opcode("PUSHM")), (0xED, opcode("POPM"))];

// General operands by their code: four registers, which the width names, then twelve that it does not.
const REGISTERS_B: [u8; 4] = operands(["R0L", "R0H", "R1L", "R1H"]);
const REGISTERS_W: [u8; 4] = operands(["R0", "R1", "R2", "R3"]);
#[rustfmt::skip]
const OTHERS: [u8; 12] = operands([
    "A0", "A1", "Deref_A0", "Deref_A1", "Disp8_A0", "Disp8_A1", "Disp8_SB", "Disp8_FB", "Disp16_A0", "Disp16_A1", "Disp16_SB", "Abs16",
]);
const REG_LIST: [u8; 1] = operands(["RegList"]);

// An opcode of two operands carries the width as its size.
const SIZE_B: u8 = position(SIZE_NAMES, "B");
const SIZE_W: u8 = position(SIZE_NAMES, "W");

const fn opcode(name: &str) -> u8 {
    position(OPCODE_NAMES, name)
}

const fn operands<const N: usize>(names: [&str; N]) -> [u8; N] {
    let mut numbers = [0; N];
    let mut k = 0;
    while k < N {
        numbers[k] = position(OPERAND_NAMES, names[k]);
        k += 1;
    }
    numbers
}

/// None, B and W, as `width` has them.
#[derive(Debug, Copy, Clone, PartialEq, Eq)]
pub enum Width {
    None,
    B,
    W,
}

/// Offset and width of the bytes of a number; zeros where no byte behind the second was read for it.
pub type Part = (u32, u32);

#[derive(Debug, Copy, Clone, PartialEq, Eq)]
pub struct Decoded {
    pub answer: Answer,
    pub width: Width,
    /// Of `first`, of `dispabs` and of `imm_wide`.
    pub parts: [Part; 3],
    /// Whether bits of a 20-bit number were dropped: request A7 has none.
    pub dropped: bool,
}

/// Whether the request has this first byte.
pub fn has(first: u8) -> bool {
    row_of(first).is_some()
}

/// What the request says of a string that begins with one of its first bytes. These are refused only where bytes run out.
pub fn decoded(bytes: &[u8]) -> Option<Decoded> {
    let row = row_of(*bytes.first()?)?;
    Some(match bytes.get(1) {
        Some(second) if length_of(row, *second) <= bytes.len() => accepted(row, *second, bytes),
        _ => Decoded { answer: refused(EXHAUSTED_INPUT, bytes.len()), width: Width::None, parts: [(0, 0); 3], dropped: false },
    })
}

#[derive(Copy, Clone)]
enum Row {
    Pair { opcode: u8, width: Width },
    List { opcode: u8 },
}

fn row_of(first: u8) -> Option<Row> {
    let named = |rows: &[(u8, u8)], wanted: u8| rows.iter().find(|(first, _)| *first == wanted).map(|(_, opcode)| *opcode);
    let pair = |wanted, width| named(&PAIRS, wanted).map(|opcode| Row::Pair { opcode, width });
    let list = || named(&LISTS, first).map(|opcode| Row::List { opcode });
    pair(first, Width::B).or_else(|| pair(first.wrapping_sub(1), Width::W)).or_else(list)
}

fn length_of(row: Row, second: u8) -> usize {
    match row {
        Row::Pair { .. } => 2 + displacement_bytes(source(second)) + displacement_bytes(destination(second)),
        Row::List { .. } => 2,
    }
}

fn source(second: u8) -> u8 {
    second >> 4
}

fn destination(second: u8) -> u8 {
    second & 0xF
}

pub fn displacement_bytes(code: u8) -> usize {
    match code {
        0..=7 => 0,
        8..=0xB => 1,
        _ => 2,
    }
}

fn accepted(row: Row, second: u8, bytes: &[u8]) -> Decoded {
    match row {
        Row::Pair { opcode, width } => pair(opcode, width, second, bytes),
        Row::List { opcode } => list(opcode, second),
    }
}

fn pair(opcode: u8, width: Width, second: u8, bytes: &[u8]) -> Decoded {
    let [first, dispabs] = displacements(displacement_bytes(source(second)), displacement_bytes(destination(second)));
    let length = length_of(Row::Pair { opcode, width }, second);
    Decoded {
        answer: Answer {
            refusal: ACCEPTED,
            taken: length,
            opcode,
            size: if width == Width::B { SIZE_B } else { SIZE_W },
            operands: [general(source(second), width), general(destination(second), width), 0],
            imm_wide: 0,
            dispabs: number(bytes, dispabs),
            first: number(bytes, first),
            length: length as u8,
            registers: 0,
        },
        width,
        parts: [first, dispabs, (0, 0)],
        dropped: false,
    }
}

/// The parts of `first` and `dispabs`, by how many bytes source and destination read. The source's come first, right behind the code; of
/// two displacements the earlier is in `first`, and one alone is in `dispabs`.
fn displacements(source: usize, destination: usize) -> [Part; 2] {
    let (source, destination) = (source as u32, destination as u32);
    match (source, destination) {
        (0, 0) => [(0, 0), (0, 0)],
        (_, 0) => [(0, 0), (2, source)],
        (0, _) => [(0, 0), (2, destination)],
        _ => [(2, source), (2 + source, destination)],
    }
}

/// Low byte first.
fn number(bytes: &[u8], (offset, width): Part) -> u16 {
    let byte = |k: u32| u16::from(bytes[(offset + k) as usize]) << (8 * k);
    (0..width).map(byte).sum()
}

pub fn general(code: u8, width: Width) -> u8 {
    let code = usize::from(code);
    match width {
        _ if code >= 4 => OTHERS[code - 4],
        Width::B => REGISTERS_B[code],
        _ => REGISTERS_W[code],
    }
}

/// The list is the second byte as it stands; nothing behind it is read.
fn list(opcode: u8, second: u8) -> Decoded {
    Decoded {
        answer: Answer {
            refusal: ACCEPTED,
            taken: 2,
            opcode,
            size: 0,
            operands: [REG_LIST[0], 0, 0],
            imm_wide: second.into(),
            dispabs: 0,
            first: 0,
            length: 2,
            registers: (0..8).map(|bit| second >> bit & 1).sum(),
        },
        width: Width::None,
        parts: [(0, 0); 3],
        dropped: false,
    }
}
