//! Request A7's ten pairs of first bytes, against the rule: every record, every cut string, and the shortest bytes of each.

use m16c::OperandSpec::{self, *};
use m16c::{decode, encode, line, LONGEST_INSTRUCTION};
use m16c::{Instruction, Opcode, Part, Parts, Refusal, Refused, Size, Width};

/// Even first bytes with their opcodes; the odd ones behind them are of words.
const PAIRS: [(u8, fn(Size) -> Opcode); 10] = [
    (0x72, Opcode::MOV),
    (0x80, Opcode::TST),
    (0x88, Opcode::XOR),
    (0x90, Opcode::AND),
    (0x98, Opcode::OR),
    (0xA0, Opcode::ADD),
    (0xA8, Opcode::SUB),
    (0xB0, Opcode::ADC),
    (0xB8, Opcode::SBB),
    (0xC0, Opcode::CMP),
];

const BYTE_REGISTERS: [OperandSpec; 4] = [R0L, R0H, R1L, R1H];
const WORD_REGISTERS: [OperandSpec; 4] = [R0, R1, R2, R3];
#[rustfmt::skip]
const OTHERS: [OperandSpec; 12] = [
    A0, A1, Deref_A0, Deref_A1,
    Disp8_A0, Disp8_A1, Disp8_SB, Disp8_FB,
    Disp16_A0, Disp16_A1, Disp16_SB, Abs16,
];

// Bytes behind a code: zeros, numbers that 8 bits hold in two bytes, and numbers that need all of them.
const TAILS: [[u8; 4]; 5] = [
    [0x00, 0x00, 0x00, 0x00],
    [0x05, 0x00, 0xFF, 0x00],
    [0x00, 0x01, 0x80, 0x7F],
    [0xFE, 0x12, 0x34, 0x56],
    [0x00, 0x80, 0x00, 0x00],
];

/// A pair's first byte at a size.
#[derive(Debug, Clone, Copy)]
struct First {
    byte: u8,
    opcode: Opcode,
    size: Size,
}

fn firsts() -> impl Iterator<Item = First> {
    let both = |(byte, opcode): (u8, fn(Size) -> Opcode)| {
        [(byte, Size::B), (byte + 1, Size::W)].map(|(byte, size)| First { byte, opcode: opcode(size), size })
    };
    PAIRS.into_iter().flat_map(both)
}

impl First {
    fn width(self) -> Width {
        match self.size {
            Size::B => Width::B,
            _ => Width::W,
        }
    }

    fn name(self, code: u8) -> OperandSpec {
        let registers = if self.size == Size::B { BYTE_REGISTERS } else { WORD_REGISTERS };
        let code = usize::from(code);
        registers.get(code).copied().unwrap_or_else(|| OTHERS[code - registers.len()])
    }
}

/// How many bytes a code reads.
fn displacement(code: u8) -> u8 {
    [0, 0, 1, 2][usize::from(code >> 2)]
}

/// The strings of a first byte: every second byte with each tail.
fn strings(first: First) -> impl Iterator<Item = [u8; 6]> {
    (0..=0xFF).flat_map(move |second| TAILS.map(|[a, b, c, d]| [first.byte, second, a, b, c, d]))
}

fn length(second: u8) -> u8 {
    2 + displacement(second >> 4) + displacement(second & 0xF)
}

fn read(bytes: &[u8]) -> u16 {
    bytes.iter().rev().fold(0, |above, byte| above << 8 | u16::from(*byte))
}

/// The record of a string: the source above, the destination below, the source's bytes first.
fn record(first: First, bytes: &[u8; 6]) -> Instruction {
    let (source, destination) = (bytes[1] >> 4, bytes[1] & 0xF);
    let part = |offset: u8, width: u8| (width > 0).then_some(Part { offset, width });
    let source_part = part(2, displacement(source));
    let destination_part = part(2 + displacement(source), displacement(destination));
    let number = |part: Option<Part>| part.map_or(0, |part| read(&bytes[part.range()]));
    // Of two displacements the earlier one is in `first`; one alone is in `dispabs`, whichever operand has it.
    let (earlier, later) = match (source_part, destination_part) {
        (source, None) => (None, source),
        both => both,
    };
    Instruction {
        opcode: first.opcode,
        width: first.width(),
        operands: [first.name(source), first.name(destination), Nothing],
        dispabs: number(later),
        first: number(earlier),
        length: length(bytes[1]),
        parts: Parts { first: earlier, dispabs: later, imm_wide: None },
        ..Instruction::default()
    }
}

#[test]
fn every_record() {
    for first in firsts() {
        for bytes in strings(first) {
            assert_eq!(decode(&bytes, 0), Ok(record(first, &bytes)), "{bytes:X?}");
        }
    }
}

#[test]
fn every_cut_string() {
    for first in firsts() {
        for bytes in strings(first) {
            for taken in 1..usize::from(length(bytes[1])) {
                let refused = Refused { place: 0, refusal: Refusal::ExhaustedInput, taken };
                assert_eq!(decode(&bytes[..taken], 0), Err(refused), "{bytes:X?}");
            }
        }
    }
}

/// The shortest code of a form with a number, and the number's bytes. Over A0, A1 and SB the number alone decides.
fn shortest(code: u8, number: u16) -> (u8, Vec<u8>) {
    let [low, high] = number.to_le_bytes();
    let on_a = |deref: u8| match number {
        0 => (deref, vec![]),
        1..=0xFF => (deref + 2, vec![low]),
        _ => (deref + 6, vec![low, high]),
    };
    match code {
        0x6 | 0x8 | 0xC => on_a(0x6),
        0x7 | 0x9 | 0xD => on_a(0x7),
        0xA | 0xE if number <= 0xFF => (0xA, vec![low]),
        0xE | 0xF => (code, vec![low, high]),
        0xB => (code, vec![low]),
        _ => (code, vec![]),
    }
}

fn encoded(instruction: &Instruction) -> Result<Vec<u8>, Refusal> {
    let mut buffer = [0; LONGEST_INSTRUCTION];
    let length = encode(instruction, &mut buffer, 0)?;
    Ok(buffer[..length].to_vec())
}

#[test]
fn every_shortest_string() {
    for first in firsts() {
        for bytes in strings(first) {
            let (source, destination) = (bytes[1] >> 4, bytes[1] & 0xF);
            let behind = 2 + usize::from(displacement(source));
            let end = usize::from(length(bytes[1]));
            let (above, source_bytes) = shortest(source, read(&bytes[2..behind]));
            let (below, destination_bytes) = shortest(destination, read(&bytes[behind..end]));
            let expected = [vec![first.byte, above << 4 | below], source_bytes, destination_bytes].concat();
            assert_eq!(encoded(&record(first, &bytes)), Ok(expected), "{bytes:X?}");
        }
    }
}

/// Immediates stay in their own rows, whose codes the pairs do not have.
#[test]
fn immediates_stay() {
    // MOV is 74 and 75 Cx, the others are 76 and 77 0x to 8x.
    let row = |first: First| match first.opcode {
        Opcode::MOV(_) => (0x74, 0xC0),
        Opcode::TST(_) => (0x76, 0x00),
        Opcode::XOR(_) => (0x76, 0x10),
        Opcode::AND(_) => (0x76, 0x20),
        Opcode::OR(_) => (0x76, 0x30),
        Opcode::ADD(_) => (0x76, 0x40),
        Opcode::SUB(_) => (0x76, 0x50),
        Opcode::ADC(_) => (0x76, 0x60),
        Opcode::SBB(_) => (0x76, 0x70),
        _ => (0x76, 0x80),
    };
    for first in firsts() {
        let (byte, row) = row(first);
        let odd = u8::from(first.size == Size::W);
        for code in 0..=0x7 {
            for immediate in [[0x00, 0x00], [0x05, 0x00], [0xFF, 0xFF]] {
                let bytes = [&[byte + odd, row | code][..], &immediate[..=usize::from(odd)]].concat();
                let instruction = decode(&bytes, 0).expect("an immediate");
                assert_eq!(instruction.opcode, first.opcode, "{bytes:X?}");
                assert_eq!(encoded(&instruction), Ok(bytes));
            }
        }
    }
    // A displacement of 0 goes, and the immediate stays.
    let instruction = decode(&[0x74, 0xCC, 0x00, 0x00, 0x00], 0).expect("MOV.B #0, 0[A0]");
    assert_eq!(encoded(&instruction), Ok(vec![0x74, 0xC6, 0x00]));
}

/// `MOV.B source, destination` with the numbers of both in their fields.
fn mov(operands: [OperandSpec; 2], first: u16, dispabs: u16) -> Instruction {
    Instruction {
        opcode: Opcode::MOV(Size::B),
        width: Width::B,
        operands: [operands[0], operands[1], Nothing],
        first,
        dispabs,
        ..Instruction::default()
    }
}

#[test]
fn made_records() {
    let bytes = |operands, first, dispabs| encoded(&mov(operands, first, dispabs)).expect("bytes");
    assert_eq!(bytes([Disp16_A0, Disp16_A1], 0, 0), [0x72, 0x67]);
    assert_eq!(bytes([Disp16_A0, R0L], 0, 0), [0x72, 0x60]);
    assert_eq!(bytes([Disp8_A0, Disp16_SB], 0, 0), [0x72, 0x6A, 0x00]);
    assert_eq!(bytes([Disp16_A0, Disp16_A1], 0x80, 0x1234), [0x72, 0x8D, 0x80, 0x34, 0x12]);
    // A number that 8 bits do not hold makes its name the longer one.
    assert_eq!(bytes([Disp8_SB, Disp8_A1], 0x100, 0x1234), [0x72, 0xED, 0x00, 0x01, 0x34, 0x12]);
    assert_eq!(bytes([Disp8_FB, Disp8_FB], 0xFE, 0x05), [0x72, 0xBB, 0xFE, 0x05]);
    assert_eq!(bytes([Abs16, Abs16], 0x05, 0x400), [0x72, 0xFF, 0x05, 0x00, 0x00, 0x04]);
    // Numbers that no operand has do not count.
    assert_eq!(bytes([R0L, R1H], 0x1234, 0x5678), [0x72, 0x03]);
    assert_eq!(bytes([Abs16, R1H], 0x1234, 0x5678), [0x72, 0xF3, 0x78, 0x56]);
    // The stack pointer's displacement is of the 74 row, which has the other operand's in `first`.
    assert_eq!(bytes([Disp8_SP, Disp8_A0], 0x05, 0x06), [0x74, 0xB8, 0x05, 0x06]);
}

#[test]
fn made_records_refused() {
    let refused = |record: Instruction| assert_eq!(encoded(&record), Err(Refusal::NoString), "{record:?}");
    let good = mov([R0L, R1L], 0, 0);
    assert_eq!(encoded(&good), Ok(vec![0x72, 0x02]));
    // A width that is not the size's, and a size that has no row.
    refused(Instruction { width: Width::W, ..good });
    refused(Instruction { width: Width::None, ..good });
    refused(Instruction { opcode: Opcode::MOV(Size::W), ..good });
    refused(Instruction { opcode: Opcode::MOV(Size::L), ..good });
    // Operands that the row does not have, missing or too many.
    refused(mov([R0, R1L], 0, 0));
    refused(mov([R0L, R1], 0, 0));
    refused(mov([R0L, Imm8], 0, 0));
    refused(mov([R0L, Disp20_A0], 0, 0));
    refused(mov([Bit_R0, R0L], 0, 0));
    refused(mov([Nothing, R0L], 0, 0));
    refused(mov([R0L, Nothing], 0, 0));
    refused(Instruction { operands: [R0L, R1L, R0L], ..good });
    // Only a marked row moves to the stack pointer's displacement.
    refused(mov([R0L, Disp8_SP], 0, 0));
    // One byte holds a displacement from the frame base.
    refused(mov([Disp8_FB, R0L], 0, 0x100));
    refused(mov([Disp8_FB, Disp8_A0], 0x100, 0));
}

#[test]
fn too_little_room() {
    let longest = mov([Abs16, Disp16_SB], 0x1234, 0x5678);
    let mut buffer = [0xA1; 7];
    for (room, place) in [(5, 0), (6, 1), (7, 2), (7, usize::MAX)] {
        assert_eq!(encode(&longest, &mut buffer[..room], place), Err(Refusal::TooLittleRoom));
    }
    assert_eq!(buffer, [0xA1; 7]);
    assert_eq!(encode(&longest, &mut buffer, 1), Ok(6));
    assert_eq!(buffer, [0xA1, 0x72, 0xFE, 0x34, 0x12, 0x78, 0x56]);
}

/// The manual forbids A0 or A1 on both sides of a byte's instruction; they are decoded, listed and encoded as any other.
#[test]
fn address_registers_on_both_sides() {
    for first in firsts() {
        for (second, names) in [(0x44, "A0 A0"), (0x45, "A0 A1"), (0x54, "A1 A0"), (0x55, "A1 A1")] {
            let bytes = [first.byte, second];
            let instruction = decode(&bytes, 0).expect("an instruction");
            assert!(!instruction.marked, "{bytes:X?}");
            let size = first.size.name();
            let expected = format!("0000 2 {size} {}.{size} {names}", first.opcode.name());
            assert_eq!(line(&bytes, 0).expect("a line").as_str(), expected);
            assert_eq!(encoded(&instruction), Ok(bytes.to_vec()));
        }
    }
}

#[test]
fn lines() {
    let listed = |bytes: &[u8]| line(bytes, 0).expect("a line").to_string();
    assert_eq!(listed(&[0x72, 0x89, 0x10, 0x20]), "0000 4 B MOV.B Disp8_A0=10 Disp8_A1=20");
    assert_eq!(listed(&[0x73, 0xBB, 0x80, 0x7F]), "0000 4 W MOV.W Disp8_FB=-80 Disp8_FB=+7F");
    assert_eq!(listed(&[0xC1, 0x3F, 0x34, 0x12]), "0000 4 W CMP.W R3 Abs16=1234");
    assert_eq!(listed(&[0xB8, 0xFE, 0x34, 0x12, 0x78, 0x56]), "0000 6 B SBB.B Abs16=1234 Disp16_SB=5678");
}
