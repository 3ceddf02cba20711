//! Every code by both readings: names and numbers by the line that the library writes, encoding both ways, and where the numbers stand.

use m16c::{decode, decode_manual, encode, encode_manual, line, line_manual};
use m16c::{AnyOpcode, Instruction, Line, ManualOpcode, Opcode, OperandSpec, Part, Refusal, Refused, Size, Width};

#[rustfmt::skip] // sixteen in a line
const FIRST_BYTES: [u8; 34] = [
    0x72, 0x73, 0x74, 0x75, 0x76, 0x77, 0x78, 0x79, 0x7A, 0x7B, 0x7C, 0x7D, 0x7E, 0x80, 0x81, 0x88,
    0x89, 0x90, 0x91, 0x98, 0x99, 0xA0, 0xA1, 0xA8, 0xA9, 0xB0, 0xB1, 0xB8, 0xB9, 0xC0, 0xC1, 0xEB,
    0xEC, 0xED,
];
// Bytes behind a code. Where 7E wants a condition each has one; all bytes of one differ, so that none passes for another.
const TAILS: [[u8; 5]; 3] = [[0x00; 5], [0x05, 0x06, 0xFA, 0xC3, 0xD4], [0x01, 0x02, 0x03, 0x04, 0xF5]];

// Of the twenty-two first bytes of request A7 every code is accepted, and none is marked.
const ADDED_CODES: usize = 22 * 256;

/// The functions of a reading, and how many codes it accepts.
trait Read: AnyOpcode {
    const ACCEPTED_CODES: usize;
    const UNMARKED_CODES: usize;

    fn decode(bytes: &[u8]) -> Result<Instruction<Self>, Refused>;
    fn encode(instruction: &Instruction<Self>, buf: &mut [u8]) -> Result<usize, Refusal>;
    fn line(bytes: &[u8]) -> Result<Line, Refusal>;
}

impl Read for Opcode {
    const ACCEPTED_CODES: usize = 2596 + ADDED_CODES;
    const UNMARKED_CODES: usize = 2150 + ADDED_CODES;

    fn decode(bytes: &[u8]) -> Result<Instruction, Refused> {
        decode(bytes, 0)
    }

    fn encode(instruction: &Instruction, buf: &mut [u8]) -> Result<usize, Refusal> {
        encode(instruction, buf, 0)
    }

    fn line(bytes: &[u8]) -> Result<Line, Refusal> {
        line(bytes, 0)
    }
}

impl Read for ManualOpcode {
    // Three registers more for each of the word jumps.
    const ACCEPTED_CODES: usize = 2596 + 6 + ADDED_CODES;
    // The rows that request A9 changes, in the order of their first bytes: 74 and 75, 76 and 77, 7A, 7C and 7D, 7D alone, EB.
    const UNMARKED_CODES: usize = 2150 + (32 + 96 + 112 + 52 + (32 + 8 + 16 + 3) + 16) + ADDED_CODES;

    fn decode(bytes: &[u8]) -> Result<Instruction<Self>, Refused> {
        decode_manual(bytes, 0)
    }

    fn encode(instruction: &Instruction<Self>, buf: &mut [u8]) -> Result<usize, Refusal> {
        encode_manual(instruction, buf, 0)
    }

    fn line(bytes: &[u8]) -> Result<Line, Refusal> {
        line_manual(bytes, 0)
    }
}

/// Every code with each tail.
fn strings() -> impl Iterator<Item = [u8; 7]> {
    let codes = FIRST_BYTES.into_iter().flat_map(|first| (0..=0xFF).map(move |second| (first, second)));
    codes.flat_map(|(first, second)| TAILS.map(|[a, b, c, d, e]| [first, second, a, b, c, d, e]))
}

/// The instructions of all accepted codes, with their bytes.
fn instructions<O: Read>() -> Vec<([u8; 7], Instruction<O>)> {
    let all: Vec<_> = strings().filter_map(|bytes| Some((bytes, O::decode(&bytes).ok()?))).collect();
    assert_eq!(all.len(), O::ACCEPTED_CODES * TAILS.len());
    all
}

#[test]
fn names_and_numbers_are_those_of_the_line() {
    check_names_and_numbers::<Opcode>();
    check_names_and_numbers::<ManualOpcode>();
}

fn check_names_and_numbers<O: Read>() {
    for (bytes, instruction) in instructions::<O>() {
        let line = O::line(&bytes).expect("what decodes has a line");
        assert_eq!(line.as_str(), listed(&instruction), "{bytes:X?}");
    }
}

/// The line of an instruction at place 0, put together from what the crate says of it.
fn listed<O: AnyOpcode>(instruction: &Instruction<O>) -> String {
    let width = match instruction.width {
        Width::None => "-",
        width => width.name(),
    };
    let size = instruction.opcode.size().map_or(String::new(), |size| format!(".{}", size.name()));
    let mut text = format!("0000 {} {width} {}{size}", instruction.length, instruction.opcode.name());
    for operand in (0..3).filter_map(|k| instruction.operand(k)) {
        text += &format!(" {}", operand.spec.name());
        if let Some(number) = operand.number {
            let digits = digits(operand.spec.name());
            let sign = match operand.spec {
                OperandSpec::Disp8_FB | OperandSpec::Disp8 if number < 0 => "-",
                OperandSpec::Disp8_FB | OperandSpec::Disp8 => "+",
                _ => "",
            };
            text += &format!("={sign}{:0digits$X}", number.unsigned_abs() % (1 << (4 * digits)));
        }
    }
    if instruction.dropped {
        text += " !";
    }
    text
}

fn digits(name: &str) -> usize {
    match name {
        "Imm4" => 1,
        _ if name.contains("20") => 5,
        _ if name.contains("16") => 4,
        _ => 2,
    }
}

#[test]
fn encoding_and_decoding_back() {
    check_encoding::<Opcode>();
    check_encoding::<ManualOpcode>();
}

fn check_encoding<O: Read>() {
    let unmarked: Vec<_> = instructions::<O>().into_iter().filter(|(_, instruction)| !instruction.marked).collect();
    assert_eq!(unmarked.len(), O::UNMARKED_CODES * TAILS.len());
    for (bytes, instruction) in unmarked {
        let short = encoded(&instruction).unwrap_or_else(|refusal| panic!("{bytes:X?}: {refusal}"));
        let back = O::decode(&short).unwrap_or_else(|refused| panic!("{bytes:X?}: {short:X?}: {refused}"));
        assert!(short.len() <= usize::from(instruction.length), "{bytes:X?}: {short:X?}");
        assert_eq!(usize::from(back.length), short.len(), "{bytes:X?}");
        assert!(!back.marked, "{bytes:X?}");
        assert_eq!(meaning(&back), meaning(&instruction), "{bytes:X?}");
        assert_eq!(encoded(&back), Ok(short), "{bytes:X?}");
    }
}

fn encoded<O: Read>(instruction: &Instruction<O>) -> Result<Vec<u8>, Refusal> {
    let mut buffer = [0; m16c::LONGEST_INSTRUCTION];
    let length = O::encode(instruction, &mut buffer)?;
    Ok(buffer[..length].to_vec())
}

/// Two instructions are the same if this agrees.
fn meaning<O: AnyOpcode>(instruction: &Instruction<O>) -> (O, Width, [Option<(OperandSpec, i64)>; 3]) {
    let operand = |k: u8| instruction.operand(k).map(|operand| based(operand.spec, operand.number.unwrap_or(0)));
    (instruction.opcode, instruction.width, [0, 1, 2].map(operand))
}

/// Displacements on A0, A1 and SB of 0, 8 and 16 bits are one form.
fn based(spec: OperandSpec, number: i64) -> (OperandSpec, i64) {
    use OperandSpec::*;
    match spec {
        Deref_A0 => (Disp16_A0, 0),
        Deref_A1 => (Disp16_A1, 0),
        Disp8_A0 => (Disp16_A0, number),
        Disp8_A1 => (Disp16_A1, number),
        Disp8_SB => (Disp16_SB, number),
        other => (other, number),
    }
}

// Bytes to write over a part, as many as it has: about where numbers change their size or sign, and bits are dropped.
const PATCHES: [[u8; 3]; 6] =
    [[0x00; 3], [0xFF; 3], [0x7F, 0x80, 0x0F], [0x80, 0x7F, 0x10], [0x12, 0x34, 0xF5], [0xFE, 0x00, 0x00]];

/// The fields that parts are of.
#[derive(Debug, Clone, Copy)]
enum Field {
    First,
    Dispabs,
    ImmWide,
}

const FIELDS: [Field; 3] = [Field::First, Field::Dispabs, Field::ImmWide];

fn part<O: AnyOpcode>(instruction: &Instruction<O>, field: Field) -> Option<Part> {
    match field {
        Field::First => instruction.parts().first,
        Field::Dispabs => instruction.parts().dispabs,
        Field::ImmWide => instruction.parts().imm_wide,
    }
}

fn number<O: AnyOpcode>(instruction: &Instruction<O>, field: Field) -> u32 {
    match field {
        Field::First => instruction.first.into(),
        Field::Dispabs => instruction.dispabs.into(),
        Field::ImmWide => instruction.imm_wide,
    }
}

fn with_number<O: AnyOpcode>(instruction: Instruction<O>, field: Field, number: u32) -> Instruction<O> {
    let short = || u16::try_from(number).expect("a displacement has 16 bits");
    match field {
        Field::First => Instruction { first: short(), ..instruction },
        Field::Dispabs => Instruction { dispabs: short(), ..instruction },
        Field::ImmWide => Instruction { imm_wide: number, ..instruction },
    }
}

/// The number of a part's bytes, low byte first; of three bytes 20 bits.
fn read(bytes: &[u8]) -> u32 {
    bytes.iter().rev().fold(0, |above, byte| above << 8 | u32::from(*byte)) & 0xF_FFFF
}

#[test]
fn each_byte_behind_the_code_is_of_one_part() {
    check_bytes_behind_the_code::<Opcode>();
    check_bytes_behind_the_code::<ManualOpcode>();
}

fn check_bytes_behind_the_code<O: Read>() {
    for (bytes, instruction) in instructions::<O>() {
        let mut parts_of_byte = [0; 7];
        for part in FIELDS.iter().filter_map(|field| part(&instruction, *field)) {
            assert!((1..=3).contains(&part.width), "{bytes:X?}: {part:?}");
            part.range().for_each(|place| parts_of_byte[place] += 1);
        }
        let has_condition = bytes[0] == 0x7E && bytes[1] >> 4 == 2;
        let end = usize::from(instruction.length) - usize::from(has_condition);
        let expected: [u8; 7] = std::array::from_fn(|place| (2..end).contains(&place).into());
        assert_eq!(parts_of_byte, expected, "{bytes:X?}");
    }
}

#[test]
fn parts_hold_the_numbers_of_their_fields() {
    check_parts::<Opcode>();
    check_parts::<ManualOpcode>();
}

fn check_parts<O: Read>() {
    for (bytes, instruction) in instructions::<O>() {
        for field in FIELDS {
            let number = number(&instruction, field);
            match part(&instruction, field) {
                Some(part) => assert_eq!(read(&bytes[part.range()]), number, "{field:?} of {bytes:X?}"),
                // A number that is in the code leaves no bytes behind it.
                None => assert!(number == 0 || instruction.length == 2, "{field:?} of {bytes:X?}"),
            }
        }
    }
}

#[test]
fn other_bytes_over_a_part_change_its_field_alone() {
    check_other_bytes::<Opcode>();
    check_other_bytes::<ManualOpcode>();
}

fn check_other_bytes<O: Read>() {
    for (bytes, instruction) in instructions::<O>() {
        let parts = FIELDS.iter().filter_map(|field| Some((*field, part(&instruction, *field)?)));
        for ((field, part), patch) in parts.flat_map(|found| PATCHES.map(|patch| (found, patch))) {
            let written = &patch[..usize::from(part.width)];
            let mut patched = bytes;
            patched[part.range()].copy_from_slice(written);
            // Only three bytes have bits to drop.
            let dropped = if let [_, _, last] = written { *last >= 0x10 } else { instruction.dropped };
            let expected = Instruction { dropped, ..with_number(instruction, field, read(written)) };
            assert_eq!(O::decode(&patched), Ok(expected), "{field:?} of {bytes:X?}: {patched:X?}");
        }
    }
}

/// Only a list of registers has any: the ones of the second byte.
#[test]
fn registers_are_those_of_a_list() {
    check_registers::<Opcode>();
    check_registers::<ManualOpcode>();
}

fn check_registers<O: Read>() {
    for (bytes, instruction) in instructions::<O>() {
        let is_list = instruction.operands[0] == OperandSpec::RegList;
        assert_eq!(is_list, [0xEC, 0xED].contains(&bytes[0]), "{bytes:X?}");
        let count = if is_list { bytes[1].count_ones() } else { 0 };
        assert_eq!(u32::from(instruction.registers()), count, "{bytes:X?}");
        assert_eq!(instruction.register_list().len(), count as usize, "{bytes:X?}");
    }
    assert_eq!(Instruction::default().registers(), 0);
}

#[test]
fn each_name_has_its_number() {
    let carried = [None, Some(Size::B), Some(Size::W), Some(Size::L)];
    for number in 0..200 {
        let opcodes = carried.map(|size| Opcode::from_number(number, size));
        for (opcode, size) in opcodes.iter().zip(carried).filter_map(|(opcode, size)| Some(((*opcode)?, size))) {
            assert_eq!((opcode.number(), opcode.size()), (number, size));
        }
        // An opcode carries a size always or never.
        let found = opcodes.map(|opcode| opcode.is_some());
        let is_name = number < 98;
        assert!(found == [is_name, false, false, false] || found == [false, is_name, is_name, is_name], "{number}");
        assert_eq!(OperandSpec::from_number(number).map(OperandSpec::number), (number < 57).then_some(number));
        assert_eq!(Width::from_number(number).map(Width::number), (number < 3).then_some(number));
        assert_eq!(Size::from_number(number).map(Size::number), (1..4).contains(&number).then_some(number));
        assert_eq!(Refusal::from_number(number).map(Refusal::number), (1..8).contains(&number).then_some(number));
    }
}
