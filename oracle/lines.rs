// The line's part of the differential run: the port's `m16c_line`, or `m16c_line_manual`, beside a line put together from what the oracle
// answers.

use crate::operands::{is_signed, number_of};
use crate::{c, code_of, expected, functions, hex, twenty_bit_strings, Kind, Random, Reading, Tally, CODES, TOO_LITTLE_ROOM};
use crate::{DROPPED, LENGTH, OPCODE, OPERANDS, SIZE, WIDTH};

#[rustfmt::skip]
pub const KINDS: &[Kind] = &[
    Kind { name: "lines of 2 and 3 bytes, every one", quick_parts: CODES, all_parts: CODES, run_part: short_strings },
    Kind { name: "lines of every code, at random", quick_parts: CODES, all_parts: 16 * CODES, run_part: longer_strings },
    Kind { name: "lines of every last byte, of codes that read 20 bits", quick_parts: CODES, all_parts: CODES, run_part: last_bytes },
    Kind { name: "lines with too little room or too much", quick_parts: CODES, all_parts: CODES, run_part: rooms },
];

const STRINGS_OF_A_CODE: usize = 20;
const BUFFER: usize = c::LONGEST_LINE + 8;
const UNTOUCHED: u8 = 0xA5;

#[derive(PartialEq, Eq)]
struct Outcome {
    refusal: u32,
    length: usize,
    buffer: [u8; BUFFER],
}

/// So many low digits of a name's number are shown.
fn digits_of(name: &str) -> usize {
    match name.strip_prefix("Bit_").unwrap_or(name) {
        "Imm4" => 1,
        "Imm8" | "Disp8" | "RegList" => 2,
        "Imm16" | "Abs16" => 4,
        "Abs20" => 5,
        plain if plain.starts_with("Disp8_") => 2,
        plain if plain.starts_with("Disp16_") => 4,
        plain if plain.starts_with("Disp20_") => 5,
        plain if plain != name && !plain.starts_with("Deref_") => 2,
        _ => 0,
    }
}

fn with_number(name: &str, number: Option<i64>) -> String {
    let Some(number) = number else { return name.to_string() };
    let digits = digits_of(name);
    let sign = match is_signed(name) {
        true if number < 0 => "-",
        true => "+",
        false => "",
    };
    format!("{name}={sign}{:0digits$X}", number.unsigned_abs() % 16u64.pow(digits as u32))
}

/// The line of a record at a place.
fn line(at: usize, record: &[u32]) -> String {
    let width = ["-", "B", "W"][record[WIDTH] as usize];
    let mut text = format!("{:04X} {:X} {width} {}", at % 0x10000, record[LENGTH], oracle::OPCODE_NAMES[record[OPCODE] as usize]);
    if record[SIZE] != 0 {
        text += &format!(".{}", oracle::SIZE_NAMES[record[SIZE] as usize]);
    }
    for (k, field) in OPERANDS.into_iter().enumerate().filter(|(_, field)| record[*field] != 0) {
        text += &format!(" {}", with_number(oracle::OPERAND_NAMES[record[field] as usize], number_of(record, k)));
    }
    if record[DROPPED] != 0 {
        text += " !";
    }
    text
}

fn wanted(reading: Reading, image: &[u8], at: usize, room: usize) -> Outcome {
    let decoded = expected(reading, image.get(at..).unwrap_or(&[]));
    let mut outcome = Outcome { refusal: decoded.refusal, length: 0, buffer: [UNTOUCHED; BUFFER] };
    if decoded.refusal != 0 {
        return outcome;
    }
    let line = line(at, &decoded.fields);
    if line.len() > room {
        outcome.refusal = TOO_LITTLE_ROOM;
    } else {
        outcome.length = line.len();
        outcome.buffer[..line.len()].copy_from_slice(line.as_bytes());
    }
    outcome
}

fn port_writes(reading: Reading, image: &[u8], at: usize, room: usize) -> Outcome {
    let mut outcome = Outcome { refusal: 0, length: usize::MAX, buffer: [UNTOUCHED; BUFFER] };
    let out = &mut outcome.buffer[..room];
    let line = functions::of(reading).line;
    outcome.refusal = unsafe { line(image.as_ptr(), image.len(), at, out.as_mut_ptr(), out.len(), &mut outcome.length) };
    outcome
}

fn compare(tally: &mut Tally, image: &[u8], at: usize, room: usize) {
    let (wanted, port) = (wanted(tally.reading, image, at, room), port_writes(tally.reading, image, at, room));
    tally.count(wanted.refusal == 0, wanted == port, || {
        let text = |Outcome { refusal, length, buffer }: &Outcome| format!("{refusal} length {length:X} {}", buffer.escape_ascii());
        format!("place {at} of {}, room {room}\n  wanted {}\n  port   {}\n", hex(image), text(&wanted), text(&port))
    });
}

/// A part is a code.
fn short_strings(part: usize, tally: &mut Tally) {
    let (first, second) = code_of(part);
    compare(tally, &[first, second], 0, c::LONGEST_LINE);
    for third in 0..=255 {
        compare(tally, &[first, second, third], 0, c::LONGEST_LINE);
    }
}

/// A part is a code, and there may be several parts of each; the place has any four digits, or one more.
fn longer_strings(part: usize, tally: &mut Tally) {
    let (first, second) = code_of(part % CODES);
    let mut random = Random::of("lines", part);
    for _ in 0..STRINGS_OF_A_CODE {
        let at = random.below(0x400) * random.below(0x50);
        let mut image = vec![0; at];
        image.extend([first, second]);
        image.extend((0..6).map(|_| random.byte()));
        compare(tally, &image, at, c::LONGEST_LINE);
    }
}

/// A part is a code.
fn last_bytes(part: usize, tally: &mut Tally) {
    for string in twenty_bit_strings(tally.reading, part) {
        compare(tally, &string, 0, c::LONGEST_LINE);
    }
}

/// A part is a code.
fn rooms(part: usize, tally: &mut Tally) {
    let (first, second) = code_of(part);
    let mut random = Random::of("rooms of lines", part);
    let image: Vec<u8> = [first, second].into_iter().chain((0..6).map(|_| random.byte())).collect();
    for room in 0..=BUFFER {
        compare(tally, &image, 0, room);
    }
}
