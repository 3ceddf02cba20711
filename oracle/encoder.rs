// The encoder's part of the differential run: the port's `m16c_encode`, or `m16c_encode_manual`, beside the brute force of brute.rs.

use std::collections::HashSet;
use std::fmt::Write;

use crate::brute::{self, Record, Spelling};
use crate::operands;
use crate::{code_of, expected, functions, hex, named_codes, ported, record_of, Kind, Random, Reading, Tally, CODES, NAMED, TOO_LITTLE_ROOM};
use crate::{DROPPED, FIELDS, FIELD_NAMES, MARKED, OPCODE, OPERANDS, SIZE, TAKEN, WANTED, WIDTH};

const NO_STRING: u32 = 5;

#[rustfmt::skip]
pub const KINDS: &[Kind] = &[
    Kind { name: "marks, every code", quick_parts: CODES, all_parts: CODES, run_part: marks },
    Kind { name: "odd records, answers worked out by hand", quick_parts: 1, all_parts: 1, run_part: odd_records },
    Kind { name: "records of 2 and 3 bytes, every one", quick_parts: CODES, all_parts: CODES, run_part: short_strings },
    Kind { name: "records of 4 bytes, every one", quick_parts: 0, all_parts: CODES, run_part: four_bytes },
    Kind { name: "records of 4 to 7 bytes, every code, at random", quick_parts: CODES, all_parts: 16 * CODES, run_part: longer_strings },
    Kind { name: "records of instructions, a field or two changed", quick_parts: 100, all_parts: 1000, run_part: near_misses },
    Kind { name: "records of the other reading, of request A9's codes", quick_parts: NAMED, all_parts: NAMED, run_part: other_reading },
    Kind { name: "records made up", quick_parts: 20, all_parts: 200, run_part: made_up },
    Kind { name: "records too short or too long", quick_parts: CODES, all_parts: CODES, run_part: record_lengths },
    Kind { name: "rooms: buffers and places in them", quick_parts: CODES, all_parts: CODES, run_part: rooms },
];

const STRINGS_OF_A_CODE: usize = 40;
const RECORDS_OF_A_NAMED_CODE: usize = 500;
const RECORDS_IN_A_PART: usize = 5_000;

// ---- What is compared

/// How much of a buffer is passed in, and the place in it.
#[derive(Clone, Copy)]
pub struct Room {
    length: usize,
    place: usize,
}

// For the kinds that are not about rooms.
pub const WIDE_ROOM: Room = Room { length: 12, place: 3 };

// The bytes passed in lie inside others, so that a byte written outside of them is seen.
const AROUND: usize = 8;
const LONGEST_ROOM: usize = 12;
type Buffer = [u8; AROUND + LONGEST_ROOM + AROUND];

#[derive(PartialEq, Eq)]
struct Outcome {
    refusal: u32,
    length: usize,
    buffer: Buffer,
}

fn untouched() -> Buffer {
    std::array::from_fn(|place| 0xC3 ^ 29u8.wrapping_mul(place as u8))
}

fn wanted(answer: Option<Spelling>, room: Room) -> Outcome {
    let refused = |refusal: u32| Outcome { refusal, length: 0, buffer: untouched() };
    let Some(spelling) = answer else { return refused(NO_STRING) };
    let length = spelling.bytes().len();
    if room.place > room.length || room.length - room.place < length {
        return refused(TOO_LITTLE_ROOM);
    }
    let mut buffer = untouched();
    buffer[AROUND + room.place..][..length].copy_from_slice(spelling.bytes());
    Outcome { refusal: 0, length, buffer }
}

fn encoded(reading: Reading, record: &[u32], room: Room) -> Outcome {
    const UNWRITTEN: usize = 0xDEAD_BEEF;
    let mut outcome = Outcome { refusal: 0, length: UNWRITTEN, buffer: untouched() };
    let passed = &mut outcome.buffer[AROUND..AROUND + room.length];
    let (from, count) = (record.as_ptr(), record.len());
    let encode = functions::of(reading).encode;
    outcome.refusal = unsafe { encode(from, count, passed.as_mut_ptr(), passed.len(), room.place, &mut outcome.length) };
    outcome
}

pub fn compare(tally: &mut Tally, record: &[u32], answer: Option<Spelling>, room: Room) {
    let (wanted, port) = (wanted(answer, room), encoded(tally.reading, record, room));
    tally.count(wanted.refusal == 0, wanted == port, || {
        let Room { length, place } = room;
        let mut text = format!("{}  place {place} of {length} bytes\n", fields(record));
        for (name, outcome) in [("wanted", wanted), ("port", port)] {
            let Outcome { refusal, length, buffer } = outcome;
            let (before, rest) = buffer.split_at(AROUND);
            let (passed, after) = rest.split_at(room.length);
            let [before, passed, after] = [before, passed, after].map(hex);
            writeln!(text, "  {name:6} {refusal} length {length:X} bytes {before} [{passed}] {after}").unwrap();
        }
        text
    });
}

fn fields(record: &[u32]) -> String {
    let mut text = format!("a record of {} numbers\n", record.len());
    for (field, (name, number)) in FIELD_NAMES.iter().zip(record).enumerate() {
        writeln!(text, "    {name:15} {number:8X}  {}", name_of(field, *number)).unwrap();
    }
    text
}

fn name_of(field: usize, number: u32) -> &'static str {
    let names = match field {
        OPCODE => oracle::OPCODE_NAMES,
        SIZE => oracle::SIZE_NAMES,
        _ if OPERANDS.contains(&field) => oracle::OPERAND_NAMES,
        _ => return "",
    };
    names.get(number as usize).unwrap_or(&"names nothing")
}

fn compare_by_brute_force(tally: &mut Tally, record: &Record) {
    compare(tally, record, brute::encode(tally.reading, record), WIDE_ROOM);
}

/// The record of a string that is accepted to its last byte. The string itself, if unmarked, must not be better than what
/// the brute force found: so that is checked against every string compared.
fn compare_string(tally: &mut Tally, string: &[u8]) {
    let wanted = expected(tally.reading, string);
    if wanted.refusal != 0 || wanted.fields[TAKEN] as usize != string.len() {
        return;
    }
    let record = ported(tally.reading, string, 0).fields;
    let answer = brute::encode(tally.reading, &record);
    let unmarked = !brute::marked(tally.reading, string[0], string[1]);
    if unmarked && answer.map_or(true, |found| found > Spelling::of(string)) {
        tally.count(true, false, || format!("the brute force itself: it missed {}\n", hex(string)));
    } else {
        compare(tally, &record, answer, WIDE_ROOM);
    }
}

// ---- The kinds of records

/// The brute force has the marks from documents; the port has them in its rows. A part is a code.
fn marks(part: usize, tally: &mut Tally) {
    let (first, second) = code_of(part);
    let port = ported(tally.reading, &[first, second, 0, 0, 0, 0, 0], 0);
    let wanted = port.refusal == 0 && brute::marked(tally.reading, first, second);
    let found = port.fields[MARKED] == 1;
    tally.count(port.refusal == 0, wanted == found, || {
        format!("the mark of {first:02X} {second:02X}\n  wanted {wanted}\n  port   {found}\n")
    });
}

/// A part is a code.
fn short_strings(part: usize, tally: &mut Tally) {
    let (first, second) = code_of(part);
    compare_string(tally, &[first, second]);
    for third in 0..=255 {
        compare_string(tally, &[first, second, third]);
    }
}

/// A part is a code.
fn four_bytes(part: usize, tally: &mut Tally) {
    let (first, second) = code_of(part);
    for third in 0..=255 {
        for fourth in 0..=255 {
            compare_string(tally, &[first, second, third, fourth]);
        }
    }
}

/// A part is a code, and there are several parts of each.
fn longer_strings(part: usize, tally: &mut Tally) {
    let (first, second) = code_of(part % CODES);
    let mut random = Random::of("longer", part);
    for _ in 0..STRINGS_OF_A_CODE {
        let string = instruction(tally.reading, first, second, &mut random);
        if string.len() > 3 {
            compare_string(tally, &string);
        }
    }
}

/// A code with bytes behind it, without those that it does not take. Many are 0 or FF, where numbers change their size.
fn instruction(reading: Reading, first: u8, second: u8, random: &mut Random) -> Vec<u8> {
    let mut string = vec![first, second];
    string.extend((0..5).map(|_| [0, 0, 0xFF, random.byte(), random.byte()][random.below(5)]));
    let taken = expected(reading, &string).fields[TAKEN] as usize;
    string.truncate(taken);
    string
}

fn near_misses(part: usize, tally: &mut Tally) {
    let mut random = Random::of("near misses", part);
    for _ in 0..RECORDS_IN_A_PART {
        let string = random.accepted_string(tally.reading);
        let record = ported(tally.reading, &string, 0).fields;
        compare_by_brute_force(tally, &changed(record, &mut random));
    }
}

/// In a field or two, and half of the time behind those that an encoder wants.
fn changed(mut record: Record, random: &mut Random) -> Record {
    for _ in 0..1 + random.below(2) {
        change_field(&mut record, random);
    }
    if random.below(2) == 0 {
        change_what_stands_behind(&mut record, random);
    }
    record
}

/// What one reading decodes, given to the encoder that goes by the other: as it is, and changed. A record does not tell its reading, so
/// people will do this. A part is a code.
fn other_reading(part: usize, tally: &mut Tally) {
    let [first, second] = named_codes()[part];
    let other = match tally.reading {
        Reading::Present => Reading::Manual,
        Reading::Manual => Reading::Present,
    };
    let mut random = Random::of("other reading", part);
    for _ in 0..RECORDS_OF_A_NAMED_CODE {
        let string = instruction(other, first, second, &mut random);
        let record = ported(other, &string, 0).fields;
        compare_by_brute_force(tally, &record);
        compare_by_brute_force(tally, &changed(record, &mut random));
    }
}

fn made_up(part: usize, tally: &mut Tally) {
    let mut random = Random::of("made up", part);
    for _ in 0..RECORDS_IN_A_PART {
        let mut record: Record = std::array::from_fn(|field| any_number(field, &mut random));
        if random.below(4) > 0 {
            record[OPERANDS[2]] = 0;
        }
        compare_by_brute_force(tally, &record);
    }
}

/// One of those that an encoder wants.
fn change_field(record: &mut Record, random: &mut Random) {
    let field = random.below(WANTED);
    let another_form = OPERANDS.contains(&field) && random.below(2) == 0;
    record[field] = if another_form { like_operand(record[field], random) } else { any_number(field, random) };
}

/// The numbers that an encoder does not want.
fn change_what_stands_behind(record: &mut Record, random: &mut Random) {
    for number in &mut record[WANTED..] {
        *number = edge_or_any(random);
    }
}

/// Another form on the same base, if there is one, or the operand itself.
fn like_operand(operand: u32, random: &mut Random) -> u32 {
    let names = oracle::OPERAND_NAMES;
    let base = names.get(operand as usize).and_then(|name| name.rsplit('_').next()).unwrap_or("");
    let form = ["Deref", "Disp8", "Disp16", "Disp20"][random.below(4)];
    let wanted = format!("{form}_{base}");
    names.iter().position(|name| **name == wanted).map_or(operand, |found| found as u32)
}

/// A number for a field of a record: one that it can hold, or seldom one just past, or a good one with higher bits set.
pub fn any_number(field: usize, random: &mut Random) -> u32 {
    let names = match field {
        OPCODE => oracle::OPCODE_NAMES.len(),
        SIZE => oracle::SIZE_NAMES.len(),
        WIDTH => operands::WIDTHS,
        MARKED | DROPPED => 2,
        _ if OPERANDS.contains(&field) => oracle::OPERAND_NAMES.len(),
        _ => return edge_or_any(random),
    };
    let one_past = usize::from(random.below(8) == 0);
    let number = random.below(names + one_past) as u32;
    match random.below(16) {
        0 => number | 1 << (8 + random.below(24)),
        _ => number,
    }
}

/// Where numbers change their size, both sides of it; or any number of up to 8, 16 or 32 bits.
fn edge_or_any(random: &mut Random) -> u32 {
    const EDGES: [u32; 14] =
        [0, 1, 0xF, 0x10, 0x3F, 0x40, 0xFF, 0x100, 0x1234, 0xFFFF, 0x10000, 0xF_FFFF, 0x10_0000, 0xFFFF_FFFF];
    match random.below(5) {
        0 => random.next() as u32 & 0xFF,
        1 => random.next() as u32 & 0xFFFF,
        2 if random.below(4) == 0 => random.next() as u32,
        _ => EDGES[random.below(EDGES.len())],
    }
}

/// Fewer than twelve numbers are no record; more do no harm. A part is a code.
fn record_lengths(part: usize, tally: &mut Tally) {
    const MOST: usize = FIELDS + 3;
    let (first, second) = code_of(part);
    let record = ported(tally.reading, &[first, second, 0, 0, 0, 0, 0], 0).fields;
    let mut numbers = [0xDEAD_BEEF; MOST];
    numbers[..FIELDS].copy_from_slice(&record);
    for count in 0..=MOST {
        let answer = if count < WANTED { None } else { brute::encode(tally.reading, &record) };
        compare(tally, &numbers[..count], answer, WIDE_ROOM);
    }
}

/// Every place of every buffer up to the longest, and past it. A part is a code.
fn rooms(part: usize, tally: &mut Tally) {
    let (first, second) = code_of(part);
    let string = instruction(tally.reading, first, second, &mut Random::of("rooms", part));
    let record = ported(tally.reading, &string, 0).fields;
    let answer = brute::encode(tally.reading, &record);
    for length in 0..=LONGEST_ROOM {
        for place in (0..=length + 1).chain([usize::MAX - 7, usize::MAX - 1, usize::MAX]) {
            compare(tally, &record, answer, Room { length, place });
        }
    }
}

// ---- The odd records

const ODD_RECORDS: &str = include_str!("odd-records.txt");
const ODD_RECORDS_MANUAL: &str = include_str!("odd-records-manual.txt");

/// The hand's answer is compared with the brute force's, and the port's with it. A record of the second file is answered otherwise by the
/// manual, or is asked by that reading alone; all others are answered alike by both.
fn odd_records(_part: usize, tally: &mut Tally) {
    let record_in = |line: &'static str| line.split_at(RECORD_DIGITS).0;
    let by_manual: Vec<&str> = match tally.reading {
        Reading::Present => Vec::new(),
        Reading::Manual => ODD_RECORDS_MANUAL.lines().collect(),
    };
    let otherwise: HashSet<&str> = by_manual.iter().map(|line| record_in(line)).collect();
    let alike = ODD_RECORDS.lines().filter(|line| !otherwise.contains(record_in(line)));
    for line in alike.chain(by_manual) {
        let (record, answer) = odd_record(line).unwrap_or_else(|| panic!("not an odd record: {line}"));
        if brute::encode(tally.reading, &record) != answer {
            tally.count(true, false, || format!("the brute force itself: it answers otherwise than by hand {line}\n"));
        } else {
            compare(tally, &record, answer, WIDE_ROOM);
        }
    }
}

// Of a line, up to the answer.
const RECORD_DIGITS: usize = 34;

/// README.md describes the fields.
fn odd_record(line: &str) -> Option<(Record, Option<Spelling>)> {
    let (numbers, digits) = line.rsplit_once(' ')?;
    let numbers: Option<Vec<u32>> = numbers.split(' ').map(|word| u32::from_str_radix(word, 16).ok()).collect();
    let [opcode, size, width, op0, op1, op2, imm_wide, dispabs, first, refusal, length] = numbers?[..] else {
        return None;
    };
    let byte = |k: usize| u8::from_str_radix(digits.get(2 * k..2 * k + 2)?, 16).ok();
    let bytes: Vec<u8> = (0..length as usize).map(byte).collect::<Option<_>>()?;
    let record = record_of([0, opcode, size, width, op0, op1, op2, imm_wide, dispabs, first, 0, 0]);
    Some((record, (refusal == 0).then(|| Spelling::of(&bytes))))
}
