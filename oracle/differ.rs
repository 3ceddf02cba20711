// The differential run: the port and the Rust on the same bytes, every field that the Rust has; for request A7's first bytes the port and
// the model, and the model and the Rust; by request A9's reading the port and the model for the codes that the request names, and the model
// and the witnesses' table.
// Here are the running, the counting and the decoder's strings; tabled.rs, witnesses.rs, parts.rs, encoder.rs, sweeps.rs, lines.rs,
// lengths.rs, numbers.rs and replayed.rs have the rest. What a reading has a function for is run by both readings.
// usage: differ [--all]

mod brute;
#[allow(dead_code)] // for others
#[path = "../bindings/rust/src/c.rs"]
mod c;
mod encoder;
mod functions;
mod known;
mod lengths;
mod lines;
mod numbers;
mod operands;
mod parts;
mod places;
mod replayed;
mod sweeps;
mod tabled;
mod told;
mod witnesses;

use std::env;
use std::fmt::Write;
use std::process::ExitCode;
use std::sync::atomic::{AtomicUsize, Ordering};
use std::thread;

use brute::marked;
use oracle::manual::{self, Reading};
use oracle::model;
use parts::places_of;

const THREADS: usize = 2;
#[rustfmt::skip]
const FIRST_BYTES: [u8; 34] = [
    0x72, 0x73, 0x74, 0x75, 0x76, 0x77, 0x78, 0x79, 0x7A, 0x7B, 0x7C, 0x7D, 0x7E,
    0x80, 0x81, 0x88, 0x89, 0x90, 0x91, 0x98, 0x99, 0xA0, 0xA1, 0xA8, 0xA9, 0xB0, 0xB1, 0xB8, 0xB9, 0xC0, 0xC1,
    0xEB, 0xEC, 0xED,
];
const SEED: u64 = 0x6D31_3663_2031_3938;
const TOO_LITTLE_ROOM: u32 = 6;

// ---- What is compared

const FIELDS: usize = 20;
// An encoder wants so many of them; those behind do not count.
const WANTED: usize = 12;
#[rustfmt::skip]
const FIELD_NAMES: [&str; FIELDS] = [
    "taken", "opcode", "size", "width", "operand 0", "operand 1", "operand 2", "imm_wide", "dispabs", "first", "length",
    "marked", "dropped", "first offset", "first width", "dispabs offset", "dispabs width", "imm_wide offset", "imm_wide width",
    "registers",
];
const TAKEN: usize = 0;
const OPCODE: usize = 1;
const SIZE: usize = 2;
const WIDTH: usize = 3;
const OPERANDS: [usize; 3] = [4, 5, 6];
const IMM_WIDE: usize = 7;
const DISPABS: usize = 8;
const FIRST: usize = 9;
const LENGTH: usize = 10;
const MARKED: usize = 11;
const DROPPED: usize = 12;
// Of `first`, of `dispabs` and of `imm_wide`; the width stands behind each.
const OFFSETS: [usize; 3] = [13, 15, 17];
const REGISTERS: usize = 19;

#[derive(Clone, PartialEq, Eq)]
struct Answer {
    refusal: u32,
    fields: [u32; FIELDS],
}

/// What the port has to answer.
fn expected(reading: Reading, bytes: &[u8]) -> Answer {
    let mut answer = match reading.modelled(bytes) {
        Some(decoded) => by_the_model(&decoded),
        None => by_the_rust(bytes),
    };
    if answer.refusal == u32::from(oracle::ACCEPTED) {
        answer.fields[MARKED] = marked(reading, bytes[0], bytes[1]).into();
    }
    answer
}

fn by_the_model(decoded: &model::Decoded) -> Answer {
    let mut answer = of_answer(&decoded.answer);
    answer.fields[WIDTH] = decoded.width as u32;
    answer.fields[DROPPED] = decoded.dropped.into();
    set_places(&mut answer, decoded.parts);
    answer
}

/// By places.rs where the numbers stand; by the bytes `first` and whether bits were dropped.
fn by_the_rust(bytes: &[u8]) -> Answer {
    let rust = oracle::answer(bytes);
    let mut answer = of_answer(&rust);
    if rust.refusal == oracle::ACCEPTED {
        let places = places_of(Reading::Present, [bytes[0], bytes[1]]);
        answer.fields[WIDTH] = width_number(bytes[0]);
        answer.fields[FIRST] = places[0].number(bytes);
        answer.fields[DROPPED] = u32::from(reads_20_bits(&rust.operands) && bytes[rust.taken - 1] >= 0x10);
        set_places(&mut answer, places.map(|place| (place.offset, place.width)));
    }
    answer
}

/// Zeros in the fields that an answer of the oracle does not have.
fn of_answer(of: &oracle::Answer) -> Answer {
    let mut fields = [0; FIELDS];
    fields[TAKEN] = of.taken as u32;
    fields[OPCODE] = of.opcode.into();
    fields[SIZE] = of.size.into();
    for (field, operand) in OPERANDS.into_iter().zip(of.operands) {
        fields[field] = operand.into();
    }
    fields[IMM_WIDE] = of.imm_wide;
    fields[DISPABS] = of.dispabs.into();
    fields[FIRST] = of.first.into();
    fields[LENGTH] = of.length.into();
    fields[REGISTERS] = of.registers.into();
    Answer { refusal: of.refusal.into(), fields }
}

fn set_places(answer: &mut Answer, parts: [model::Part; 3]) {
    for (field, (offset, width)) in OFFSETS.into_iter().zip(parts) {
        answer.fields[field] = offset;
        answer.fields[field + 1] = width;
    }
}

/// Request A6. The bytes tell what the Rust drops: a 20-bit number is the last that a row reads, and of its last byte four bits count.
fn reads_20_bits(operands: &[u8; 3]) -> bool {
    operands.iter().any(|operand| matches!(oracle::OPERAND_NAMES[usize::from(*operand)], "Abs20" | "Disp20_A0" | "Disp20_A1"))
}

fn width_number(first: u8) -> u32 {
    match first {
        0x74 | 0x76 | 0x78 | 0x7A | 0x7C => 1,
        0x75 | 0x77 | 0x79 | 0x7B | 0x7D => 2,
        _ => 0,
    }
}

// Stands in the buffer before each call: a number that no field can hold, so that a field left out is seen.
const UNWRITTEN: u32 = 0xDEAD_BEEF;

fn ported(reading: Reading, image: &[u8], at: usize) -> Answer {
    let mut fields = [UNWRITTEN; FIELDS];
    let refusal = decode_into(reading, image, at, &mut fields);
    Answer { refusal, fields }
}

fn decode_into(reading: Reading, image: &[u8], at: usize, out: &mut [u32]) -> u32 {
    let decode = functions::of(reading).decode;
    unsafe { decode(image.as_ptr(), image.len(), at, out.as_mut_ptr(), out.len()) }
}

/// A record for encoders of the numbers that they want. What stands behind these must not count, and is what no record has there.
fn record_of(wanted: [u32; WANTED]) -> [u32; FIELDS] {
    let mut record = [UNWRITTEN; FIELDS];
    record[..WANTED].copy_from_slice(&wanted);
    record
}

// ---- Counting, and keeping the first difference

/// Comparisons by one reading.
struct Tally {
    reading: Reading,
    compared: u64,
    accepted: u64,
    different: u64,
    first_difference: Option<String>,
}

impl Tally {
    fn of(reading: Reading) -> Tally {
        Tally { reading, compared: 0, accepted: 0, different: 0, first_difference: None }
    }

    /// Compares the answers for the bytes of `image` from `at` on.
    fn compare(&mut self, image: &[u8], at: usize) -> Answer {
        let wanted = expected(self.reading, image.get(at..).unwrap_or(&[]));
        let port = ported(self.reading, image, at);
        let reading = self.reading;
        self.count(wanted.refusal == 0, port == wanted, || describe(reading, image, at, &wanted, &port));
        wanted
    }

    /// One comparison: whether 0 is the right refusal, and whether the port answered right.
    fn count(&mut self, accepted: bool, same: bool, describe: impl FnOnce() -> String) {
        self.compared += 1;
        self.accepted += u64::from(accepted);
        if !same {
            self.different += 1;
            let reading = self.reading;
            self.first_difference.get_or_insert_with(|| format!("{reading:?} reading, {}", describe()));
        }
    }

    /// Adds what came after.
    fn add(&mut self, later: Tally) {
        self.compared += later.compared;
        self.accepted += later.accepted;
        self.different += later.different;
        self.first_difference = self.first_difference.take().or(later.first_difference);
    }
}

fn describe(reading: Reading, image: &[u8], at: usize, wanted: &Answer, port: &Answer) -> String {
    let by_model = reading.modelled(image.get(at..).unwrap_or(&[])).is_some();
    let mut text = format!("place {at} of {}, by the {}\n", hex(image), if by_model { "model" } else { "Rust" });
    let mut line = |name: &str, wanted: u32, port: u32| {
        let sign = if wanted == port { ' ' } else { '*' };
        writeln!(text, "  {sign} {name:15} wanted {wanted:8X}   port {port:8X}").unwrap();
    };
    line("refusal", wanted.refusal, port.refusal);
    for (field, name) in FIELD_NAMES.iter().enumerate() {
        line(name, wanted.fields[field], port.fields[field]);
    }
    text += "  (in hex; the Rust has no `first`, `dropped`, offsets and widths: what the bytes say is shown)\n";
    text
}

fn hex(bytes: &[u8]) -> String {
    if bytes.is_empty() {
        return "no bytes".to_string();
    }
    bytes.iter().map(|byte| format!("{byte:02X}")).collect::<Vec<String>>().join(" ")
}

// ---- The kinds of strings

/// Strings, records or images of one kind, in parts that do not depend on each other: the outcome is the same however threads share them.
struct Kind {
    name: &'static str,
    quick_parts: usize,
    all_parts: usize,
    run_part: fn(usize, &mut Tally),
}

const CODES: usize = FIRST_BYTES.len() * 256;

#[rustfmt::skip]
const KINDS: &[Kind] = &[
    Kind { name: "0 to 3 bytes, every one", quick_parts: 257, all_parts: 257, run_part: short_strings },
    Kind { name: "4 bytes, every one of the decoded first bytes", quick_parts: 0, all_parts: CODES, run_part: four_bytes },
    Kind { name: "5 to 9 bytes, at random", quick_parts: 100, all_parts: 1000, run_part: random_strings },
    Kind { name: "accepted, cut short", quick_parts: 100, all_parts: 1000, run_part: cut_strings },
    Kind { name: "accepted, one byte damaged", quick_parts: 100, all_parts: 1000, run_part: damaged_strings },
    Kind { name: "request A9's codes with many tails, and cuts of them", quick_parts: NAMED, all_parts: NAMED, run_part: named_strings },
    Kind { name: "every last byte, of codes that read 20 bits", quick_parts: CODES, all_parts: CODES, run_part: last_bytes },
    Kind { name: "places in an image, at its end and past it", quick_parts: 100, all_parts: 1000, run_part: places_in_images },
    Kind { name: "buffers too short or too long", quick_parts: CODES, all_parts: CODES, run_part: buffers },
];

const STRINGS_IN_A_PART: usize = 10_000;
const IMAGES_IN_A_PART: usize = 100;

/// Part 256 is the empty string, each other a first byte.
fn short_strings(part: usize, tally: &mut Tally) {
    let Ok(first) = u8::try_from(part) else {
        tally.compare(&[], 0);
        return;
    };
    tally.compare(&[first], 0);
    for second in 0..=255 {
        tally.compare(&[first, second], 0);
        for third in 0..=255 {
            tally.compare(&[first, second, third], 0);
        }
    }
}

/// First and second byte of a code, by its number.
fn code_of(number: usize) -> (u8, u8) {
    (FIRST_BYTES[number / 256], (number % 256) as u8)
}

/// A part is a code.
fn four_bytes(part: usize, tally: &mut Tally) {
    let (first, second) = code_of(part);
    for third in 0..=255 {
        for fourth in 0..=255 {
            tally.compare(&[first, second, third, fourth], 0);
        }
    }
}

fn random_strings(part: usize, tally: &mut Tally) {
    let mut random = Random::of("random", part);
    for _ in 0..STRINGS_IN_A_PART {
        tally.compare(&random.string(), 0);
    }
}

fn cut_strings(part: usize, tally: &mut Tally) {
    let mut random = Random::of("cut", part);
    for _ in 0..STRINGS_IN_A_PART {
        let string = random.accepted_string(tally.reading);
        let kept = random.below(string.len());
        tally.compare(&string[..kept], 0);
    }
}

fn damaged_strings(part: usize, tally: &mut Tally) {
    let mut random = Random::of("damaged", part);
    for _ in 0..STRINGS_IN_A_PART {
        let mut string = random.accepted_string(tally.reading);
        let place = random.below(string.len());
        string[place] ^= 1 + random.below(255) as u8;
        tally.compare(&string, 0);
    }
}

/// The codes that request A9 names, of which the readings differ in most.
fn named_codes() -> Vec<[u8; 2]> {
    (0..=u16::MAX).map(u16::to_be_bytes).filter(|code| manual::has(*code)).collect()
}

const NAMED: usize = 403;

/// A part is a code.
fn named_strings(part: usize, tally: &mut Tally) {
    let code = named_codes()[part];
    for string in told::tails(code).into_iter().map(|tail| told::behind(code, tail)) {
        for length in code.len()..=string.len() {
            tally.compare(&string[..length], 0);
        }
    }
}

/// Strings of a code that reads 20 bits, with every last byte: none of another code. A part is a code.
fn twenty_bit_strings(reading: Reading, part: usize) -> Vec<Vec<u8>> {
    let (first, second) = code_of(part);
    let mut random = Random::of("last bytes", part);
    let string: Vec<u8> = [first, second].into_iter().chain((0..5).map(|_| random.byte())).collect();
    let answer = reading.answer(&string);
    if answer.refusal != oracle::ACCEPTED || !reads_20_bits(&answer.operands) {
        return Vec::new();
    }
    let (_, kept) = string[..answer.taken].split_last().expect("an instruction has bytes");
    (0..=255).map(|last| kept.iter().copied().chain([last]).collect()).collect()
}

fn last_bytes(part: usize, tally: &mut Tally) {
    for string in twenty_bit_strings(tally.reading, part) {
        tally.compare(&string, 0);
    }
}

// The image lies inside other bytes, so that reading past its end would be seen.
fn places_in_images(part: usize, tally: &mut Tally) {
    const AROUND: usize = 16;
    let mut random = Random::of("places", part);
    for _ in 0..IMAGES_IN_A_PART {
        let length = random.below(100);
        let bytes = random.code(length + 2 * AROUND);
        let image = &bytes[AROUND..AROUND + length];
        let past = [length, length + 1, length + AROUND, usize::MAX - 1, usize::MAX];
        for at in (0..length).chain(past) {
            tally.compare(image, at);
        }
    }
}

// All numbers are written or none, and nothing behind them. A part is a code.
fn buffers(part: usize, tally: &mut Tally) {
    const LONGEST_BUFFER: usize = FIELDS + 3;
    let (first, second) = code_of(part);
    let string = [first, second, 0, 0, 0, 0, 0];
    let answer = ported(tally.reading, &string, 0);
    for room in (0..FIELDS).chain(FIELDS + 1..=LONGEST_BUFFER) {
        let mut wanted = [UNWRITTEN; LONGEST_BUFFER];
        let mut wanted_refusal = TOO_LITTLE_ROOM;
        if room >= FIELDS {
            wanted[..FIELDS].copy_from_slice(&answer.fields);
            wanted_refusal = answer.refusal;
        }
        let mut buffer = [UNWRITTEN; LONGEST_BUFFER];
        let refusal = decode_into(tally.reading, &string, 0, &mut buffer[..room]);
        tally.count(wanted_refusal == 0, refusal == wanted_refusal && buffer == wanted, || {
            let bytes = hex(&string);
            format!("{bytes} with room for {room} numbers\n  wanted {wanted_refusal} {wanted:X?}\n  port   {refusal} {buffer:X?}\n")
        });
    }
}

struct Random(u64);

impl Random {
    /// A kind's part has a sequence of its own.
    fn of(kind: &str, part: usize) -> Random {
        let name = kind.bytes().fold(SEED, |sum, byte| sum.wrapping_mul(31).wrapping_add(byte.into()));
        Random(name.wrapping_add(part as u64))
    }

    // splitmix64, which takes any start
    fn next(&mut self) -> u64 {
        self.0 = self.0.wrapping_add(0x9E37_79B9_7F4A_7C15);
        let mut mixed = self.0;
        mixed = (mixed ^ (mixed >> 30)).wrapping_mul(0xBF58_476D_1CE4_E5B9);
        mixed = (mixed ^ (mixed >> 27)).wrapping_mul(0x94D0_49BB_1331_11EB);
        mixed ^ (mixed >> 31)
    }

    fn below(&mut self, bound: usize) -> usize {
        (self.next() % bound as u64) as usize
    }

    fn byte(&mut self) -> u8 {
        self.next() as u8
    }

    fn first_byte(&mut self) -> u8 {
        FIRST_BYTES[self.below(FIRST_BYTES.len())]
    }

    fn string(&mut self) -> Vec<u8> {
        let length = 5 + self.below(5);
        let first = self.first_byte();
        std::iter::once(first).chain((1..length).map(|_| self.byte())).collect()
    }

    /// Without the bytes behind the instruction, so that every cut takes something away.
    fn accepted_string(&mut self, reading: Reading) -> Vec<u8> {
        self.taken_string(reading, |refusal| refusal == oracle::ACCEPTED)
    }

    /// With all the bytes that decoding took before it refused.
    fn refused_string(&mut self, reading: Reading) -> Vec<u8> {
        self.taken_string(reading, |refusal| refusal != oracle::ACCEPTED)
    }

    fn taken_string(&mut self, reading: Reading, wanted: fn(u8) -> bool) -> Vec<u8> {
        loop {
            let mut string = self.string();
            let answer = reading.answer(&string);
            if wanted(answer.refusal) {
                string.truncate(answer.taken);
                return string;
            }
        }
    }

    /// Half of the bytes are first bytes, so that most places decode.
    fn code(&mut self, length: usize) -> Vec<u8> {
        (0..length).map(|_| if self.below(2) == 0 { self.first_byte() } else { self.byte() }).collect()
    }
}

// ---- Running

#[rustfmt::skip]
const TASKS: [(&str, Reading, &[Kind]); 16] = [
    ("the Rust's own table beside the model", Reading::Present, tabled::KINDS),
    ("the witnesses' table beside the model and the port", Reading::Manual, witnesses::KINDS),
    ("stored answers", Reading::Present, replayed::KINDS),
    ("stored answers by the manual", Reading::Manual, replayed::KINDS_BY_MANUAL),
    ("decode", Reading::Present, KINDS),
    ("decode by the manual", Reading::Manual, KINDS),
    ("parts", Reading::Present, parts::KINDS),
    ("parts by the manual", Reading::Manual, parts::KINDS),
    ("encode", Reading::Present, encoder::KINDS),
    ("encode by the manual", Reading::Manual, encoder::KINDS),
    ("sweep", Reading::Present, sweeps::KINDS),
    ("sweep by the manual", Reading::Manual, sweeps::KINDS),
    ("line", Reading::Present, lines::KINDS),
    ("line by the manual", Reading::Manual, lines::KINDS),
    ("length", Reading::Present, lengths::KINDS),
    ("operand number", Reading::Present, numbers::KINDS),
];

fn main() -> ExitCode {
    let options: Vec<String> = env::args().skip(1).collect();
    let all = match options.as_slice() {
        [] => false,
        [option] if option == "--all" => true,
        _ => {
            eprintln!("usage: differ [--all]");
            return ExitCode::from(2);
        }
    };
    let mut total = Tally::of(Reading::Present);
    for (what, reading, kinds) in TASKS {
        println!("{:>13} {:>13} {:>13}  {what}", "compared", "accepted", "different");
        for kind in kinds {
            let parts = if all { kind.all_parts } else { kind.quick_parts };
            if parts == 0 {
                continue;
            }
            let tally = run(kind, reading, parts);
            print_line(&tally, kind.name);
            total.add(tally);
        }
    }
    print_line(&total, "together");
    match total.first_difference {
        None => ExitCode::SUCCESS,
        Some(text) => {
            print!("the first difference: {text}");
            ExitCode::FAILURE
        }
    }
}

fn print_line(tally: &Tally, name: &str) {
    println!("{:13} {:13} {:13}  {name}", tally.compared, tally.accepted, tally.different);
}

fn run(kind: &Kind, reading: Reading, parts: usize) -> Tally {
    let next_part = AtomicUsize::new(0);
    let mut done: Vec<(usize, Tally)> = thread::scope(|scope| {
        let threads: Vec<_> = (0..THREADS).map(|_| scope.spawn(|| take_parts(kind, reading, parts, &next_part))).collect();
        threads.into_iter().flat_map(|thread| thread.join().expect("the Rust panicked")).collect()
    });
    done.sort_by_key(|(part, _)| *part);
    let mut total = Tally::of(reading);
    for (_, tally) in done {
        total.add(tally);
    }
    total
}

fn take_parts(kind: &Kind, reading: Reading, parts: usize, next_part: &AtomicUsize) -> Vec<(usize, Tally)> {
    let mut done = Vec::new();
    loop {
        let part = next_part.fetch_add(1, Ordering::Relaxed);
        if part >= parts {
            return done;
        }
        let mut tally = Tally::of(reading);
        (kind.run_part)(part, &mut tally);
        done.push((part, tally));
    }
}
