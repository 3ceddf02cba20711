// The measurements: the port and its Rust peers over the same images, in one process.
// usage: bench count   marks each measurement for the counting plugin (count.c), which prints the counts
//        bench time    prints a line a measurement: label, units, nanoseconds

#[path = "../bindings/rust/src/c.rs"]
#[allow(dead_code)] // both sweeps go by the type of one
mod c;

use std::env;
use std::hint::black_box;
use std::process::ExitCode;
use std::time::Instant;

use c::{m16c_decode, m16c_encode, m16c_length, m16c_line, m16c_operand_number, m16c_sweep, m16c_sweep_stopping};
use c::{m16c_decode_manual, m16c_encode_manual, m16c_line_manual, m16c_sweep_manual, m16c_sweep_manual_stopping};
use c::{Decode, Encode, Length, Line, OperandNumber, Sweep};
use c::{LONGEST_IMAGE, LONGEST_INSTRUCTION, LONGEST_LINE};
use peer_call::{at_each, nothing_decoded, nothing_encoded, nothing_told, rust_decode, Record, NUMBERS, RUST_NUMBERS};
use peer_loop::rust_decode_at_each;
use peer_sweep_call::rust_sweep as rust_sweep_call;
use peer_sweep_loop::rust_sweep as rust_sweep_loop;

// The first bytes that the Rust decodes too. `image`, `codes` and `random` have no others, so that all do the same work.
const RUST_FIRST_BYTES: [u8; 12] = [0x74, 0x75, 0x76, 0x77, 0x78, 0x79, 0x7A, 0x7B, 0x7C, 0x7D, 0x7E, 0xEB];
// Those of the port alone: two general operands, and lists of registers.
#[rustfmt::skip] // ten in a line
const TWO_OPERANDS: [u8; 20] = [
    0x72, 0x73, 0x80, 0x81, 0x88, 0x89, 0x90, 0x91, 0x98, 0x99,
    0xA0, 0xA1, 0xA8, 0xA9, 0xB0, 0xB1, 0xB8, 0xB9, 0xC0, 0xC1,
];
const LISTS: [u8; 2] = [0xEC, 0xED];
// Of the Rust's those that have two general operands too: what the others stand beside.
const MULTIPLIED: [u8; 2] = [0x78, 0x79];

const IMAGE_INSTRUCTIONS: usize = 4000;
const RANDOM_PIECES: usize = 4;
const SEED: u64 = 0x9E37_79B9_7F4A_7C15;

// The operand whose number is asked for.
const ASKED: usize = 0;

// Where a record has the bytes taken and the instruction's length.
const TAKEN: usize = 0;
const LENGTH: usize = 10;

// Of the numbers that the Rust delivers, those that it does not have, and delivers 0 for.
const FIRST: usize = 9;
const MARKED: usize = 11;

extern "C" {
    fn syscall(number: i64, first: i64, ...) -> i64;
}

/// By what the bytes are read.
#[derive(Debug, Clone, Copy, PartialEq)]
enum Reading {
    Document01,
    Manual,
}

use Reading::{Document01, Manual};

const BY_DOCUMENT: &[Reading] = &[Document01];
const BY_BOTH: &[Reading] = &[Document01, Manual];
const BY_MANUAL: &[Reading] = &[Manual];

/// The functions of a reading, for all but measuring: there they are called by their names.
struct Functions {
    decode: Decode,
    encode: Encode,
    line: Line,
    sweep: Sweep,
    sweep_stopping: Sweep,
}

impl Reading {
    fn functions(self) -> Functions {
        match self {
            Document01 => Functions {
                decode: m16c_decode,
                encode: m16c_encode,
                line: m16c_line,
                sweep: m16c_sweep,
                sweep_stopping: m16c_sweep_stopping,
            },
            Manual => Functions {
                decode: m16c_decode_manual,
                encode: m16c_encode_manual,
                line: m16c_line_manual,
                sweep: m16c_sweep_manual,
                sweep_stopping: m16c_sweep_manual_stopping,
            },
        }
    }
}

/// Code, the places in it where the measured work is done, and the records that stand there.
struct Workload {
    name: String,
    image: Vec<u8>,
    places: Vec<u32>,
    /// The readings that have these places; the records are by the first.
    readings: &'static [Reading],
    records: Vec<Record>,
    /// Whether decoding refuses at some of the places.
    refuses: bool,
    /// Whether the Rust decodes at all of them.
    in_rust: bool,
    /// The image cut at places, as long as a sweep takes; none if the places leave something out.
    pieces: Vec<Vec<u8>>,
}

/// What the measured work writes into.
struct Out {
    record: Record,
    bytes: [u8; LONGEST_INSTRUCTION],
    length: usize,
    starts: Vec<u16>,
    count: usize,
    stop: usize,
    refused: usize,
    read: usize,
    line: [u8; LONGEST_LINE],
    number: i64,
}

/// One way of doing a task over a workload. bench/table.awk takes `empty_loop` off the others of the task, `decode_loop` off `decode`.
struct Way {
    name: &'static str,
    run: fn(&Workload, &mut Out),
}

struct Task {
    name: &'static str,
    reading: Reading,
    /// Which workloads it is measured on, and at which of their records.
    works: fn(&Workload) -> bool,
    takes: fn(&Record) -> bool,
    ways: &'static [Way],
    /// Those that only what the Rust decodes can be done by.
    rust_ways: &'static [Way],
}

// Another task is another entry: its ways under the names that bench/table.awk knows.
const TASKS: &[Task] = &[
    Task {
        name: "decode",
        reading: Document01,
        works: is_accepted,
        takes: |_| true,
        ways: &[
            Way { name: "empty_loop", run: |work, out| at_each(places(work), &mut out.record, |_, _| ()) },
            Way { name: "empty_call", run: |work, out| decode_each(nothing_decoded, work, out) },
            Way { name: "rattle", run: |work, out| decode_each(m16c_decode, work, out) },
        ],
        rust_ways: &[
            Way { name: "rust_call", run: |work, out| decode_each(rust_decode, work, out) },
            Way { name: "rust_loop", run: |work, out| rust_decode_at_each(&work.image, &work.places, &mut out.record) },
        ],
    },
    Task {
        name: "encode",
        reading: Document01,
        works: is_accepted,
        takes: |record| record[MARKED] == 0,
        ways: &[
            Way { name: "empty_loop", run: |work, out| at_each(work.records.iter(), out, |_, _| ()) },
            Way { name: "empty_call", run: |work, out| encode_each(nothing_encoded, work, out) },
            Way { name: "rattle", run: |work, out| encode_each(m16c_encode, work, out) },
            Way { name: "decode_loop", run: |work, out| at_each(places(work), &mut out.record, |_, _| ()) },
            Way { name: "decode", run: |work, out| decode_each(m16c_decode, work, out) },
        ],
        rust_ways: &[],
    },
    Task {
        name: "sweep",
        reading: Document01,
        works: is_whole,
        takes: |_| true,
        ways: &[
            Way { name: "empty_loop", run: |work, out| at_each(work.pieces.iter(), out, |_, _| ()) },
            Way { name: "rattle", run: |work, out| sweep_each(m16c_sweep, work, out) },
        ],
        rust_ways: &[
            Way { name: "rust_call", run: |work, out| sweep_each(rust_sweep_call, work, out) },
            Way { name: "rust_loop", run: |work, out| sweep_each(rust_sweep_loop, work, out) },
        ],
    },
    Task {
        name: "sweep_stopping",
        reading: Document01,
        works: |work| is_whole(work) && is_accepted(work),
        takes: |_| true,
        ways: &[
            Way { name: "empty_loop", run: |work, out| at_each(work.pieces.iter(), out, |_, _| ()) },
            Way { name: "rattle", run: |work, out| sweep_each(m16c_sweep_stopping, work, out) },
        ],
        rust_ways: &[],
    },
    Task {
        name: "line",
        reading: Document01,
        works: is_accepted,
        takes: |_| true,
        ways: &[
            Way { name: "empty_loop", run: |work, out| at_each(places(work), out, |_, _| ()) },
            Way { name: "rattle", run: |work, out| list_each(m16c_line, work, out) },
        ],
        rust_ways: &[],
    },
    Task {
        name: "length",
        reading: Document01,
        works: is_accepted,
        takes: |_| true,
        ways: &[
            Way { name: "empty_loop", run: |work, out| at_each(places(work), out, |_, _| ()) },
            Way { name: "empty_call", run: |work, out| tell_each(nothing_told, work, out) },
            Way { name: "rattle", run: |work, out| tell_each(m16c_length, work, out) },
            Way { name: "decode_loop", run: |work, out| at_each(places(work), &mut out.record, |_, _| ()) },
            Way { name: "decode", run: |work, out| decode_each(m16c_decode, work, out) },
        ],
        rust_ways: &[],
    },
    Task {
        name: "operand_number",
        reading: Document01,
        works: is_accepted,
        takes: |_| true,
        ways: &[
            Way { name: "empty_loop", run: |work, out| at_each(work.records.iter(), out, |_, _| ()) },
            Way { name: "rattle", run: |work, out| ask_each(m16c_operand_number, work, out) },
        ],
        rust_ways: &[],
    },
    Task {
        name: "decode_manual",
        reading: Manual,
        works: is_accepted,
        takes: |_| true,
        ways: &[
            Way { name: "empty_loop", run: |work, out| at_each(places(work), &mut out.record, |_, _| ()) },
            Way { name: "rattle", run: |work, out| decode_each(m16c_decode_manual, work, out) },
        ],
        rust_ways: &[],
    },
    Task {
        name: "encode_manual",
        reading: Manual,
        works: is_accepted,
        takes: |record| record[MARKED] == 0,
        ways: &[
            Way { name: "empty_loop", run: |work, out| at_each(work.records.iter(), out, |_, _| ()) },
            Way { name: "rattle", run: |work, out| encode_each(m16c_encode_manual, work, out) },
        ],
        rust_ways: &[],
    },
    Task {
        name: "sweep_manual",
        reading: Manual,
        works: is_whole,
        takes: |_| true,
        ways: &[
            Way { name: "empty_loop", run: |work, out| at_each(work.pieces.iter(), out, |_, _| ()) },
            Way { name: "rattle", run: |work, out| sweep_each(m16c_sweep_manual, work, out) },
        ],
        rust_ways: &[],
    },
    Task {
        name: "sweep_manual_stopping",
        reading: Manual,
        works: |work| is_whole(work) && is_accepted(work),
        takes: |_| true,
        ways: &[
            Way { name: "empty_loop", run: |work, out| at_each(work.pieces.iter(), out, |_, _| ()) },
            Way { name: "rattle", run: |work, out| sweep_each(m16c_sweep_manual_stopping, work, out) },
        ],
        rust_ways: &[],
    },
    Task {
        name: "line_manual",
        reading: Manual,
        works: is_accepted,
        takes: |_| true,
        ways: &[
            Way { name: "empty_loop", run: |work, out| at_each(places(work), out, |_, _| ()) },
            Way { name: "rattle", run: |work, out| list_each(m16c_line_manual, work, out) },
        ],
        rust_ways: &[],
    },
];

fn is_accepted(work: &Workload) -> bool {
    !work.refuses
}

fn is_whole(work: &Workload) -> bool {
    !work.pieces.is_empty()
}

fn places(work: &Workload) -> impl Iterator<Item = u32> + '_ {
    work.places.iter().copied()
}

// The six below are always inlined, so that what they are given is a call to a known function, not through a pointer.
#[inline(always)]
fn decode_each(decode: Decode, work: &Workload, out: &mut Out) {
    let image = work.image.as_slice();
    at_each(places(work), &mut out.record, |place, record| {
        unsafe { decode(image.as_ptr(), image.len(), place as usize, record.as_mut_ptr(), record.len()) };
    });
}

#[inline(always)]
fn encode_each(encode: Encode, work: &Workload, out: &mut Out) {
    at_each(work.records.iter(), out, |record, out| {
        let (from, to) = (record.as_slice(), out.bytes.as_mut_slice());
        unsafe { encode(from.as_ptr(), from.len(), to.as_mut_ptr(), to.len(), 0, &mut out.length) };
    });
}

#[inline(always)]
fn sweep_each(sweep: Sweep, work: &Workload, out: &mut Out) {
    at_each(work.pieces.iter(), out, |piece, out| {
        let (from, to) = (piece.as_ptr(), out.starts.as_mut_ptr());
        let room = out.starts.len();
        unsafe { sweep(from, piece.len(), to, room, &mut out.count, &mut out.stop, &mut out.refused, &mut out.read) };
    });
}

#[inline(always)]
fn list_each(line: Line, work: &Workload, out: &mut Out) {
    let image = work.image.as_slice();
    at_each(places(work), out, |place, out| {
        let to = out.line.as_mut_slice();
        unsafe { line(image.as_ptr(), image.len(), place as usize, to.as_mut_ptr(), to.len(), &mut out.length) };
    });
}

// The rest of the image is passed on, of which two bytes count. A place is in the image, so the slice is not checked.
#[inline(always)]
fn tell_each(length: Length, work: &Workload, out: &mut Out) {
    let image = work.image.as_slice();
    at_each(places(work), out, |place, out| {
        let rest = unsafe { image.get_unchecked(place as usize..) };
        unsafe { length(rest.as_ptr(), rest.len(), &mut out.length) };
    });
}

#[inline(always)]
fn ask_each(operand_number: OperandNumber, work: &Workload, out: &mut Out) {
    at_each(work.records.iter(), out, |record, out| {
        unsafe { operand_number(record.as_ptr(), record.len(), ASKED, &mut out.number) };
    });
}

fn main() -> ExitCode {
    let measure = match env::args().nth(1).as_deref() {
        Some("count") => count,
        Some("time") => time,
        _ => {
            eprintln!("usage: bench count|time");
            return ExitCode::from(2);
        }
    };
    let workloads = workloads();
    if let Err(message) = workloads.iter().try_for_each(check_same_work) {
        eprintln!("bench: {message}");
        return ExitCode::FAILURE;
    }
    for task in TASKS {
        for work in workloads.iter().filter(|work| work.readings.contains(&task.reading) && (task.works)(work)) {
            let work = only(work, task);
            let rust_ways = if work.in_rust { task.rust_ways } else { &[] };
            for way in task.ways.iter().chain(rust_ways) {
                measure(&format!("{}.{}.{}", task.name, work.name, way.name), way, &work);
            }
        }
    }
    ExitCode::SUCCESS
}

fn workloads() -> Vec<Workload> {
    let image = image_workload("image", &RUST_FIRST_BYTES, length_by_document, BY_DOCUMENT);
    let two = image_workload("two", &TWO_OPERANDS, length_by_document, BY_BOTH);
    let lists = image_workload("lists", &LISTS, length_by_document, BY_BOTH);
    let mul = image_workload("mul", &MULTIPLIED, length_by_document, BY_DOCUMENT);
    let both = image_workload("both", &RUST_FIRST_BYTES, length_by_both, BY_BOTH);
    let manual = image_workload("manual", &RUST_FIRST_BYTES, length_by_manual, BY_MANUAL);
    let by_first_byte = |work, firsts: &[u8]| firsts.iter().map(|first| only_first_byte(work, *first)).collect();
    let single: [Vec<Workload>; 3] =
        [by_first_byte(&image, &RUST_FIRST_BYTES), by_first_byte(&two, &TWO_OPERANDS), by_first_byte(&lists, &LISTS)];
    let shared = [image, codes_workload(), two, lists, mul, both, manual, random_workload()];
    shared.into_iter().chain(single.into_iter().flatten()).collect()
}

/// The length of the instruction that bytes begin with; none where they are refused.
type LengthOf = fn(&[u8]) -> Option<usize>;

fn length_by_document(bytes: &[u8]) -> Option<usize> {
    let answer = oracle::answer(bytes);
    (answer.refusal == oracle::ACCEPTED).then_some(answer.taken)
}

fn length_by_manual(bytes: &[u8]) -> Option<usize> {
    let (refusal, record) = called(m16c_decode_manual, bytes, 0);
    (refusal == 0).then_some(record[LENGTH] as usize)
}

/// Only where both readings accept, and take the same bytes.
fn length_by_both(bytes: &[u8]) -> Option<usize> {
    length_by_document(bytes).filter(|length| length_by_manual(bytes) == Some(*length))
}

/// First bytes evenly, then an accepted code, then operand bytes at random.
fn image_workload(name: &str, first_bytes: &[u8], length: LengthOf, readings: &'static [Reading]) -> Workload {
    let codes: Vec<Vec<u8>> = first_bytes.iter().map(|first| accepted_seconds(*first, length)).collect();
    let mut random = Random(SEED);
    let pick = |random: &mut Random| {
        let row = random.below(first_bytes.len());
        (first_bytes[row], codes[row][random.below(codes[row].len())])
    };
    let picked: Vec<(u8, u8)> = (0..IMAGE_INSTRUCTIONS).map(|_| pick(&mut random)).collect();
    assemble(name, &picked, &mut random, length, readings)
}

fn codes_workload() -> Workload {
    let seconds =
        |first: u8| accepted_seconds(first, length_by_document).into_iter().map(move |second| (first, second));
    let every: Vec<(u8, u8)> = RUST_FIRST_BYTES.into_iter().flat_map(seconds).collect();
    assemble("codes", &every, &mut Random(SEED), length_by_document, BY_DOCUMENT)
}

/// Bytes at random, most of them refused, for sweeps that go on; the places are those at which they decode. A byte that would begin an
/// instruction of the port alone is drawn anew.
fn random_workload() -> Workload {
    let mut random = Random(SEED);
    let mut byte = || loop {
        let byte = random.byte();
        if !is_of_port_alone(byte) {
            break byte;
        }
    };
    let mut piece = || -> Vec<u8> { (0..LONGEST_IMAGE).map(|_| byte()).collect() };
    let pieces: Vec<Vec<u8>> = (0..RANDOM_PIECES).map(|_| piece()).collect();
    let begins = (0..).step_by(LONGEST_IMAGE);
    let in_image = |(begin, piece): (usize, &Vec<u8>)| {
        visited(Document01, piece).into_iter().map(move |visit| begin + visit.place)
    };
    let places = begins.zip(&pieces).flat_map(in_image).map(|place| place as u32).collect();
    workload("random".to_string(), pieces.concat(), places, pieces, BY_DOCUMENT)
}

fn is_of_port_alone(first: u8) -> bool {
    TWO_OPERANDS.contains(&first) || LISTS.contains(&first)
}

/// A place at which a sweep decodes, the refusal there and the bytes that it took.
#[derive(Clone, Copy)]
struct Visit {
    place: usize,
    refusal: u32,
    taken: usize,
}

/// The places of a piece that a sweep visits if it goes on.
fn visited(reading: Reading, piece: &[u8]) -> Vec<Visit> {
    let (mut visited, mut place) = (Vec::new(), 0);
    while place < piece.len() {
        let (refusal, taken) = answered(reading, &piece[place..]);
        visited.push(Visit { place, refusal, taken });
        place += if refusal == 0 { taken } else { 1 };
    }
    visited
}

/// A refusal and the bytes taken: the oracle's, which has document 01's reading alone, or those of decoding by the manual.
fn answered(reading: Reading, bytes: &[u8]) -> (u32, usize) {
    match reading {
        Document01 => {
            let answer = oracle::answer(bytes);
            (answer.refusal.into(), answer.taken)
        }
        Manual => {
            let (refusal, record) = called(m16c_decode_manual, bytes, 0);
            (refusal, record[TAKEN] as usize)
        }
    }
}

fn only_first_byte(work: &Workload, first: u8) -> Workload {
    let starts_here = |place: &u32| work.image[*place as usize] == first;
    let places = work.places.iter().copied().filter(starts_here).collect();
    workload(format!("{first:02X}"), work.image.clone(), places, Vec::new(), work.readings)
}

/// The same image, at the places whose records a task takes, with the records of the task's reading. Where there are two readings the
/// first says which are taken, so that both have the same places.
fn only(work: &Workload, task: &Task) -> Workload {
    let taken = work.places.iter().zip(&work.records).filter(|(_, record)| (task.takes)(record));
    let places = taken.map(|(place, _)| *place).collect();
    let readings = if task.reading == Manual { BY_MANUAL } else { BY_DOCUMENT };
    workload(work.name.clone(), work.image.clone(), places, work.pieces.clone(), readings)
}

fn workload(
    name: String,
    image: Vec<u8>,
    places: Vec<u32>,
    pieces: Vec<Vec<u8>>,
    readings: &'static [Reading],
) -> Workload {
    let decode = readings[0].functions().decode;
    let answers = places.iter().map(|place| called(decode, &image, *place));
    let (refusals, records): (Vec<u32>, Vec<Record>) = answers.unzip();
    let refuses = refusals.iter().any(|refusal| *refusal != 0);
    // The Rust has document 01's reading.
    let in_rust = readings[0] == Document01 && !places.iter().any(|place| is_of_port_alone(image[*place as usize]));
    Workload { name, image, places, readings, records, refuses, in_rust, pieces }
}

fn assemble(
    name: &str,
    codes: &[(u8, u8)],
    random: &mut Random,
    length: LengthOf,
    readings: &'static [Reading],
) -> Workload {
    let (mut image, mut places, mut pieces) = (Vec::new(), Vec::new(), vec![Vec::new()]);
    for (first, second) in codes {
        let instruction = accepted_instruction(*first, *second, random, length);
        places.push(image.len() as u32);
        image.extend(&instruction);
        if pieces[pieces.len() - 1].len() + instruction.len() > LONGEST_IMAGE {
            pieces.push(Vec::new());
        }
        pieces.last_mut().expect("there is a piece").extend(&instruction);
    }
    workload(name.to_string(), image, places, pieces, readings)
}

// A tail of zeros is accepted wherever any tail is: it holds a condition that 7E takes.
fn accepted_seconds(first: u8, length: LengthOf) -> Vec<u8> {
    let accepted = |second: &u8| {
        let mut bytes = [0; LONGEST_INSTRUCTION];
        bytes[..2].copy_from_slice(&[first, *second]);
        length(&bytes).is_some()
    };
    (0..=255).filter(accepted).collect()
}

// Tries tails until one is accepted: most condition bytes are not.
fn accepted_instruction(first: u8, second: u8, random: &mut Random, length: LengthOf) -> Vec<u8> {
    loop {
        let mut bytes = vec![first, second];
        bytes.extend((2..LONGEST_INSTRUCTION).map(|_| random.byte()));
        if let Some(length) = length(&bytes) {
            bytes.truncate(length);
            return bytes;
        }
    }
}

struct Random(u64);

impl Random {
    fn next(&mut self) -> u64 {
        self.0 ^= self.0 << 13;
        self.0 ^= self.0 >> 7;
        self.0 ^= self.0 << 17;
        self.0
    }

    fn byte(&mut self) -> u8 {
        (self.next() >> 32) as u8
    }

    fn below(&mut self, bound: usize) -> usize {
        (self.next() >> 32) as usize % bound
    }
}

// A way that did less would be measured for less.
fn check_same_work(work: &Workload) -> Result<(), String> {
    work.readings.iter().try_for_each(|reading| check_reading(work, *reading))?;
    if work.readings == BY_BOTH {
        work.places.iter().try_for_each(|place| check_both(work, *place))?;
    }
    if work.readings == BY_MANUAL {
        check_other_reading(work)?;
    }
    Ok(())
}

fn check_reading(work: &Workload, reading: Reading) -> Result<(), String> {
    let places = || work.places.iter().copied();
    if work.in_rust && reading == Document01 {
        places().try_for_each(|place| check_decoding(work, place))?;
    } else {
        places().try_for_each(|place| check_accepted(work, reading, place))?;
    }
    if is_accepted(work) {
        for place in places() {
            let (_, record) = called(reading.functions().decode, &work.image, place);
            check_line(work, reading, place, &record)?;
            check_encoding(reading, &record)?;
            check_number(&record)?;
            // A length from two bytes is document 01's.
            if reading == Document01 {
                check_length(work, place, &record)?;
            }
        }
    }
    work.pieces.iter().try_for_each(|piece| check_sweeping(work, reading, piece))
}

/// Where document 01 marks nothing the readings are the same: each number, the line, and no more bytes than by the other encoder, which
/// has fewer rows to choose from.
fn check_both(work: &Workload, place: u32) -> Result<(), String> {
    let [document, manual] = [Document01, Manual].map(|reading| called(reading.functions().decode, &work.image, place));
    if document.1[MARKED] != 0 {
        return Ok(());
    }
    let [line, line_manual] = [Document01, Manual].map(|reading| listed(reading, &work.image, place));
    let [encoded, encoded_manual] = [Document01, Manual].map(|reading| encoded(reading, &document.1));
    if document != manual || line != line_manual || encoded_manual.1 > encoded.1 {
        return Err(format!("different readings at place {place} of workload {}\n{document:?}\n{manual:?}", work.name));
    }
    Ok(())
}

/// A reading by the manual that was document 01's would pass for it elsewhere: here at least one place in ten has an unmarked record that
/// document 01 does not give.
fn check_other_reading(work: &Workload) -> Result<(), String> {
    let is_other = |(place, record): &(&u32, &Record)| {
        record[MARKED] == 0 && called(m16c_decode, &work.image, **place) != (0, **record)
    };
    let others = work.places.iter().zip(&work.records).filter(is_other).count();
    if others * 10 < work.places.len() {
        return Err(format!("workload {} has only {others} places that document 01 reads otherwise", work.name));
    }
    Ok(())
}

/// All deliver the same, but for the numbers that the Rust does not have: two of its own are 0, and what stands behind them is left as it
/// was. The port delivers all.
fn check_decoding(work: &Workload, place: u32) -> Result<(), String> {
    let rattle = called(m16c_decode, &work.image, place);
    let mut wanted = UNDELIVERED;
    wanted[..RUST_NUMBERS].copy_from_slice(&rattle.1[..RUST_NUMBERS]);
    wanted[FIRST] = 0;
    wanted[MARKED] = 0;
    let rust_call = called(rust_decode, &work.image, place);
    let mut rust_loop = UNDELIVERED;
    rust_decode_at_each(&work.image, &[place], &mut rust_loop);
    let all_delivered = !rattle.1[RUST_NUMBERS..].contains(&NO_NUMBER);
    if rust_call != (rattle.0, wanted) || rust_loop != wanted || !all_delivered {
        let answers = format!("rattle {rattle:?}\nrust, call {rust_call:?}\nrust, loop {rust_loop:?}");
        return Err(format!("different answers at place {place} of workload {}\n{answers}", work.name));
    }
    Ok(())
}

/// Where the Rust has nothing to compare with: accepted with the length that the oracle's model says, by the manual with that which the
/// image was made with, and every number is delivered.
fn check_accepted(work: &Workload, reading: Reading, place: u32) -> Result<(), String> {
    let (refusal, record) = called(reading.functions().decode, &work.image, place);
    let length = answered(reading, &work.image[place as usize..]).1 as u32;
    if refusal != 0 || [record[TAKEN], record[LENGTH]] != [length; 2] || record.contains(&NO_NUMBER) {
        return Err(format!("not accepted at place {place} of workload {}: {refusal}, {record:?}", work.name));
    }
    Ok(())
}

/// An unmarked record is encoded, in no more bytes than it had, which decode to an instruction of the same name.
fn check_encoding(reading: Reading, record: &Record) -> Result<(), String> {
    const OPCODE_TO_WIDTH: std::ops::RangeInclusive<usize> = 1..=3;
    let (refusal, length, bytes) = encoded(reading, record);
    let back = called(reading.functions().decode, &bytes, 0).1;
    let good = refusal == 0
        && length <= record[LENGTH] as usize
        && back[LENGTH] as usize == length
        && back[OPCODE_TO_WIDTH] == record[OPCODE_TO_WIDTH];
    if record[MARKED] == 0 && !good {
        return Err(format!("{record:X?} is encoded by {reading:?} as {refusal}, {length} bytes, {bytes:X?}"));
    }
    Ok(())
}

fn encoded(reading: Reading, record: &Record) -> (u32, usize, [u8; LONGEST_INSTRUCTION]) {
    let (mut bytes, mut length) = ([0; LONGEST_INSTRUCTION], 0);
    let encode = reading.functions().encode;
    let refusal = unsafe { encode(record.as_ptr(), record.len(), bytes.as_mut_ptr(), bytes.len(), 0, &mut length) };
    (refusal, length, bytes)
}

/// There is a line, and it begins with the place and the record's length.
fn check_line(work: &Workload, reading: Reading, place: u32, record: &Record) -> Result<(), String> {
    let (refusal, length, line) = listed(reading, &work.image, place);
    let begin = format!("{:04X} {} ", place & 0xFFFF, record[LENGTH]);
    if refusal != 0 || length <= begin.len() || !line.starts_with(begin.as_bytes()) {
        return Err(format!("the line at place {place} of workload {} is {refusal}, {length}, {line:?}", work.name));
    }
    Ok(())
}

fn listed(reading: Reading, image: &[u8], place: u32) -> (u32, usize, [u8; LONGEST_LINE]) {
    let (mut line, mut length) = ([0; LONGEST_LINE], 0);
    let (list, to) = (reading.functions().line, line.as_mut_slice());
    let refusal = unsafe { list(image.as_ptr(), image.len(), place as usize, to.as_mut_ptr(), to.len(), &mut length) };
    (refusal, length, line)
}

/// The length is that of the record.
fn check_length(work: &Workload, place: u32, record: &Record) -> Result<(), String> {
    let rest = &work.image[place as usize..];
    let mut length = usize::MAX;
    let refusal = unsafe { m16c_length(rest.as_ptr(), rest.len(), &mut length) };
    if refusal != 0 || length != record[LENGTH] as usize {
        return Err(format!("the length at place {place} of workload {} is {refusal}, {length}", work.name));
    }
    Ok(())
}

/// A number is one of the record's fields, or the low byte of one less 100 (hex); there is none only for a name without one.
fn check_number(record: &Record) -> Result<(), String> {
    const FIELDS: [usize; 3] = [7, 8, FIRST];
    let mut number = i64::MIN;
    let refusal = unsafe { m16c_operand_number(record.as_ptr(), record.len(), ASKED, &mut number) };
    let told = FIELDS.iter().any(|field| {
        let raw = i64::from(record[*field]);
        number == raw || number == raw % 0x100 - 0x100
    });
    if !(refusal == 0 && told || refusal == 5 && number == 0) {
        return Err(format!("the number of operand {ASKED} of {record:X?} is {refusal}, {number}"));
    }
    Ok(())
}

/// What a sweep leaves.
#[derive(Debug, PartialEq)]
struct Swept {
    refusal: u32,
    count: usize,
    place: usize,
    refused: usize,
    read: usize,
    starts: Vec<u16>,
}

// What stands in the starts before.
const UNTOUCHED: u16 = u16::MAX;

/// All that go on sweep a piece to its end, over the same starts; the stopping sweep ends at the first refusal.
fn check_sweeping(work: &Workload, reading: Reading, piece: &[u8]) -> Result<(), String> {
    let visited = visited(reading, piece);
    let end = Visit { place: piece.len(), refusal: 0, taken: 0 };
    let first_refused = visited.iter().position(|visit| visit.refusal != 0);
    let (before, stop) = first_refused.map_or((visited.as_slice(), end), |k| (&visited[..k], visited[k]));
    let going_on = swept_so(piece, &visited, end);
    let Functions { sweep, sweep_stopping, .. } = reading.functions();
    check_swept("rattle", sweep, piece, &going_on)?;
    if work.in_rust && reading == Document01 {
        check_swept("rust, call", rust_sweep_call, piece, &going_on)?;
        check_swept("rust, loop", rust_sweep_loop, piece, &going_on)?;
    }
    check_swept("rattle, stopping", sweep_stopping, piece, &swept_so(piece, before, stop))
}

fn check_swept(name: &str, sweep: Sweep, piece: &[u8], expected: &Swept) -> Result<(), String> {
    let found = swept(sweep, piece);
    if found != *expected {
        return Err(format!("different sweeps of {piece:X?}\n{name} {found:?}\nby decodings {expected:?}"));
    }
    Ok(())
}

/// What a sweep leaves that passes these places, and ends at another, whose decoding it read too.
fn swept_so(piece: &[u8], passed: &[Visit], last: Visit) -> Swept {
    let accepted = passed.iter().filter(|visit| visit.refusal == 0);
    let mut starts: Vec<u16> = accepted.map(|visit| visit.place as u16).collect();
    let count = starts.len();
    starts.resize(piece.len(), UNTOUCHED);
    let read = passed.iter().chain([&last]).map(|visit| visit.taken).sum();
    Swept { refusal: last.refusal, count, place: last.place, refused: passed.len() - count, read, starts }
}

fn swept(sweep: Sweep, piece: &[u8]) -> Swept {
    let [mut count, mut place, mut refused, mut read] = [usize::MAX; 4];
    let mut starts = vec![UNTOUCHED; piece.len()];
    let (to, room) = (starts.as_mut_ptr(), starts.len());
    let refusal =
        unsafe { sweep(piece.as_ptr(), piece.len(), to, room, &mut count, &mut place, &mut refused, &mut read) };
    Swept { refusal, count, place, refused, read, starts }
}

// Stands in a record before it is delivered: no number of a record is so big, but for those from -8 to -1.
const NO_NUMBER: u32 = 0xDEAD_BEEF;
const UNDELIVERED: Record = [NO_NUMBER; NUMBERS];

fn called(decode: Decode, image: &[u8], place: u32) -> (u32, Record) {
    let mut record = UNDELIVERED;
    let out = record.as_mut_slice();
    let refusal = unsafe { decode(image.as_ptr(), image.len(), place as usize, out.as_mut_ptr(), out.len()) };
    (refusal, record)
}

fn new_out() -> Out {
    Out {
        record: [0; NUMBERS],
        bytes: [0; LONGEST_INSTRUCTION],
        length: 0,
        starts: vec![0; LONGEST_IMAGE],
        count: 0,
        stop: 0,
        refused: 0,
        read: 0,
        line: [0; LONGEST_LINE],
        number: 0,
    }
}

// The plugin's marks are system calls that no kernel has; without the plugin they do nothing.
const BEGIN_MARK: i64 = 0xBE7C01;
const END_MARK: i64 = 0xBE7C02;
// As many words of eight bytes as a system call takes beside the units.
const LONGEST_LABEL: usize = 40;

// The first run is not counted: it binds the functions that are called.
fn count(label: &str, way: &Way, work: &Workload) {
    let mut out = new_out();
    let mut text = [0; LONGEST_LABEL];
    text[..label.len()].copy_from_slice(label.as_bytes());
    let word = |k: usize| i64::from_le_bytes(text[8 * k..8 * k + 8].try_into().unwrap());
    (way.run)(work, &mut out);
    unsafe { syscall(BEGIN_MARK, 0) };
    (way.run)(work, &mut out);
    unsafe { syscall(END_MARK, work.places.len() as i64, word(0), word(1), word(2), word(3), word(4)) };
}

// The best of many runs is the one that was disturbed least.
fn time(label: &str, way: &Way, work: &Workload) {
    const RUNS: usize = 300;
    let mut out = new_out();
    let mut run = || {
        let start = Instant::now();
        (way.run)(black_box(work), &mut out);
        start.elapsed().as_nanos()
    };
    let best = (0..RUNS).map(|_| run()).min().unwrap_or(0);
    println!("{label} {} {best}", work.places.len());
}
