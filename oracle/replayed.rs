// The stored answers, ../crates/replay/stdin and those of ../crates/list_lengths, beside the port: oracle/README.md says what stands
// where.

use crate::brute::Spelling;
use crate::encoder::{self, WIDE_ROOM};
use crate::lengths;
use crate::sweeps::{self, Rule, Swept, NO_START};
use crate::numbers as asked;
use crate::told::Told;
use crate::{hex, ported, record_of, Kind, Tally, FIELDS};
use crate::{DISPABS, DROPPED, FIRST, IMM_WIDE, LENGTH, MARKED, OFFSETS, OPCODE, OPERANDS, REGISTERS, SIZE, TAKEN, WIDTH};

#[rustfmt::skip]
pub const KINDS: &[Kind] = &[
    Kind { name: "strings to decode", quick_parts: 1, all_parts: 1, run_part: strings },
    Kind { name: "records to encode", quick_parts: 1, all_parts: 1, run_part: records },
    Kind { name: "images to sweep, stopping", quick_parts: 1, all_parts: 1, run_part: stopping_sweeps },
    Kind { name: "images to sweep, going on", quick_parts: 1, all_parts: 1, run_part: sweeps_going_on },
    Kind { name: "operands to ask for", quick_parts: 1, all_parts: 1, run_part: operands },
    Kind { name: "numbers to place", quick_parts: 1, all_parts: 1, run_part: places },
    Kind { name: "lengths to tell", quick_parts: 1, all_parts: 1, run_part: told_lengths },
];

#[rustfmt::skip]
pub const KINDS_BY_MANUAL: &[Kind] = &[
    Kind { name: "records to encode", quick_parts: 1, all_parts: 1, run_part: records_by_manual },
];

const STORED: &str = include_str!("../crates/replay/stdin");
const LENGTHS_ASKED: &[u8] = include_bytes!("../crates/list_lengths/stdin");
const LENGTHS_ANSWERED: &str = include_str!("../crates/list_lengths/stdout");

/// The words of the stored lines that begin so, that beginning left out.
fn lines(begins: fn(char) -> bool) -> impl Iterator<Item = Vec<&'static str>> {
    STORED.lines().filter(move |line| line.starts_with(begins)).map(|line| line.split(' ').collect())
}

fn number(text: &str) -> u32 {
    u32::from_str_radix(text, 16).expect("a stored number is hex")
}

/// The numbers of so many digits each, one behind the other in a word.
fn numbers<const N: usize>(text: &str, digits: [usize; N]) -> [u32; N] {
    let mut rest = text;
    digits.map(|count| {
        let (digits, behind) = rest.split_at(count);
        rest = behind;
        number(digits)
    })
}

/// The first `count` bytes of those in a word.
fn bytes(text: &str, count: u32) -> Vec<u8> {
    (0..count as usize).map(|k| number(&text[2 * k..2 * k + 2]) as u8).collect()
}

fn strings(_part: usize, tally: &mut Tally) {
    for words in lines(|first| first.is_ascii_digit()) {
        let [count, string, refusal, taken, names, imm_wide, dispabs, length] = words[..] else {
            panic!("a stored string has eight words: {words:?}");
        };
        let [opcode, size, op0, op1, op2] = numbers(names, [2, 1, 2, 2, 2]);
        let mut wanted = [0; FIELDS];
        wanted[TAKEN] = number(taken);
        wanted[OPCODE] = opcode;
        wanted[SIZE] = size;
        for (place, operand) in OPERANDS.into_iter().zip([op0, op1, op2]) {
            wanted[place] = operand;
        }
        wanted[IMM_WIDE] = number(imm_wide);
        wanted[DISPABS] = number(dispabs);
        wanted[LENGTH] = number(length);
        let string = bytes(string, number(count));
        let mut port = ported(tally.reading, &string, 0);
        // What the Rust does not have is not stored in these lines.
        for free in [WIDTH, FIRST, MARKED].into_iter().chain(DROPPED..FIELDS) {
            port.fields[free] = 0;
        }
        let same = port.refusal == number(refusal) && port.fields == wanted;
        tally.count(number(refusal) == 0, same, || {
            format!("{}\n  stored {words:?}\n  port {} {:X?}\n", hex(&string), port.refusal, port.fields)
        });
    }
}

/// The record of the first three words of a line.
fn record(names: &str, imm_wide: &str, fields: &str) -> [u32; FIELDS] {
    let [opcode, size, width, op0, op1, op2] = numbers(&names[1..], [2, 1, 1, 2, 2, 2]);
    let [dispabs, first] = numbers(fields, [4, 4]);
    record_of([0, opcode, size, width, op0, op1, op2, number(imm_wide), dispabs, first, 0, 0])
}

fn records(_part: usize, tally: &mut Tally) {
    records_of(lines(|first| first == 'E'), tally);
}

fn records_by_manual(_part: usize, tally: &mut Tally) {
    records_of(lines(|first| first == 'M'), tally);
}

fn records_of(lines: impl Iterator<Item = Vec<&'static str>>, tally: &mut Tally) {
    for words in lines {
        let [names, imm_wide, fields, refusal, length, encoding] = words[..] else {
            panic!("a stored record has six words: {words:?}");
        };
        let record = record(names, imm_wide, fields);
        let wanted = (number(refusal) == 0).then(|| Spelling::of(&bytes(encoding, number(length))));
        encoder::compare(tally, &record, wanted, WIDE_ROOM);
    }
}

fn stopping_sweeps(_part: usize, tally: &mut Tally) {
    for words in lines(|first| first == 'S') {
        let (image, [refusal, count, place, read], starts) = swept(&words);
        compare_sweep(tally, Rule::Stop, &image, Swept { refusal: refusal as u32, count, place, refused: 0, read, starts });
    }
}

/// Where a stopping sweep's line has the place, such a line has how many were refused: its place is the image's end.
fn sweeps_going_on(_part: usize, tally: &mut Tally) {
    for words in lines(|first| first == 'G') {
        let (image, [refusal, count, refused, read], starts) = swept(&words);
        let place = image.len();
        compare_sweep(tally, Rule::GoOn, &image, Swept { refusal: refusal as u32, count, place, refused, read, starts });
    }
}

/// The image of a line; its refusal, how many bits for starts are set, its place or refused places, and read; and the starts with what
/// stands behind them.
fn swept(words: &[&str]) -> (Vec<u8>, [usize; 4], Vec<u16>) {
    let [image, read, place_or_refused, refusal, starts] = words[..] else {
        panic!("a stored image has five words: {words:?}");
    };
    let [length] = numbers(&image[1..3], [2]);
    let image = bytes(&image[3..], length);
    let is_start = |place: &u16| number(starts) >> (15 - place) & 1 == 1;
    let mut starts: Vec<u16> = (0..16).filter(is_start).collect();
    let count = starts.len();
    starts.resize(image.len(), NO_START);
    let [read, place_or_refused, refusal] = [read, place_or_refused, refusal].map(|text| number(text) as usize);
    (image, [refusal, count, place_or_refused, read], starts)
}

fn compare_sweep(tally: &mut Tally, rule: Rule, image: &[u8], wanted: Swept) {
    let port = sweeps::ported(tally.reading, rule, image, image.len());
    tally.count(wanted.refusal == 0, port == wanted, || {
        format!("{rule:?}, {}\n  stored {wanted:X?}\n  port   {port:X?}\n", hex(image))
    });
}

fn operands(_part: usize, tally: &mut Tally) {
    for words in lines(|first| first == 'N') {
        let [names, imm_wide, fields, k, refusal, sign, .., distance] = words[..] else {
            panic!("a stored operand has seven words: {words:?}");
        };
        let wanted = i64::from(number(distance)) * if sign == "1" { -1 } else { 1 };
        let record = record(names, imm_wide, fields);
        asked::compare(tally, &record, number(k) as usize, (refusal == "0").then_some(wanted));
    }
}

fn places(_part: usize, tally: &mut Tally) {
    for words in lines(|first| first == 'P') {
        let [count, string, refusal, first, dispabs, imm_wide, registers, ..] = words[..] else {
            panic!("a stored string with places has seven words: {words:?}");
        };
        let string = bytes(string, number(&count[1..]));
        let port = ported(tally.reading, &string, 0);
        let wanted = [first, dispabs, imm_wide].map(|place| numbers(place, [1, 1]));
        let told = OFFSETS.map(|at| [port.fields[at], port.fields[at + 1]]);
        let found = port.fields[REGISTERS];
        let same = port.refusal == number(refusal) && told == wanted && found == number(registers);
        tally.count(number(refusal) == 0, same, || {
            format!("{}\n  stored {words:?}\n  port {} {told:X?} registers {found:X}\n", hex(&string), port.refusal)
        });
    }
}

fn told_lengths(_part: usize, tally: &mut Tally) {
    let answers: Vec<&str> = LENGTHS_ANSWERED.lines().collect();
    assert_eq!(LENGTHS_ASKED.len(), 3 * answers.len(), "each stored question of three bytes has an answer");
    for (question, answer) in LENGTHS_ASKED.chunks(3).zip(answers) {
        let (refusal, length) = match answer.strip_prefix("REFUSED ") {
            Some(refusal) => (number(refusal), 0),
            None => (0, number(answer)),
        };
        let asked = &question[1..1 + usize::from(question[0])];
        lengths::compare(tally, asked, &Ok(Told { refusal, length: length as usize }));
    }
}
