// The stored list: a fixed choice of byte strings, each with the oracle's answer, one line of fixed width each.

use std::collections::BTreeSet;
use std::fmt::Write;

use oracle::manual::Reading;
use oracle::{answer, model};

use crate::{asked, images, odd, placed};

pub const MOST_BYTES: usize = 8;

// The two tails of the whole strings. No position has the same byte in both, and no byte stands twice in a tail except zero;
// wherever a 20-bit number can end, at least one of them has a top nibble that must be masked away.
const WHOLE_TAILS: [[u8; 6]; 2] =
    [[0x89, 0x67, 0xF5, 0xB2, 0xD6, 0x1C], [0x00, 0xFE, 0x4A, 0x00, 0x93, 0x80]];

// The tail that is cut short. Its first three bytes are conditions that 7E 2n accepts, so those codes are accepted once whole.
pub const CUT_TAIL: [u8; 6] = [0x05, 0x06, 0xFA, 0xC3, 0xD4, 0xE7];

// Stands before the condition bytes of 7E 2n. Both are refused as conditions, so that one read too early shows.
const BEFORE_CONDITION: [u8; 2] = [0x90, 0x7F];

// The strings that the rules' bench lines name and do not state as a theorem.
const BENCH_LINES: [&[u8]; 4] =
    [&[0x74, 0x7E, 0xFF, 0x00], &[0x74, 0x7A, 0xFF], &[0x74, 0x7E, 0x00, 0x01], &[0x7D, 0x0C, 0x10, 0x00, 0x00]];

/// Strings to decode, records to encode by both readings, images to sweep by both rules, records with an operand to ask for, and strings whose numbers are to
/// be placed.
pub fn list() -> Result<String, String> {
    let strings: Vec<Vec<u8>> = strings().into_iter().collect();
    let decoded: String = strings.iter().map(|bytes| stored_line(bytes)).collect();
    let encoded = encoded('E', Reading::Present)? + &encoded('M', Reading::Manual)?;
    Ok(decoded + &encoded + &images::list(&strings) + &asked::list() + &placed::list()?)
}

fn encoded(letter: char, reading: Reading) -> Result<String, String> {
    Ok(odd::list(reading)?.lines().map(|odd_record| encoded_line(letter, odd_record)).collect())
}

// An odd record's line at the width of the others.
fn encoded_line(letter: char, odd_record: &str) -> String {
    let words: Vec<&str> = odd_record.split(' ').collect();
    let (names, numbers) = words.split_at(6);
    let [imm_wide, dispabs, first, answer @ ..] = numbers else {
        unreachable!("an odd record has twelve words");
    };
    format!("{}{} {} {}{} {}\n", letter, names.concat(), imm_wide, dispabs, first, answer.join(" "))
}

// A set, so that no string comes twice whichever rule below chose it.
fn strings() -> BTreeSet<Vec<u8>> {
    let mut strings = BTreeSet::new();
    strings.insert(vec![]);
    for first in 0..=0xFF {
        strings.insert(vec![first]);
        if answer(&[first]).refusal == oracle::FIRST_BYTE_OUTSIDE {
            strings.insert(vec![first, !first]);
        } else {
            strings.extend((0..=0xFF).flat_map(|second| strings_of_code([first, second])));
        }
    }
    strings.extend((0x20..=0x2F).flat_map(condition_strings));
    strings.extend(BENCH_LINES.map(|bytes| bytes.to_vec()));
    strings
}

fn strings_of_code(code: [u8; 2]) -> Vec<Vec<u8>> {
    // No code of request A7 is refused with enough bytes, so that its cut tail is accepted too: one whole tail beside it is enough.
    let tails = if model::has(code[0]) { &WHOLE_TAILS[..1] } else { &WHOLE_TAILS[..] };
    let mut strings: Vec<Vec<u8>> = tails.iter().map(|tail| [&code, &tail[..]].concat()).collect();
    let whole = [&code, &CUT_TAIL[..]].concat();
    // Cuts with two or more bytes to spare would only repeat each other.
    let longest_cut = (answer(&whole).taken + 1).min(whole.len() - 1);
    strings.extend((code.len()..=longest_cut).map(|length| whole[..length].to_vec()));
    strings
}

fn condition_strings(second: u8) -> Vec<Vec<u8>> {
    let mut before_condition = vec![0x7E, second];
    let operand_bytes = answer(&[&before_condition, &CUT_TAIL[..]].concat()).taken - 3;
    before_condition.extend(&BEFORE_CONDITION[..operand_bytes]);
    (0..=0xFF).map(|condition| [&before_condition[..], &[condition]].concat()).collect()
}

// README.md describes the fields.
fn stored_line(bytes: &[u8]) -> String {
    let answer = answer(bytes);
    let mut padded = bytes.to_vec();
    padded.resize(MOST_BYTES, 0);
    let [op0, op1, op2] = answer.operands;
    format!(
        "{} {} {} {} {:02X}{}{:02X}{:02X}{:02X} {:08X} {:04X} {}\n",
        bytes.len(),
        packed_hex(&padded),
        answer.refusal,
        answer.taken,
        answer.opcode,
        answer.size,
        op0,
        op1,
        op2,
        answer.imm_wide,
        answer.dispabs,
        answer.length
    )
}

pub fn packed_hex(bytes: &[u8]) -> String {
    let mut digits = String::new();
    for byte in bytes {
        write!(digits, "{:02X}", byte).expect("a string takes every write");
    }
    digits
}
