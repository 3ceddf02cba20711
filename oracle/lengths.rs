// The part of lengths in the differential run: the port's `m16c_length` beside told.rs, which does not ask the port.

use std::ptr::null;

use crate::told::{behind, tails, told, Told};
use crate::{c, hex, Kind, Tally};

#[rustfmt::skip]
pub const KINDS: &[Kind] = &[
    Kind { name: "no byte, and each byte alone", quick_parts: 1, all_parts: 1, run_part: too_few_bytes },
    Kind { name: "every two bytes, alone and with more behind them", quick_parts: 256, all_parts: 256, run_part: two_bytes },
];

// Stands in the length before each call.
const UNWRITTEN: usize = 0xDEAD_BEEF;

// An instruction. A string that is too short lies before its bytes, so that reading past the end would be seen.
const INT: [u8; 2] = [0xEB, 0xC5];

fn ported(bytes: *const u8, count: usize) -> Told {
    let mut length = UNWRITTEN;
    let refusal = unsafe { c::m16c_length(bytes, count, &mut length) };
    Told { refusal, length }
}

pub fn compare(tally: &mut Tally, bytes: &[u8], wanted: &Result<Told, String>) {
    count(tally, bytes, wanted, ported(bytes.as_ptr(), bytes.len()));
}

/// It is a difference too, however the port answers, if there is no one answer for all tails.
fn count(tally: &mut Tally, bytes: &[u8], wanted: &Result<Told, String>, port: Told) {
    let accepted = matches!(wanted, Ok(told) if told.refusal == 0);
    tally.count(accepted, *wanted == Ok(port), || format!("length of {}\n  wanted {wanted:?}\n  port   {port:?}\n", hex(bytes)));
}

fn too_few_bytes(_part: usize, tally: &mut Tally) {
    count(tally, &[], &told(&[]), ported(null(), 0));
    compare(tally, &INT[..0], &told(&[]));
    for first in 0..=255 {
        compare(tally, &[first, INT[1]][..1], &told(&[first]));
    }
}

/// A part is the first byte. The bytes behind the second must not change the answer, however many there are.
fn two_bytes(part: usize, tally: &mut Tally) {
    for second in 0..=255 {
        let code = [part as u8, second];
        let wanted = told(&code);
        let strings: Vec<[u8; 7]> = tails(code).into_iter().map(|tail| behind(code, tail)).collect();
        let random = strings[strings.len() - 1];
        for count in 2..random.len() {
            compare(tally, &random[..count], &wanted);
        }
        for string in &strings {
            compare(tally, string, &wanted);
        }
    }
}
