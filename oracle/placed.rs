// Strings, the places of their numbers, and how many registers they name, for the stored list. README.md describes the fields.

use std::iter::once;

use oracle::manual::Reading;
use oracle::{answer, FIRST_BYTE_OUTSIDE};

use crate::places::found;
use crate::stored::{packed_hex, CUT_TAIL, MOST_BYTES};

// The rules' longest instruction, request A7's with both displacements in two bytes, and a list: every cut of each is refused. Then a byte
// string that no first byte begins.
const LONGEST: [u8; 7] = [0x74, 0x0F, 0x34, 0x12, 0x89, 0x67, 0xF5];
const LONGEST_PAIR: [u8; 6] = [0xA1, 0xCF, 0x34, 0x12, 0x78, 0x56];
const FULL_LIST: [u8; 2] = [0xEC, 0xFF];
const OUTSIDE: [u8; 2] = [0x04, 0x00];

/// Each code with a tail by which 7E 2n is accepted, and refusals, which have no places.
pub fn list() -> Result<String, String> {
    let firsts = (0..=0xFF).filter(|first| answer(&[*first]).refusal != FIRST_BYTE_OUTSIDE);
    let codes = firsts.flat_map(|first| (0..=0xFF).map(move |second| [&[first, second], &CUT_TAIL[..]].concat()));
    let cuts = once(&[][..]).chain(cuts(&LONGEST)).chain(cuts(&LONGEST_PAIR)).chain(cuts(&FULL_LIST));
    codes.chain(cuts.map(|cut| cut.to_vec())).chain([OUTSIDE.to_vec()]).map(|bytes| stored_line(&bytes)).collect()
}

/// From one byte to all of them.
fn cuts(string: &[u8]) -> impl Iterator<Item = &[u8]> {
    (1..=string.len()).map(move |length| &string[..length])
}

fn stored_line(bytes: &[u8]) -> Result<String, String> {
    let mut padded = bytes.to_vec();
    padded.resize(MOST_BYTES, 0);
    let [first, dispabs, imm_wide] = found(Reading::Present, bytes)?.map(|place| format!("{:X}{:X}", place.offset, place.width));
    let (count, padded, answer) = (bytes.len(), packed_hex(&padded), answer(bytes));
    let line = format!("P{count} {padded} {} {first} {dispabs} {imm_wide} {:X}", answer.refusal, answer.registers);
    Ok(format!("{line:48}\n"))
}
