// The Rust by its own first-byte table beside the model, for request A7's first bytes. Nothing here asks the port.

use oracle::{answer, by_the_table, model, Answer};

use crate::told::{behind, tails};
use crate::{hex, Kind, Tally, FIRST_BYTES};

#[rustfmt::skip]
pub const KINDS: &[Kind] = &[
    Kind { name: "1 to 3 bytes, every one", quick_parts: FIRSTS, all_parts: FIRSTS, run_part: short_strings },
    Kind { name: "4 bytes, every one", quick_parts: 0, all_parts: FIRSTS, run_part: four_bytes },
    Kind { name: "every code with many tails, and cuts of them", quick_parts: FIRSTS, all_parts: FIRSTS, run_part: every_code },
];

const FIRSTS: usize = 22;

/// A part is a first byte.
fn first_byte(part: usize) -> u8 {
    let added: Vec<u8> = FIRST_BYTES.into_iter().filter(|first| model::has(*first)).collect();
    assert_eq!(added.len(), FIRSTS);
    added[part]
}

/// The Rust's answer by driver.rs's mapping. It counts no registers.
fn compare(tally: &mut Tally, string: &[u8]) {
    let (model, rust) = (Answer { registers: 0, ..answer(string) }, by_the_table(string));
    tally.count(model.refusal == 0, model == rust, || format!("{}\n  model {model:X?}\n  Rust  {rust:X?}\n", hex(string)));
}

fn short_strings(part: usize, tally: &mut Tally) {
    let first = first_byte(part);
    compare(tally, &[first]);
    for second in 0..=255 {
        compare(tally, &[first, second]);
        for third in 0..=255 {
            compare(tally, &[first, second, third]);
        }
    }
}

fn four_bytes(part: usize, tally: &mut Tally) {
    let first = first_byte(part);
    for behind in 0..=0xFF_FFFF_u32 {
        let [_, second, third, fourth] = behind.to_be_bytes();
        compare(tally, &[first, second, third, fourth]);
    }
}

fn every_code(part: usize, tally: &mut Tally) {
    for second in 0..=255 {
        let code = [first_byte(part), second];
        for string in tails(code).into_iter().map(|tail| behind(code, tail)) {
            for length in 4..=string.len() {
                compare(tally, &string[..length]);
            }
        }
    }
}
