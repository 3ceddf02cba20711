// The length that the first two bytes tell, by request A4, found from decoding alone, the Rust's or for request A7's first bytes the
// model's: it is asked about them with many tails.

use std::collections::BTreeSet;

use oracle::{answer, ACCEPTED};

/// What may stand behind the first two bytes. Long enough: no instruction has more than seven bytes.
pub type Tail = [u8; 5];

const RANDOM_TAILS: usize = 256;

/// The refusal, 0 for none, and the length, 0 where it refuses.
#[derive(Debug, Clone, Copy, PartialEq, Eq, PartialOrd, Ord)]
pub struct Told {
    pub refusal: u32,
    pub length: usize,
}

/// Of the first two bytes, or of fewer. An error where decoding has no one answer for all tails: then the request asks for what is not so.
pub fn told(bytes: &[u8]) -> Result<Told, String> {
    match *bytes {
        [first, second, ..] => told_by_tails([first, second]),
        _ => Ok(decoded(bytes)), // decoding, too, looks at the first byte before it runs out of bytes
    }
}

/// If one tail is accepted, the refused ones do not count: their condition byte is none.
fn told_by_tails(code: [u8; 2]) -> Result<Told, String> {
    let mut found = BTreeSet::new();
    for tail in tails(code) {
        found.insert(decoded(&behind(code, tail)));
    }
    let (accepted, refused): (Vec<Told>, Vec<Told>) = found.into_iter().partition(|told| told.refusal == u32::from(ACCEPTED));
    match if accepted.is_empty() { &refused[..] } else { &accepted[..] } {
        [one] => Ok(*one),
        several => Err(format!("{:02X?} with different tails: {:?}", code, several)),
    }
}

fn decoded(bytes: &[u8]) -> Told {
    let answer = answer(bytes);
    Told { refusal: answer.refusal.into(), length: answer.length.into() }
}

pub fn behind([first, second]: [u8; 2], [a, b, c, d, e]: Tail) -> [u8; 7] {
    [first, second, a, b, c, d, e]
}

/// Each byte again and again, so that each is the condition byte, wherever that stands; then bytes at random, always the same for a code.
pub fn tails(code: [u8; 2]) -> Vec<Tail> {
    let mut state = u64::from(u16::from_be_bytes(code));
    let again = (0..=0xFF).map(|byte| [byte; 5]);
    again.chain((0..RANDOM_TAILS).map(|_| random_tail(&mut state))).collect()
}

// splitmix64, which takes any start
fn random_tail(state: &mut u64) -> Tail {
    *state = state.wrapping_add(0x9E37_79B9_7F4A_7C15);
    let mut mixed = *state;
    mixed = (mixed ^ (mixed >> 30)).wrapping_mul(0xBF58_476D_1CE4_E5B9);
    mixed = (mixed ^ (mixed >> 27)).wrapping_mul(0x94D0_49BB_1331_11EB);
    let [a, b, c, d, e, ..] = (mixed ^ (mixed >> 31)).to_be_bytes();
    [a, b, c, d, e]
}
