//! The length that two bytes tell is that of decoding, for every two bytes and whatever stands behind them.

use m16c::c::m16c_length;
use m16c::{decode, length_of, Refusal};

// Bytes behind a code. Where 7E wants a condition, FF is none, and the others have one.
const TAILS: [[u8; 5]; 4] = [[0x00; 5], [0xFF; 5], [0x05, 0x06, 0xFA, 0xC3, 0xD4], [0x01, 0x02, 0x03, 0x04, 0xF5]];

// Of the twenty-two first bytes of request A7 every code is accepted.
const ACCEPTED_CODES: usize = 2596 + 22 * 256;
const OUTSIDE_CODES: usize = (256 - 34) * 256;

/// Every two bytes.
fn codes() -> impl Iterator<Item = [u8; 2]> {
    (0..=u16::MAX).map(u16::to_be_bytes)
}

fn string([first, second]: [u8; 2], [a, b, c, d, e]: [u8; 5]) -> [u8; 7] {
    [first, second, a, b, c, d, e]
}

fn decoded(bytes: &[u8]) -> Result<u8, Refusal> {
    decode(bytes, 0).map(|instruction| instruction.length).map_err(|refused| refused.refusal)
}

/// What decoding says of a code: the one length of those that are accepted, or the one refusal if none is.
fn by_decoding(code: [u8; 2], tails: &[[u8; 5]]) -> Result<u8, Refusal> {
    let answers = tails.iter().map(|tail| decoded(&string(code, *tail)));
    let (accepted, refused): (Vec<_>, Vec<_>) = answers.partition(Result::is_ok);
    let counting = if accepted.is_empty() { refused } else { accepted };
    assert!(counting.iter().all(|answer| *answer == counting[0]), "{code:X?}: {counting:?}");
    counting[0]
}

#[test]
fn every_code() {
    let (mut accepted, mut outside) = (0, 0);
    for code in codes() {
        let told = length_of(&code);
        assert_eq!(told, by_decoding(code, &TAILS), "{code:X?}");
        accepted += usize::from(told.is_ok());
        outside += usize::from(told == Err(Refusal::FirstByteOutside));
    }
    assert_eq!((accepted, outside), (ACCEPTED_CODES, OUTSIDE_CODES));
}

/// 7E 20 to 7E 2F end in a condition, so decoding accepts some of their strings and refuses others.
#[test]
fn every_condition() {
    // Each byte five times, so that it stands where the condition is.
    let tails: Vec<[u8; 5]> = (0..=0xFF).map(|byte| [byte; 5]).collect();
    for code in (0x20..=0x2F).map(|second| [0x7E, second]) {
        let accepted = tails.iter().filter(|tail| decoded(&string(code, **tail)).is_ok()).count();
        assert!(0 < accepted && accepted < tails.len(), "{code:X?}: {accepted}");
        assert_eq!(length_of(&code), by_decoding(code, &tails), "{code:X?}");
    }
}

#[test]
fn more_bytes_do_not_count() {
    for code in codes() {
        for bytes in TAILS.map(|tail| string(code, tail)) {
            assert!((3..=bytes.len()).all(|count| length_of(&bytes[..count]) == length_of(&code)), "{bytes:X?}");
        }
    }
}

/// A first byte outside comes before what is missing, as in decoding.
#[test]
fn fewer_than_two_bytes() {
    assert_eq!(length_of(&[]), Err(Refusal::ExhaustedInput));
    assert_eq!(length_of(&[0x74]), Err(Refusal::ExhaustedInput));
    assert_eq!(length_of(&[0x04]), Err(Refusal::FirstByteOutside));
    for first in 0..=0xFF {
        assert_eq!(length_of(&[first]), decoded(&[first]), "{first:02X}");
    }
}

/// What the library returns and leaves.
fn left(bytes: &[u8]) -> (u32, usize) {
    let mut length = 9;
    let returned = unsafe { m16c_length(bytes.as_ptr(), bytes.len(), &mut length) };
    (returned, length)
}

#[test]
fn a_refusal_leaves_0() {
    for code in codes() {
        for bytes in [&code[..], &code[..1], &[]] {
            let told = length_of(bytes).map_or_else(|refusal| (refusal.number(), 0), |length| (0, length.into()));
            assert_eq!(left(bytes), told, "{bytes:X?}");
        }
    }
    assert_eq!(left(&[0x74, 0x0F]), (0, 7));
    assert_eq!(left(&[0x78, 0x83]), (3, 0));
}
