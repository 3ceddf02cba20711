// The part of places in the differential run: where the port says that the numbers stand beside places.rs, which does not ask the port;
// and what the port answers if other bytes are written there.

use std::sync::OnceLock;

use crate::places::{found, Place, Places};
use crate::told::{behind, tails};
use crate::{code_of, expected, hex, ported, Answer, Kind, Random, Reading, Tally, CODES};
use crate::{DISPABS, DROPPED, FIRST, IMM_WIDE, OFFSETS};

#[rustfmt::skip]
pub const KINDS: &[Kind] = &[
    Kind { name: "places, every code with many tails", quick_parts: CODES, all_parts: CODES, run_part: every_code },
    Kind { name: "other bytes over a part, every code with many tails", quick_parts: CODES, all_parts: CODES, run_part: other_bytes },
];

/// A part is a code.
fn strings(part: usize) -> impl Iterator<Item = [u8; 7]> {
    let code: [u8; 2] = code_of(part).into();
    tails(code).into_iter().map(move |tail| behind(code, tail))
}

/// By the bytes of the very string. It is a difference too, however the port answers, if the Rust or a model does not read as the request
/// has it.
fn every_code(part: usize, tally: &mut Tally) {
    for string in strings(part) {
        let (wanted, port) = (found(tally.reading, &string), told(&ported(tally.reading, &string, 0)));
        tally.count(expected(tally.reading, &string).refusal == 0, wanted == Ok(port), || {
            format!("places in {}\n  wanted {wanted:X?}\n  port   {port:X?}\n", hex(&string))
        });
    }
}

fn told(port: &Answer) -> Places {
    OFFSETS.map(|at| Place { offset: port.fields[at], width: port.fields[at + 1] })
}

/// A part is a code: over each of its places, in each string that is accepted.
fn other_bytes(part: usize, tally: &mut Tally) {
    let mut random = Random::of("other bytes", part);
    let places = [FIRST, DISPABS, IMM_WIDE].into_iter().zip(places_of(tally.reading, code_of(part).into()));
    let places: Vec<(usize, &Place)> = places.filter(|(_, place)| place.width > 0).collect();
    let reading = tally.reading;
    for string in strings(part).filter(|string| expected(reading, string).refusal == 0) {
        for (field, place) in &places {
            for bytes in written(&mut random) {
                compare_written(tally, &string, *field, **place, bytes);
            }
        }
    }
}

/// Zeros, FF, and some at random.
fn written(random: &mut Random) -> [[u8; 3]; 4] {
    let mut any = || std::array::from_fn(|_| random.byte());
    [[0x00; 3], [0xFF; 3], any(), any()]
}

/// The field holds the number that was written, and nothing else changes, but that three bytes tell anew whether bits were dropped.
fn compare_written(tally: &mut Tally, string: &[u8], field: usize, place: Place, bytes: [u8; 3]) {
    let mut changed = string.to_vec();
    changed[place.range()].copy_from_slice(&bytes[..place.width as usize]);
    let mut wanted = ported(tally.reading, string, 0);
    wanted.fields[field] = place.number(&changed);
    if place.width == 3 {
        wanted.fields[DROPPED] = u32::from(bytes[2] >= 0x10);
    }
    let port = ported(tally.reading, &changed, 0);
    tally.count(true, port == wanted, || {
        let [from, to] = [string, &changed[..]].map(hex);
        let [wanted, port] = [wanted, port].map(|Answer { refusal, fields }| format!("{refusal} {fields:X?}"));
        format!("{from} changed to {to}\n  wanted {wanted}\n  port   {port}\n")
    });
}

/// The places in every accepted string that begins so, from a table, since this is asked for each string: a code has the same places
/// whatever stands behind it, which is tried above.
pub fn places_of(reading: Reading, code: [u8; 2]) -> &'static Places {
    static TABLES: [OnceLock<Vec<Places>>; 2] = [OnceLock::new(), OnceLock::new()];
    let of_all = || (0..=u16::MAX).map(|code| before_zeros(reading, code.to_be_bytes())).collect();
    let table = TABLES[reading as usize].get_or_init(of_all);
    &table[usize::from(u16::from_be_bytes(code))]
}

/// Zeros are accepted wherever anything is.
fn before_zeros(reading: Reading, code: [u8; 2]) -> Places {
    found(reading, &behind(code, [0; 5])).unwrap_or_else(|why| panic!("{why}"))
}
