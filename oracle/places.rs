// Where the numbers of an instruction stand, by request A5, found from decoding alone, the Rust's or, where a model has the code, the
// model's: it is asked again with bits of each byte behind the second flipped, and the field that changes is the one that the byte was read
// for. The Rust's nine decoders do not keep the earlier of two displacements: a byte of theirs that changes nothing is one of `first`. A
// model keeps it, so a byte that changes nothing there would be read for nothing; and it says itself where its numbers stand.

use std::ops::Range;

use oracle::manual::Reading;
use oracle::model::Decoded;
use oracle::{Answer, ACCEPTED};

/// The bytes of a number, from an instruction's first byte on; zeros if no byte behind the second was read for it.
#[derive(Debug, Clone, Copy, Default, PartialEq, Eq)]
pub struct Place {
    pub offset: u32,
    pub width: u32,
}

/// Of `first`, of `dispabs` and of `imm_wide`.
pub type Places = [Place; 3];

impl Place {
    pub fn range(self) -> Range<usize> {
        self.offset as usize..(self.offset + self.width) as usize
    }

    /// The number that stands there, low byte first; of three bytes 20 bits.
    pub fn number(self, string: &[u8]) -> u32 {
        string[self.range()].iter().rev().fold(0, |above, byte| above << 8 | u32::from(*byte)) & 0xF_FFFF
    }
}

/// What a byte behind the second is read for.
#[derive(Debug, Clone, Copy, PartialEq, Eq)]
enum Use {
    First,
    Dispabs,
    ImmWide,
    Condition,
}

/// Zeros of what is refused. An error where decoding does not read as the request has it.
pub fn found(reading: Reading, string: &[u8]) -> Result<Places, String> {
    let plain = reading.answer(string);
    if plain.refusal != ACCEPTED {
        return Ok(Places::default());
    }
    let uses: Vec<Use> = (2..plain.taken).map(|place| use_of(reading, string, &plain, place)).collect::<Result<_, _>>()?;
    let conditions = uses.iter().filter(|found| **found == Use::Condition).count();
    if conditions != usize::from(has_condition(string)) {
        return Err(format!("{string:02X?}: {conditions} bytes are read for no number"));
    }
    let places = [place_of(&uses, Use::First)?, place_of(&uses, Use::Dispabs)?, place_of(&uses, Use::ImmWide)?];
    let [_, dispabs, imm_wide] = places;
    let in_code = imm_wide.width == 0;
    if dispabs.number(string) != u32::from(plain.dispabs) || !in_code && imm_wide.number(string) != plain.imm_wide {
        return Err(format!("{string:02X?}: the bytes at {places:X?} are not the numbers decoded"));
    }
    match reading.modelled(string) {
        Some(decoded) => as_said(places, string, &decoded),
        None => Ok(places),
    }
}

/// The same places, if the model says so too and keeps in `first` what stands there.
fn as_said(places: Places, string: &[u8], decoded: &Decoded) -> Result<Places, String> {
    let found = places.map(|place| (place.offset, place.width));
    if found != decoded.parts || places[0].number(string) != u32::from(decoded.answer.first) {
        return Err(format!("{string:02X?}: found {found:X?}, the model says {decoded:X?}"));
    }
    Ok(places)
}

/// The rules' one code with a byte behind the second that is no number's: 7E 2n.
fn has_condition(string: &[u8]) -> bool {
    string[0] == 0x7E && string[1] >> 4 == 2
}

fn use_of(reading: Reading, string: &[u8], plain: &Answer, place: usize) -> Result<Use, String> {
    let flipped = |bit: u32| {
        let mut other = string.to_vec();
        other[place] ^= 1 << bit;
        reading.answer(&other)
    };
    let answers: Vec<Answer> = (0..8).map(flipped).collect();
    let names = |answer: &Answer| (answer.refusal, answer.opcode, answer.size, answer.operands, answer.length, answer.registers);
    if answers.iter().any(|answer| names(answer) != names(plain)) {
        return Ok(Use::Condition);
    }
    let changes = |number: fn(&Answer) -> u32| answers.iter().any(|answer| number(answer) != number(plain));
    let keeps_first = reading.modelled(string).is_some();
    match (changes(|answer| answer.first.into()), changes(|answer| answer.dispabs.into()), changes(|answer| answer.imm_wide)) {
        (false, false, false) if keeps_first => Err(format!("{string:02X?}: byte {place} is read for nothing")),
        (false, false, false) | (true, false, false) => Ok(Use::First),
        (false, true, false) => Ok(Use::Dispabs),
        (false, false, true) => Ok(Use::ImmWide),
        _ => Err(format!("{string:02X?}: byte {place} is read for two numbers")),
    }
}

/// Where the bytes of a use are, if those behind the second have these uses; they have to stand one behind the other.
fn place_of(uses: &[Use], wanted: Use) -> Result<Place, String> {
    let Some(begin) = uses.iter().position(|found| *found == wanted) else { return Ok(Place::default()) };
    let width = uses[begin..].iter().take_while(|found| **found == wanted).count();
    if uses[begin + width..].contains(&wanted) {
        return Err(format!("bytes between those of a number: {uses:?}"));
    }
    Ok(Place { offset: 2 + begin as u32, width: width as u32 })
}
