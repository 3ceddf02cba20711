// Images of up to sixteen bytes for the stored list, each with what sweeping it by a rule gives: the oracle asked again and again.

use std::collections::BTreeSet;

use oracle::{answer, model};

use crate::known::{reading_most, READS_ALL, READS_MUCH, RULES_IMAGE};
use crate::stored::packed_hex;

const MOST_BYTES: usize = 16;

// Every so many strings of the stored list give an instruction, so that neighbours in an image are not alike; of request A7's codes, which
// are many and much alike, fewer.
const STEP: usize = 23;
const PAIRS_STEP: usize = 101;

// And of the codes that are refused every so many.
const REFUSED_STEP: usize = 7;

// Put in among instructions: one that begins none, and others that take the bytes behind them.
const DATA_BYTES: [u8; 6] = [0x04, 0x74, 0x7C, 0xEB, 0x72, 0xED];

// Refused with 2, 3, 3, 2, 1, 1, 1 and 3. In all but the first two the refused place took bytes of the instruction behind it.
const REFUSED_BEFORE_INT: [&[u8]; 8] = [
    &[0x7C, 0x7F],
    &[0x74, 0x63],
    &[0x78, 0x83],
    &[0x7E, 0x20],
    &[0x74, 0x0F],
    &[0x74, 0x0F, 0x34],
    &[0xA1, 0xCF],
    &[0x78, 0xC1],
];
const INT: [u8; 2] = [0xEB, 0xC5];

// Refused with 2 after five bytes, and after five and four; with 3 after four.
const REFUSED_LATE: [&[u8]; 5] = [
    &[0x7E, 0x2C, 0x00, 0x00, 0x07],
    &[0x7E, 0x2F, 0x00, 0x00, 0xFF, 0x7E, 0x28, 0x00, 0x07],
    &[0x78, 0xC1, 0x00, 0x00],
    &[0x79, 0xF5, 0x00, 0x00],
    &[0x7A, 0x8C, 0x00, 0x00],
];

const RANDOM_IMAGES: usize = 32;

/// Stopping sweeps; then, of the same images and of more, sweeps that go on.
pub fn list(strings: &[Vec<u8>]) -> String {
    let mut listed = BTreeSet::new();
    let mut new = |images: Vec<Vec<u8>>| -> Vec<Vec<u8>> { images.into_iter().filter(|image| listed.insert(image.clone())).collect() };
    let (pairs, others): (Vec<&Vec<u8>>, Vec<&Vec<u8>>) = strings.iter().partition(|string| is_of_a_code_of_a7(string));
    let made = [made_of(others.into_iter().step_by(STEP)), made_of(pairs.into_iter().step_by(PAIRS_STEP))].concat();
    let images = new([cuts(&RULES_IMAGE), made, reading_much()].concat());
    let more = new(mixed(strings));
    let stopping = images.iter().map(|image| stopping_line(image));
    let going_on = images.iter().chain(&more).map(|image| going_on_line(image));
    stopping.chain(going_on).collect()
}

/// From no byte to all of them.
fn cuts(image: &[u8]) -> Vec<Vec<u8>> {
    (0..=image.len()).map(|length| image[..length].to_vec()).collect()
}

/// Not of these are request A7's first bytes alone or with one certain byte behind: such strings every byte has that begins nothing.
fn is_of_a_code_of_a7(string: &[u8]) -> bool {
    match *string {
        [first, ref behind @ ..] if model::has(first) => !behind.is_empty() && *behind != [!first],
        _ => false,
    }
}

/// What a string gives to an image: the bytes that decoding takes. Request A7's first bytes stand alone among the others' instructions.
fn piece(string: &[u8]) -> &[u8] {
    match *string {
        [first, ..] if model::has(first) && !is_of_a_code_of_a7(string) => &string[..1],
        _ => &string[..answer(string).taken],
    }
}

/// Images of whole instructions, each also with a byte cut off.
fn made_of<'a>(strings: impl Iterator<Item = &'a Vec<u8>>) -> Vec<Vec<u8>> {
    let mut images = vec![];
    let mut image = vec![];
    for string in strings {
        let instruction = piece(string);
        if image.len() + instruction.len() > MOST_BYTES {
            images.push(image[..image.len() - 1].to_vec());
            images.push(std::mem::take(&mut image));
        }
        image.extend(instruction);
    }
    images
}

/// Going on reads many of their bytes more than once.
fn reading_much() -> Vec<Vec<u8>> {
    let late = REFUSED_LATE.map(|refused| refused.to_vec());
    let most = [MOST_BYTES, MOST_BYTES - 1].map(reading_most);
    [cuts(&READS_MUCH), cuts(&READS_ALL), most.to_vec(), late.to_vec()].concat()
}

/// Images in which refused places stand between instructions, or nothing else stands.
fn mixed(strings: &[Vec<u8>]) -> Vec<Vec<u8>> {
    let firsts: Vec<u8> = (0..=0xFF).filter(|byte| answer(&[*byte]).refusal != oracle::FIRST_BYTE_OUTSIDE).collect();
    let mut images = vec![vec![0x04; MOST_BYTES], vec![0x7C; MOST_BYTES]];
    images.extend(REFUSED_BEFORE_INT.iter().map(|refused| [refused, &INT[..]].concat()));
    images.extend(with_a_data_byte());
    images.extend(behind_refused(strings));
    images.extend(overlapping(&firsts));
    images.extend(at_random(&firsts));
    images.extend(at_random(&firsts.into_iter().filter(|first| !model::has(*first)).collect::<Vec<u8>>()));
    images
}

fn with_a_data_byte() -> Vec<Vec<u8>> {
    let mut images = vec![];
    for data in DATA_BYTES {
        for place in 0..=RULES_IMAGE.len() {
            let (before, behind) = RULES_IMAGE.split_at(place);
            images.push([before, &[data], behind].concat());
        }
    }
    images
}

/// The rules' image behind a refused string, of a code one, with all the bytes that it takes.
fn behind_refused(strings: &[Vec<u8>]) -> Vec<Vec<u8>> {
    let is_refused = |refusal| matches!(refusal, oracle::INVALID_OPCODE | oracle::INVALID_OPERAND);
    let strings = strings.iter().filter(|string| is_refused(answer(string).refusal));
    let mut refused: Vec<&[u8]> = strings.map(|string| &string[..answer(string).taken]).collect();
    refused.dedup_by_key(|string| [string[0], string[1]]);
    let behind = |refused: &[u8]| [refused, &RULES_IMAGE[..MOST_BYTES - refused.len()]].concat();
    refused.into_iter().step_by(REFUSED_STEP).map(behind).collect()
}

/// Two first bytes that are refused together; C8 05 makes the second an instruction, so one byte on it is found, and two bytes on not.
fn overlapping(firsts: &[u8]) -> Vec<Vec<u8>> {
    let (before, behind) = RULES_IMAGE.split_at(8);
    let pairs = firsts.iter().flat_map(|first| firsts.iter().map(move |second| [*first, *second]));
    let images = pairs.map(|pair| [&pair, behind, before].concat());
    images.filter(|image| answer(image).refusal != oracle::ACCEPTED).collect()
}

/// Half of the bytes are first bytes, so that most places decode. Always the same images.
fn at_random(firsts: &[u8]) -> Vec<Vec<u8>> {
    let mut state: u32 = 0;
    let mut below = |bound: usize| {
        state = state.wrapping_mul(1_664_525).wrapping_add(1_013_904_223);
        (state >> 16) as usize % bound
    };
    let mut byte = |_| if below(2) == 0 { firsts[below(firsts.len())] } else { below(0x100) as u8 };
    (0..RANDOM_IMAGES).map(|_| (0..MOST_BYTES).map(&mut byte).collect()).collect()
}

// README.md describes the fields.
fn stopping_line(image: &[u8]) -> String {
    let (mut place, mut refusal, mut read, mut starts) = (0, 0, 0, 0);
    while place < image.len() {
        let answer = answer(&image[place..]);
        refusal = answer.refusal;
        read += answer.taken;
        if refusal != oracle::ACCEPTED {
            break;
        }
        starts |= 0x8000 >> place;
        place += answer.taken;
    }
    stored_line('S', image, read, place, refusal, starts)
}

fn going_on_line(image: &[u8]) -> String {
    let (mut place, mut refused, mut read, mut starts) = (0, 0, 0, 0);
    while place < image.len() {
        let answer = answer(&image[place..]);
        read += answer.taken;
        if answer.refusal == oracle::ACCEPTED {
            starts |= 0x8000 >> place;
            place += answer.taken;
        } else {
            refused += 1;
            place += 1;
        }
    }
    stored_line('G', image, read, refused, oracle::ACCEPTED, starts)
}

fn stored_line(kind: char, image: &[u8], read: usize, place_or_refused: usize, refusal: u8, starts: u16) -> String {
    let mut padded = image.to_vec();
    padded.resize(MOST_BYTES, 0);
    let (length, bytes) = (image.len(), packed_hex(&padded));
    format!("{kind}{length:02X}{bytes} {read:02X} {place_or_refused:02X} {refusal} {starts:04X}\n")
}
