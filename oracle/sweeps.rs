// The sweep's part of the differential run: the port's `m16c_sweep` and `m16c_sweep_stopping`, or `m16c_sweep_manual` and
// `m16c_sweep_manual_stopping`, beside the oracle asked again and again.

use crate::c::LONGEST_IMAGE;
use crate::known::{reading_most, RULES_IMAGE};
use crate::{code_of, expected, functions, hex, named_codes, Kind, Random, Reading, Tally, CODES, TAKEN, TOO_LITTLE_ROOM};

const IMAGE_TOO_LONG: u32 = 7;

#[rustfmt::skip]
pub const KINDS: &[Kind] = &[
    Kind { name: "the rules' image, and its cuts", quick_parts: 1, all_parts: 1, run_part: image_of_the_rules },
    Kind { name: "the stored strings, each and one behind the other", quick_parts: 1, all_parts: 1, run_part: stored_images },
    Kind { name: "images of instructions, one byte damaged or none", quick_parts: 100, all_parts: 1000, run_part: images_of_instructions },
    Kind { name: "images of instructions and refused strings", quick_parts: 100, all_parts: 1000, run_part: mixed_images },
    Kind { name: "images at random, half of them first bytes", quick_parts: 100, all_parts: 1000, run_part: random_images },
    Kind { name: "images of random bytes", quick_parts: 100, all_parts: 1000, run_part: images_of_random_bytes },
    Kind { name: "images of one byte, again and again", quick_parts: 256, all_parts: 256, run_part: images_of_one_byte },
    Kind { name: "images about as long as may be, and longer", quick_parts: 50, all_parts: 500, run_part: long_images },
    Kind { name: "images of late refusals, cut short at the end", quick_parts: 100, all_parts: 1000, run_part: images_of_late_refusals },
    Kind { name: "images of request A9's codes", quick_parts: 100, all_parts: 1000, run_part: images_of_named_codes },
    Kind { name: "images of which the most is read", quick_parts: 1, all_parts: 1, run_part: images_read_most },
    Kind { name: "up to 6 of some bytes, every one, going on", quick_parts: SOME_FIRSTS, all_parts: SOME_FIRSTS, run_part: short_images },
];

const IMAGES_IN_A_PART: usize = 20;

// ---- What is compared

/// What becomes of a refused place, by request A1.
#[derive(Clone, Copy, Debug)]
pub enum Rule {
    GoOn,
    Stop,
}

#[derive(PartialEq, Eq, Debug)]
pub struct Swept {
    pub refusal: u32,
    pub count: usize,
    pub place: usize,
    pub refused: usize,
    pub read: usize,
    pub starts: Vec<u16>,
}

// Stand in what is passed in before each call. The start is one that no image has.
pub const NO_START: u16 = 0xDEAD;
const UNWRITTEN: usize = 0xDEAD_BEEF;

fn repeated(reading: Reading, rule: Rule, image: &[u8], room: usize) -> Swept {
    let mut swept = Swept { refusal: 0, count: 0, place: 0, refused: 0, read: 0, starts: vec![NO_START; room] };
    if image.len() > LONGEST_IMAGE {
        return Swept { refusal: IMAGE_TOO_LONG, ..swept };
    }
    if room < image.len() {
        return Swept { refusal: TOO_LITTLE_ROOM, ..swept };
    }
    while swept.place < image.len() {
        let decoded = expected(reading, &image[swept.place..]);
        let taken = decoded.fields[TAKEN] as usize;
        swept.read += taken;
        match (decoded.refusal, rule) {
            (0, _) => {
                swept.starts[swept.count] = swept.place as u16;
                swept.count += 1;
                swept.place += taken;
            }
            (_, Rule::GoOn) => {
                swept.refused += 1;
                swept.place += 1;
            }
            (refusal, Rule::Stop) => return Swept { refusal, ..swept },
        }
    }
    swept
}

pub fn ported(reading: Reading, rule: Rule, image: &[u8], room: usize) -> Swept {
    let sweep = match rule {
        Rule::GoOn => functions::of(reading).sweep,
        Rule::Stop => functions::of(reading).sweep_stopping,
    };
    let (mut count, mut place, mut refused, mut read) = (UNWRITTEN, UNWRITTEN, UNWRITTEN, UNWRITTEN);
    let mut starts = vec![NO_START; room];
    let (bytes, entries) = (image.as_ptr(), starts.as_mut_ptr());
    let refusal = unsafe { sweep(bytes, image.len(), entries, room, &mut count, &mut place, &mut refused, &mut read) };
    Swept { refusal, count, place, refused, read, starts }
}

/// By both rules, with an entry for each byte, with more, and with too few.
fn compare(tally: &mut Tally, image: &[u8]) {
    let length = image.len();
    for rule in [Rule::GoOn, Rule::Stop] {
        for room in [length, length + 1, length + 7, length.saturating_sub(1), length / 2, 0] {
            compare_by(tally, rule, image, room);
        }
    }
}

/// The port with the oracle, and what the oracle reads with the most that any sweep does.
fn compare_by(tally: &mut Tally, rule: Rule, image: &[u8], room: usize) {
    let reading = tally.reading;
    let (wanted, port) = (repeated(reading, rule, image, room), ported(reading, rule, image, room));
    let most = most_read(rule, image.len());
    tally.count(wanted.refusal == 0, wanted == port && wanted.read <= most, || {
        let passed = if wanted.read > most { format!("decoding reads {} bytes, over {most}: ", wanted.read) } else { String::new() };
        format!("{passed}{rule:?}, room for {room} starts, image {}\n  wanted {wanted:X?}\n  port   {port:X?}\n", hex(image))
    });
}

/// Request A13: no sweep reads more bytes of an image this long. `reading_most` has images of which so many are read.
fn most_read(rule: Rule, length: usize) -> usize {
    match rule {
        Rule::GoOn => 3 * length,
        Rule::Stop => length,
    }
}

// ---- The kinds of images

fn image_of_the_rules(_part: usize, tally: &mut Tally) {
    for length in 0..=RULES_IMAGE.len() {
        compare(tally, &RULES_IMAGE[..length]);
    }
}

/// Packed are all of them; the accepted ones, since a refused one would end every stopping sweep; and these without bytes to spare.
fn stored_images(_part: usize, tally: &mut Tally) {
    let reading = tally.reading;
    let is_string = |line: &&str| line.starts_with(|c: char| c.is_ascii_digit());
    let stored = include_str!("../crates/replay/stdin").lines().filter(is_string).map(stored_bytes);
    let strings: Vec<Vec<u8>> = stored.collect();
    let decoded = |string: &[u8]| expected(reading, string);
    let accepted: Vec<Vec<u8>> = strings.iter().filter(|string| decoded(string).refusal == 0).cloned().collect();
    let taken = |string: &Vec<u8>| string[..decoded(string).fields[TAKEN] as usize].to_vec();
    let whole: Vec<Vec<u8>> = accepted.iter().map(taken).collect();
    for image in [&strings, &packed(&strings), &packed(&accepted), &packed(&whole)].into_iter().flatten() {
        compare(tally, image);
    }
}

/// A stored line begins with how many bytes were given, a blank, and the bytes.
fn stored_bytes(line: &str) -> Vec<u8> {
    let count = usize::from(line.as_bytes()[0] - b'0');
    (0..count).map(|k| u8::from_str_radix(&line[2 + 2 * k..4 + 2 * k], 16).expect("stored bytes are hex")).collect()
}

/// One behind the other, in images as long as may be.
fn packed(strings: &[Vec<u8>]) -> Vec<Vec<u8>> {
    let mut images = vec![Vec::new()];
    for string in strings {
        if images[images.len() - 1].len() + string.len() > LONGEST_IMAGE {
            images.push(Vec::new());
        }
        images.last_mut().expect("there is an image").extend(string);
    }
    images
}

fn images_of_instructions(part: usize, tally: &mut Tally) {
    let mut random = Random::of("images of instructions", part);
    for _ in 0..IMAGES_IN_A_PART {
        let length = random.below(200);
        let mut image = instructions(tally.reading, length, &mut random);
        if random.below(2) == 0 && !image.is_empty() {
            let place = random.below(image.len());
            image[place] = random.byte();
        }
        compare(tally, &image);
    }
}

/// Whole instructions, at least this many bytes.
fn instructions(reading: Reading, length: usize, random: &mut Random) -> Vec<u8> {
    let mut image = Vec::new();
    while image.len() < length {
        image.extend(random.accepted_string(reading));
    }
    image
}

fn mixed_images(part: usize, tally: &mut Tally) {
    let mut random = Random::of("mixed images", part);
    for _ in 0..IMAGES_IN_A_PART {
        let length = random.below(200);
        compare(tally, &mixed(tally.reading, length, &mut random));
    }
}

/// Instructions, and between them what is refused: strings, and bytes that mostly begin nothing. At least this many bytes.
fn mixed(reading: Reading, length: usize, random: &mut Random) -> Vec<u8> {
    let mut image = Vec::new();
    while image.len() < length {
        image.extend(match random.below(4) {
            0 => random.refused_string(reading),
            1 => vec![random.byte()],
            _ => random.accepted_string(reading),
        });
    }
    image
}

fn random_images(part: usize, tally: &mut Tally) {
    let mut random = Random::of("images at random", part);
    for _ in 0..IMAGES_IN_A_PART {
        let length = random.below(200);
        compare(tally, &random.code(length));
    }
}

fn images_of_random_bytes(part: usize, tally: &mut Tally) {
    let mut random = Random::of("images of random bytes", part);
    for _ in 0..IMAGES_IN_A_PART {
        let length = random.below(200);
        compare(tally, &bytes(length, &mut random));
    }
}

fn bytes(length: usize, random: &mut Random) -> Vec<u8> {
    (0..length).map(|_| random.byte()).collect()
}

/// A part is the byte. With most bytes every place is refused: no image has more refused places.
fn images_of_one_byte(part: usize, tally: &mut Tally) {
    for length in [1, 2, 3, 15, 16, 17, LONGEST_IMAGE] {
        compare(tally, &vec![part as u8; length]);
    }
}

/// Cut at random, so that most end in the midst of an instruction; of each part one image as long as may be, and one a byte longer.
fn long_images(part: usize, tally: &mut Tally) {
    const MOST: usize = LONGEST_IMAGE + 200;
    let mut random = Random::of("long images", part);
    let image = instructions(tally.reading, MOST, &mut random);
    let at_random = LONGEST_IMAGE - 100 + random.below(200);
    for image in [image, mixed(tally.reading, MOST, &mut random), bytes(MOST, &mut random)] {
        for length in [LONGEST_IMAGE - 1, LONGEST_IMAGE, LONGEST_IMAGE + 1, at_random] {
            compare(tally, &image[..length]);
        }
    }
}

fn images_of_late_refusals(part: usize, tally: &mut Tally) {
    let mut random = Random::of("late refusals", part);
    let codes = late_codes(tally.reading);
    for _ in 0..IMAGES_IN_A_PART {
        let length = random.below(200);
        compare(tally, &late_refusals(tally.reading, length, &codes, &mut random));
    }
}

/// Late codes, each of which takes bytes of those behind it, and bytes between them. At least this many bytes, then an instruction cut short.
fn late_refusals(reading: Reading, length: usize, codes: &[[u8; 2]], random: &mut Random) -> Vec<u8> {
    let mut image = Vec::new();
    while image.len() < length {
        match random.below(8) {
            0 => image.push(random.byte()),
            1 => image.push(random.first_byte()),
            _ => image.extend(codes[random.below(codes.len())]),
        }
    }
    let end = random.accepted_string(reading);
    image.extend(&end[..end.len() - 1]);
    image
}

/// Codes that are refused after four bytes or five, where these are no conditions.
fn late_codes(reading: Reading) -> Vec<[u8; 2]> {
    const NO_CONDITION: u8 = 0x07;
    let is_late = |code: &[u8; 2]| {
        let decoded = expected(reading, &[code, &[NO_CONDITION; 5][..]].concat());
        decoded.refusal != 0 && decoded.fields[TAKEN] >= 4
    };
    (0..CODES).map(|code| code_of(code).into()).filter(is_late).collect()
}

/// Each with fewer bytes behind it than it may want, or with more, so that what one reading takes is not what the other does.
fn images_of_named_codes(part: usize, tally: &mut Tally) {
    let mut random = Random::of("named codes", part);
    let codes = named_codes();
    for _ in 0..IMAGES_IN_A_PART {
        let length = random.below(200);
        let mut image = Vec::new();
        while image.len() < length {
            image.extend(codes[random.below(codes.len())]);
            let behind = random.below(5);
            image.extend(bytes(behind, &mut random));
        }
        compare(tally, &image);
    }
}

fn images_read_most(_part: usize, tally: &mut Tally) {
    for length in (0..200).chain(LONGEST_IMAGE - 1..=LONGEST_IMAGE + 1) {
        compare(tally, &reading_most(length));
    }
}

// Some first bytes; then second bytes that make long instructions and late refusals of them.
const SOME_BYTES: [u8; 14] = [0x74, 0x76, 0x78, 0x7A, 0x7D, 0x7E, 0xEB, 0x88, 0xC1, 0xEC, 0x00, 0x0C, 0x2C, 0xC3];
const SOME_FIRSTS: usize = 10;

/// A part is the first byte.
fn short_images(part: usize, tally: &mut Tally) {
    compare_longer(tally, &mut vec![SOME_BYTES[part]]);
}

/// This image, and those that begin with it.
fn compare_longer(tally: &mut Tally, image: &mut Vec<u8>) {
    compare_by(tally, Rule::GoOn, image, image.len());
    if image.len() < 6 {
        for byte in SOME_BYTES {
            image.push(byte);
            compare_longer(tally, image);
            image.pop();
        }
    }
}
