//! Sweeps are decoding repeated by their rule and their reading, and are shown as the stored listings.

use m16c::{decode, decode_manual, sweep, sweep_manual, sweep_manual_stopping, sweep_stopping};
use m16c::{AnyOpcode, Instruction, ManualOpcode, ManualSweep, Opcode, Reading, Refusal, Refused, Sweep, LONGEST_IMAGE};

// An image that ends in the bytes of document 01, and its listing by the stopping rule.
const IMAGE: &[u8] = include_bytes!("../../../crates/list_image/stdin");
const LISTING: &str = include_str!("../../../crates/list_image/stdout");
// Images, each behind a byte for its rule and reading and two that say how long it is, the higher first; and their listings one behind the
// other.
const IMAGES: &[u8] = include_bytes!("../../../crates/list_images/stdin");
const LISTINGS: &str = include_str!("../../../crates/list_images/stdout");

// Refused at each byte.
const DATA: [u8; 5] = [0x00, 0x40, 0xFF, 0x7E, 0xE0];

#[derive(Debug, Clone, Copy, PartialEq)]
enum Rule {
    GoOn,
    Stop,
}

use Reading::{Document01, Manual};
use Rule::{GoOn, Stop};

// What the byte before an image stands for, and how many of the stored images have it at least.
const BY_BYTE: [(Rule, Reading, usize); 4] = [(GoOn, Document01, 50), (Stop, Document01, 50), (GoOn, Manual, 5), (Stop, Manual, 30)];

/// The functions of a reading.
trait Read: AnyOpcode {
    fn decode(image: &[u8], at: usize) -> Result<Instruction<Self>, Refused>;
    fn sweep<'a>(rule: Rule, image: &'a [u8], starts: &'a mut [u16]) -> Result<Sweep<'a, Self>, Refusal>;
}

impl Read for Opcode {
    fn decode(image: &[u8], at: usize) -> Result<Instruction, Refused> {
        decode(image, at)
    }

    fn sweep<'a>(rule: Rule, image: &'a [u8], starts: &'a mut [u16]) -> Result<Sweep<'a>, Refusal> {
        match rule {
            GoOn => sweep(image, starts),
            Stop => sweep_stopping(image, starts),
        }
    }
}

impl Read for ManualOpcode {
    fn decode(image: &[u8], at: usize) -> Result<Instruction<Self>, Refused> {
        decode_manual(image, at)
    }

    fn sweep<'a>(rule: Rule, image: &'a [u8], starts: &'a mut [u16]) -> Result<ManualSweep<'a>, Refusal> {
        match rule {
            GoOn => sweep_manual(image, starts),
            Stop => sweep_manual_stopping(image, starts),
        }
    }
}

impl Rule {
    /// The ceiling of how many bytes a sweep reads.
    fn most_read(self, length: usize) -> usize {
        match self {
            GoOn => 3 * length,
            Stop => length,
        }
    }
}

fn images() -> Vec<(Rule, Reading, &'static [u8])> {
    let (mut rest, mut images) = (IMAGES, Vec::new());
    while let [byte, high, low, behind @ ..] = rest {
        let (rule, reading, _) = *BY_BYTE.get(usize::from(*byte)).expect("a rule and a reading");
        let (image, after) = behind.split_at(usize::from(u16::from_be_bytes([*high, *low])));
        images.push((rule, reading, image));
        rest = after;
    }
    assert!(rest.is_empty(), "the last image is whole");
    for (rule, reading, least) in BY_BYTE {
        let count = images.iter().filter(|(its_rule, its_reading, _)| (*its_rule, *its_reading) == (rule, reading)).count();
        assert!(count >= least, "{rule:?} {reading:?}: {count} of the stored images");
    }
    images
}

fn listed<O: Read>(rule: Rule, image: &[u8]) -> String {
    let mut starts = [0; LONGEST_IMAGE];
    match O::sweep(rule, image, &mut starts) {
        Ok(sweep) => sweep.to_string(),
        Err(refusal) => format!("{refusal}\n"),
    }
}

fn listed_by(reading: Reading, rule: Rule, image: &[u8]) -> String {
    match reading {
        Document01 => listed::<Opcode>(rule, image),
        Manual => listed::<ManualOpcode>(rule, image),
    }
}

#[test]
fn stored_listings() {
    assert_eq!(listed::<Opcode>(Stop, IMAGE), LISTING);
    let listings: String = images().into_iter().map(|(rule, reading, image)| listed_by(reading, rule, image)).collect();
    assert_eq!(listings, LISTINGS);
}

#[test]
fn going_on_lists_what_is_behind_the_refusal() {
    assert!(LISTING.ends_with("0FFC 2 - INT Imm8=05\n0FFE REFUSED 2 TAKEN 2\n"));
    assert_eq!(listed::<Opcode>(GoOn, IMAGE), format!("{LISTING}0FFF REFUSED 4 TAKEN 1\nEND 1000\n"));
}

#[test]
fn what_is_placed_is_shown_as_its_line() {
    let mut starts = [0; LONGEST_IMAGE];
    let sweep = sweep_stopping(IMAGE, &mut starts).expect("a sweep");
    let lines: Vec<String> = sweep.instructions().flatten().map(|placed| placed.to_string()).collect();
    let stored: Vec<&str> = LISTING.lines().collect();
    assert_eq!(lines, stored[..stored.len() - 1]);
}

/// What a sweep finds, in its order, where and by what it ends, and how many bytes it read.
#[derive(Debug, PartialEq)]
struct Found<O> {
    items: Vec<Result<(usize, Instruction<O>), Refused>>,
    place: usize,
    read: usize,
    stopped: Option<Refused>,
}

/// Decoding repeated by a rule.
fn repeated<O: Read>(rule: Rule, image: &[u8]) -> Found<O> {
    let mut found = Found { items: Vec::new(), place: 0, read: 0, stopped: None };
    while found.place < image.len() && found.stopped.is_none() {
        match O::decode(image, found.place) {
            Ok(instruction) => {
                found.items.push(Ok((found.place, instruction)));
                found.place += usize::from(instruction.length);
                found.read += usize::from(instruction.length);
            }
            Err(refused) => {
                found.items.push(Err(refused));
                found.read += refused.taken;
                match rule {
                    GoOn => found.place += 1,
                    Stop => found.stopped = Some(refused),
                }
            }
        }
    }
    found
}

fn check_sweep<O: Read>(rule: Rule, image: &[u8]) {
    // The entry behind the image's is not to be touched.
    let mut starts = vec![0xDEAD; image.len() + 1];
    let expected = repeated::<O>(rule, image);
    let swept = O::sweep(rule, image, &mut starts).expect("a sweep");
    let mut instructions = swept.instructions();
    let items = instructions.by_ref().map(|item| item.map(|placed| (placed.place, placed.instruction))).collect();
    assert!(instructions.next().is_none() && instructions.next().is_none());
    let found = Found { items, place: swept.place, read: swept.read, stopped: swept.stopped };
    assert_eq!(found, expected, "{rule:?} {:?} {image:X?}", O::READING);
    assert!(swept.read <= rule.most_read(image.len()), "{rule:?} {image:X?}");
    let places: Vec<u16> = expected.items.iter().flatten().map(|(place, _)| *place as u16).collect();
    assert_eq!(swept.starts, places);
    let passed = expected.items.len() - places.len() - usize::from(expected.stopped.is_some());
    assert_eq!(swept.refused, passed);
    assert_eq!(starts[places.len()..], vec![0xDEAD; image.len() + 1 - places.len()]);
}

fn check_all(image: &[u8]) {
    for rule in [GoOn, Stop] {
        check_sweep::<Opcode>(rule, image);
        check_sweep::<ManualOpcode>(rule, image);
    }
}

#[test]
fn sweeps_are_decoding_repeated() {
    images().into_iter().filter(|(_, _, image)| image.len() <= LONGEST_IMAGE).for_each(|(_, _, image)| check_all(image));
    (0..=IMAGE.len()).step_by(37).for_each(|length| check_all(&IMAGE[..length]));
    // Damaged at one place each: a byte, and some that are refused.
    for place in (0..IMAGE.len() - DATA.len()).step_by(41) {
        let mut damaged = IMAGE.to_vec();
        damaged[place] ^= 0x7F;
        check_all(&damaged);
        damaged[place..place + DATA.len()].copy_from_slice(&DATA);
        check_all(&damaged);
    }
}

/// Images of up to 64 bytes, from a fixed seed; half of the bytes can begin an instruction, so that much is refused late.
fn random_images() -> impl Iterator<Item = Vec<u8>> {
    let begins = |byte: &u8| decode(&[*byte], 0).is_err_and(|refused| refused.refusal == Refusal::ExhaustedInput);
    let firsts: Vec<u8> = (0..=0xFF).filter(begins).collect();
    let mut state: u64 = 0x9E37_79B9_7F4A_7C15;
    let mut below = move |bound: usize| {
        state ^= state << 13;
        state ^= state >> 7;
        state ^= state << 17;
        (state >> 32) as usize % bound
    };
    (0..4000).map(move |_| {
        let length = below(65);
        let mut byte = || [firsts[below(firsts.len())], below(0x100) as u8][below(2)];
        (0..length).map(|_| byte()).collect()
    })
}

#[test]
fn sweeps_of_random_images() {
    random_images().for_each(|image| check_all(&image));
}

#[test]
fn data_between_instructions() {
    const JUMP: [u8; 3] = [0x7D, 0xC8, 0x05];
    let image = [&JUMP[..], &DATA, &JUMP].concat();
    let to_refusal = "\
0000 3 W JLE Disp8=+05
0003 REFUSED 4 TAKEN 1
";
    let behind = "\
0004 REFUSED 4 TAKEN 1
0005 REFUSED 4 TAKEN 1
0006 REFUSED 2 TAKEN 2
0007 REFUSED 4 TAKEN 1
0008 3 W JLE Disp8=+05
END 000B
";
    assert_eq!(listed::<Opcode>(GoOn, &image), [to_refusal, behind].concat());
    assert_eq!(listed::<Opcode>(Stop, &image), to_refusal);
    let mut starts = [0; LONGEST_IMAGE];
    let swept = sweep(&image, &mut starts).expect("a sweep");
    assert_eq!((swept.starts, swept.place, swept.refused, swept.stopped), (&[0, 8][..], 11, 5, None));
    // Two jumps of 3 bytes, and what the five refusals took.
    assert_eq!(swept.read, 3 + 1 + 1 + 1 + 2 + 1 + 3);
    let swept = sweep_stopping(&image, &mut starts).expect("a sweep");
    let stopped = Refused { place: 3, refusal: Refusal::FirstByteOutside, taken: 1 };
    assert_eq!((swept.starts, swept.place, swept.refused, swept.stopped), (&[0][..], 3, 0, Some(stopped)));
    assert_eq!(swept.read, 3 + 1);
}

#[test]
fn nothing_but_data() {
    (0..=DATA.len()).for_each(|length| check_all(&DATA[..length]));
    assert_eq!(listed::<Opcode>(GoOn, &[]), "END 0000\n");
    assert_eq!(listed::<Opcode>(Stop, &[]), "END 0000\n");
    assert_eq!(listed::<Opcode>(GoOn, &DATA[..1]), "0000 REFUSED 4 TAKEN 1\nEND 0001\n");
    check_all(&[0xFF; LONGEST_IMAGE]);
}
