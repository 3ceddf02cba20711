//! How many entries the functions want of a record.

use m16c::c::{m16c_decode, m16c_decode_manual, m16c_encode, m16c_encode_manual, m16c_operand_number, Decode, Encode};

const ACCEPTED: u32 = 0;
const NO_STRING: u32 = 5;
const TOO_LITTLE_ROOM: u32 = 6;

const NUMBERS: usize = 20;
// So many count for encoding, and for an operand's number.
const COUNTED: usize = 12;
const IMM_WIDE: usize = 7;
const REGISTERS: usize = 19;

const UNTOUCHED: u32 = 0xDEAD;

// By both readings.
const DECODERS: [Decode; 2] = [m16c_decode, m16c_decode_manual];
const ENCODERS: [Encode; 2] = [m16c_encode, m16c_encode_manual];

// A list of four registers, and an instruction that ends too early.
const PUSHM: [u8; 2] = [0xEC, 0xC9];
const CUT: [u8; 3] = [0x72, 0x89, 0x10];

#[test]
fn decoding_wants_all() {
    for (room, decode) in (0..=NUMBERS + 1).flat_map(|room| DECODERS.map(|decode| (room, decode))) {
        for image in [&PUSHM[..], &CUT] {
            let mut numbers = [UNTOUCHED; NUMBERS + 1];
            let returned = unsafe { decode(image.as_ptr(), image.len(), 0, numbers.as_mut_ptr(), room) };
            if room < NUMBERS {
                assert_eq!((returned, numbers), (TOO_LITTLE_ROOM, [UNTOUCHED; NUMBERS + 1]), "{room}");
            } else {
                assert_eq!(returned, u32::from(image == CUT), "{room}");
                assert!(!numbers[..NUMBERS].contains(&UNTOUCHED), "{numbers:?}");
                assert_eq!(numbers[NUMBERS], UNTOUCHED);
            }
        }
    }
}

fn decoded(image: &[u8]) -> [u32; NUMBERS] {
    let mut numbers = [UNTOUCHED; NUMBERS];
    let returned = unsafe { m16c_decode(image.as_ptr(), image.len(), 0, numbers.as_mut_ptr(), numbers.len()) };
    assert_eq!(returned, ACCEPTED);
    numbers
}

/// What stands behind the first twelve may be anything, and may be missing.
#[test]
fn others_want_twelve() {
    let mut numbers = decoded(&PUSHM);
    assert_eq!((numbers[IMM_WIDE], numbers[REGISTERS]), (0xC9, 4));
    numbers[COUNTED..].fill(u32::MAX);
    for count in 0..=NUMBERS {
        for encode in ENCODERS {
            let (mut bytes, mut length) = ([0xA1; 3], 9);
            let (from, to) = (numbers.as_ptr(), bytes.as_mut_ptr());
            let encoded = unsafe { encode(from, count, to, bytes.len(), 0, &mut length) };
            let expected = if count < COUNTED { (NO_STRING, 0, [0xA1; 3]) } else { (ACCEPTED, 2, [0xEC, 0xC9, 0xA1]) };
            assert_eq!((encoded, length, bytes), expected, "{count}");
        }
        let mut number = 9;
        let asked = unsafe { m16c_operand_number(numbers.as_ptr(), count, 0, &mut number) };
        assert_eq!((asked, number), if count < COUNTED { (NO_STRING, 0) } else { (ACCEPTED, 0xC9) }, "{count}");
    }
}
