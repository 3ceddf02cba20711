//! A pointer whose length is 0 may be null, as the header says.

use std::ptr::{null, null_mut};

use m16c::c::{m16c_decode, m16c_encode, m16c_length, m16c_line, m16c_operand_number, m16c_sweep, m16c_sweep_stopping};
use m16c::c::{
    m16c_decode_manual, m16c_encode_manual, m16c_line_manual, m16c_sweep_manual, m16c_sweep_manual_stopping,
};
use m16c::c::{Decode, Encode, Line, Sweep, LONGEST_LINE};

const EXHAUSTED_INPUT: u32 = 1;
const NO_STRING: u32 = 5;
const TOO_LITTLE_ROOM: u32 = 6;
const NUMBERS: usize = 20;

// By both readings.
const DECODERS: [Decode; 2] = [m16c_decode, m16c_decode_manual];
const ENCODERS: [Encode; 2] = [m16c_encode, m16c_encode_manual];
const LINES: [Line; 2] = [m16c_line, m16c_line_manual];
const SWEEPS: [Sweep; 4] = [m16c_sweep, m16c_sweep_stopping, m16c_sweep_manual, m16c_sweep_manual_stopping];

/// What a sweep returns, and what it leaves: count, place, refused and read.
unsafe fn swept(sweep: Sweep, image: *const u8, length: usize, starts: *mut u16, room: usize) -> (u32, [usize; 4]) {
    let mut left = [9; 4];
    let [count, place, refused, read] = &mut left;
    let returned = sweep(image, length, starts, room, count, place, refused, read);
    (returned, left)
}

#[test]
fn no_image() {
    let mut starts = [9; 3];
    for at in [0, 1, usize::MAX] {
        for decode in DECODERS {
            let mut record = [9; NUMBERS];
            let decoded = unsafe { decode(null(), 0, at, record.as_mut_ptr(), record.len()) };
            assert_eq!((decoded, record), (EXHAUSTED_INPUT, [0; NUMBERS]));
        }
        for list in LINES {
            let (mut line, mut length) = ([9; LONGEST_LINE], 9);
            let listed = unsafe { list(null(), 0, at, line.as_mut_ptr(), line.len(), &mut length) };
            assert_eq!((listed, line, length), (EXHAUSTED_INPUT, [9; LONGEST_LINE], 0));
        }
    }
    let mut length = 9;
    assert_eq!((unsafe { m16c_length(null(), 0, &mut length) }, length), (EXHAUSTED_INPUT, 0));
    for sweep in SWEEPS {
        let swept = unsafe { swept(sweep, null(), 0, starts.as_mut_ptr(), starts.len()) };
        assert_eq!((swept, starts), ((0, [0; 4]), [9; 3]));
    }
}

#[test]
fn no_room() {
    let image = [0xEB, 0xC5];
    let mut record = [9; NUMBERS];
    for decode in DECODERS {
        let decoded = unsafe { decode(image.as_ptr(), image.len(), 0, record.as_mut_ptr(), record.len()) };
        assert_eq!(decoded, 0);
        assert_eq!(unsafe { decode(image.as_ptr(), image.len(), 0, null_mut(), 0) }, TOO_LITTLE_ROOM);
    }
    for list in LINES {
        let mut length = 9;
        let listed = unsafe { list(image.as_ptr(), image.len(), 0, null_mut(), 0, &mut length) };
        assert_eq!((listed, length), (TOO_LITTLE_ROOM, 0));
    }
    for sweep in SWEEPS {
        let swept = unsafe { swept(sweep, image.as_ptr(), image.len(), null_mut(), 0) };
        assert_eq!(swept, (TOO_LITTLE_ROOM, [0; 4]));
    }
    for (encode, place) in ENCODERS.into_iter().flat_map(|encode| [0, 1, usize::MAX].map(|place| (encode, place))) {
        let mut length = 9;
        let encoded = unsafe { encode(record.as_ptr(), record.len(), null_mut(), 0, place, &mut length) };
        assert_eq!((encoded, length), (TOO_LITTLE_ROOM, 0));
    }
}

#[test]
fn nothing_at_all() {
    let mut number = 9;
    for decode in DECODERS {
        assert_eq!(unsafe { decode(null(), 0, 0, null_mut(), 0) }, TOO_LITTLE_ROOM);
    }
    for encode in ENCODERS {
        let mut length = 9;
        assert_eq!((unsafe { encode(null(), 0, null_mut(), 0, 0, &mut length) }, length), (NO_STRING, 0));
    }
    for list in LINES {
        let mut length = 9;
        assert_eq!((unsafe { list(null(), 0, 0, null_mut(), 0, &mut length) }, length), (EXHAUSTED_INPUT, 0));
    }
    for sweep in SWEEPS {
        assert_eq!(unsafe { swept(sweep, null(), 0, null_mut(), 0) }, (0, [0; 4]));
    }
    assert_eq!((unsafe { m16c_operand_number(null(), 0, 0, &mut number) }, number), (NO_STRING, 0));
}
