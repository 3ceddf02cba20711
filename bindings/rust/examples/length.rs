//! Walks over an image by lengths alone: of an instruction its first two bytes are read, whatever stands behind them.

use m16c::length_of;

#[rustfmt::skip] // an instruction a line
const IMAGE: [u8; 20] = [
    0x74, 0x0F, 0x34, 0x12, 0x89, 0x67, 0xF5, // STE.B 1234H, 56789H
    0x7E, 0x20, 0x05, 0x07, // 07 is no condition: decoding refuses it, but it has the length of those with a condition
    0x78, 0x83, 0x10, // no bytes behind 78 83 make an instruction
    0x7D, 0xC8, 0x05, // JLE
    0x75, 0xC0, 0xE8, // MOV.W #.., R0: the image ends inside it
];

/// Shows the length at a place, and returns the next: behind the instruction, or a byte further where there is none.
fn pass(place: usize) -> usize {
    let rest = &IMAGE[place..];
    match length_of(rest).map(usize::from) {
        Ok(length) if length > rest.len() => {
            println!("{place:04X} {length}, of which {} are here", rest.len());
            place + length
        }
        Ok(length) => {
            println!("{place:04X} {length}");
            place + length
        }
        Err(refusal) => {
            println!("{place:04X} {refusal}");
            place + 1
        }
    }
}

fn main() {
    let mut place = 0;
    while place < IMAGE.len() {
        place = pass(place);
    }
}
