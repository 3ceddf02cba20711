//! Changes constants in an image where they stand: an instruction tells the part of each. Nothing is encoded, so no other byte changes,
//! even where encoding would write the rest otherwise.

use std::error::Error;
use std::fmt;

use m16c::{decode, sweep, Instruction, Part, Refusal};

#[rustfmt::skip] // an instruction a line
const IMAGE: [u8; 17] = [
    0x75, 0xCC, 0x34, 0x00, 0x02, 0x00, // MOV.W #2, 34H[A0], with a displacement longer than it needs to be: encoding shortens it
    0x74, 0x00, 0x61, 0xFE, 0x16, // STE.B R0L, 6FE61H, with four bits that decoding drops: encoding makes them 0
    0x78, 0x89, 0x10, 0x20, // MUL.B 10H[A0], 20H[A1]
    0xEB, 0xC5, // INT #5
];

/// A field of an instruction: its number, and the part that this stands in.
struct Field {
    name: &'static str,
    read: fn(&Instruction) -> (u32, Option<Part>),
}

const FIRST: Field = Field { name: "first", read: |found| (found.first.into(), found.parts().first) };
const DISPABS: Field = Field { name: "dispabs", read: |found| (found.dispabs.into(), found.parts().dispabs) };
const IMM_WIDE: Field = Field { name: "imm_wide", read: |found| (found.imm_wide, found.parts().imm_wide) };

/// Why a number was left as it is.
enum Left {
    NoPart,
    TooLarge { bits: u32 },
}

impl fmt::Display for Left {
    fn fmt(&self, f: &mut fmt::Formatter) -> fmt::Result {
        match self {
            Left::NoPart => write!(f, "no byte behind the code is read for it"),
            Left::TooLarge { bits } => write!(f, "it does not fit in {bits} bits"),
        }
    }
}

/// Writes a number over bytes, the low one first, if it fits. Of a third byte the upper four bits are not the number's, and stay as they
/// are.
fn put(bytes: &mut [u8], number: u32) -> Result<(), Left> {
    let width = bytes.len();
    let (bits, kept) = if width == 3 { (20, u32::from(bytes[2] & 0xF0) << 16) } else { (8 * width as u32, 0) };
    if number >> bits != 0 {
        return Err(Left::TooLarge { bits });
    }
    bytes.copy_from_slice(&(number | kept).to_le_bytes()[..width]);
    Ok(())
}

/// Gives a number of the instruction at a place another value, and says what became of it.
fn change(image: &mut [u8], place: usize, field: &Field, value: u32) -> Result<(), Box<dyn Error>> {
    let (number, part) = (field.read)(&decode(image, place)?);
    print!("{place:04X}: {} {value:X} instead of {number:X}: ", field.name);
    let outcome = part.ok_or(Left::NoPart).and_then(|part| {
        put(&mut image[place..][part.range()], value)?;
        Ok(part)
    });
    match outcome {
        Ok(part) => println!("written at {:04X}, width {}", place + usize::from(part.offset), part.width),
        Err(why) => println!("left, {why}"),
    }
    Ok(())
}

fn list(image: &[u8]) -> Result<(), Refusal> {
    let mut starts = [0; IMAGE.len()];
    print!("{}", sweep(image, &mut starts)?);
    Ok(())
}

fn main() -> Result<(), Box<dyn Error>> {
    let mut image = IMAGE;
    list(&image)?;
    change(&mut image, 0x00, &IMM_WIDE, 3)?;
    change(&mut image, 0x00, &DISPABS, 0)?; // encoding leaves a displacement of 0 out
    change(&mut image, 0x00, &IMM_WIDE, 0x10000)?;
    change(&mut image, 0x06, &IMM_WIDE, 0x12345)?;
    change(&mut image, 0x06, &IMM_WIDE, 0x100000)?;
    change(&mut image, 0x0B, &FIRST, 0x7F)?;
    change(&mut image, 0x0B, &IMM_WIDE, 1)?; // there is no immediate
    change(&mut image, 0x0F, &IMM_WIDE, 6)?; // the number of an INT is in its code
    list(&image)?;
    Ok(())
}
