//! Changes numbers in an image and moves nothing: finds an instruction, decodes it, changes a number, encodes it, and writes the bytes
//! back only if there are as many as before.

use std::fmt;

use m16c::{encode, sweep, Instruction, Opcode, OperandSpec, Refusal, Size, LONGEST_IMAGE, LONGEST_INSTRUCTION};

const MOV: Opcode = Opcode::MOV(Size::W);
const CMP: Opcode = Opcode::CMP(Size::W);
const SUB: Opcode = Opcode::SUB(Size::W);

#[rustfmt::skip] // an instruction a line
const IMAGE: [u8; 28] = [
    0x75, 0xC0, 0x00, 0x00, // MOV.W #0, R0
    0x77, 0x40, 0x0A, 0x00, // ADD.W #10, R0
    0x77, 0x80, 0xE8, 0x03, // CMP.W #1000, R0
    0x7D, 0xC8, 0xF6, // JLE, back to the ADD
    0x00, 0x40, // data, which a sweep passes
    0x75, 0xC8, 0x34, 0x01, 0x00, // MOV.W #1, 34H[A0]
    0x75, 0xCC, 0x34, 0x00, 0x02, 0x00, // MOV.W #2, 34H[A0], with a displacement longer than it needs to be
];

/// Why an image was left as it is.
enum Left {
    NotFound,
    Refused(Refusal),
    Shorter { length: usize, old_length: usize },
}

impl fmt::Display for Left {
    fn fmt(&self, f: &mut fmt::Formatter) -> fmt::Result {
        match self {
            Left::NotFound => write!(f, "no such instruction"),
            Left::Refused(Refusal::NoString) => write!(f, "no bytes encode it"),
            Left::Refused(Refusal::TooLittleRoom) => write!(f, "it needs more bytes than it had"),
            Left::Refused(other) => write!(f, "{other}"),
            Left::Shorter { length, old_length } => write!(f, "its shortest bytes are {length}, not {old_length}"),
        }
    }
}

/// The place of the first instruction with an opcode and an immediate, and the instruction.
fn find(image: &[u8], opcode: Opcode, immediate: u32) -> Result<(usize, Instruction), Left> {
    let mut starts = [0; LONGEST_IMAGE];
    let sweep = sweep(image, &mut starts).map_err(Left::Refused)?;
    let found = sweep.instructions().flatten().find(|placed| {
        let Instruction { opcode: its_opcode, operands, imm_wide, .. } = placed.instruction;
        its_opcode == opcode && operands[0] == OperandSpec::Imm16 && imm_wide == immediate
    });
    found.map(|placed| (placed.place, placed.instruction)).ok_or(Left::NotFound)
}

/// Writes a changed instruction over the one it was made of, if it has as many bytes.
fn put(image: &mut [u8], place: usize, changed: &Instruction) -> Result<(), Left> {
    let old_length = usize::from(changed.length);
    let mut bytes = [0; LONGEST_INSTRUCTION];
    let length = encode(changed, &mut bytes[..old_length], 0).map_err(Left::Refused)?;
    if length != old_length {
        return Err(Left::Shorter { length, old_length });
    }
    image[place..place + length].copy_from_slice(&bytes[..length]);
    Ok(())
}

/// Changes the instruction with this opcode and immediate, and returns where it is.
fn change(image: &mut [u8], opcode: Opcode, immediate: u32, edit: fn(&mut Instruction)) -> Result<usize, Left> {
    let (place, mut instruction) = find(image, opcode, immediate)?;
    edit(&mut instruction);
    put(image, place, &instruction)?;
    Ok(place)
}

fn show(text: &str, outcome: Result<usize, Left>) {
    match outcome {
        Ok(place) => println!("{text}: written at {place:04X}"),
        Err(why) => println!("{text}: left, {why}"),
    }
}

fn list(image: &[u8]) -> Result<(), Refusal> {
    let mut starts = [0; LONGEST_IMAGE];
    print!("{}", sweep(image, &mut starts)?);
    Ok(())
}

fn main() -> Result<(), Refusal> {
    let mut image = IMAGE;
    list(&image)?;
    show("the limit 1000 to 1500", change(&mut image, CMP, 1000, |cmp| cmp.imm_wide = 1500));
    show("the limit 1500 to 65536", change(&mut image, CMP, 1500, |cmp| cmp.imm_wide = 65536));
    show("the place of the 1", change(&mut image, MOV, 1, |mov| mov.dispabs = 0x1234));
    show("the 2 to 3", change(&mut image, MOV, 2, |mov| mov.imm_wide = 3));
    show("a SUB", change(&mut image, SUB, 1, |sub| sub.imm_wide = 2));
    list(&image)
}
