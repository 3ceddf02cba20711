//! Decodes bytes by document 01 and by the manual, shows where they differ, and changes a number by the reading that decoded it.

use m16c::{decode, decode_manual, encode, encode_manual, sweep, sweep_manual, AnyOpcode, Refusal, Sweep};

// Rows that document 01 marks, and at last one that both read alike.
const IMAGE: [u8; 13] = [
    0x76, 0x90, // DIVX.B R0L
    0x7C, 0x48, 0x10, 0x22, // MULU.B #22H, 10H[A0]
    0x7D, 0x22, // JMPI.W R2
    0xEB, 0x64, // FSET I
    0x7D, 0xC8, 0xF6, // JLE
];

// Adds to the stack pointer: by document 01 the number has three bits, by the manual four, with a sign.
const ADD: [u8; 2] = [0x7D, 0xB9];

/// A sweep of either reading: its type says which, and its lines are by the same.
fn list<O: AnyOpcode>(sweep: &Sweep<O>) {
    println!("by {:?}, {} places refused:", sweep.reading(), sweep.refused);
    sweep.instructions().flatten().for_each(|placed| println!("{placed}"));
}

fn show_encoded(text: &str, encoded: Result<usize, Refusal>, bytes: [u8; 2]) {
    match encoded {
        Ok(length) => println!("{text}: {:02X?}", &bytes[..length]),
        Err(refusal) => println!("{text}: {refusal}"),
    }
}

fn main() -> Result<(), Box<dyn std::error::Error>> {
    let mut starts = [0; IMAGE.len()];
    list(&sweep(&IMAGE, &mut starts)?);
    list(&sweep_manual(&IMAGE, &mut starts)?);

    let mut bytes = [0; 2];
    let by_document = decode(&ADD, 0)?;
    println!("by document 01 it adds {}, marked: {}", by_document.imm_wide as i32, by_document.marked);
    show_encoded("encoded", encode(&by_document, &mut bytes, 0), bytes);
    // `encode_manual(&by_document, ..)` does not compile. Who says that it is meant gets another instruction.
    let mixed = encode_manual(&by_document.to_manual(), &mut bytes, 0);
    show_encoded("taken for the manual's", mixed, bytes);

    let mut by_manual = decode_manual(&ADD, 0)?;
    println!("by the manual it adds {}, marked: {}", by_manual.imm_wide as i32, by_manual.marked);
    show_encoded("encoded", encode_manual(&by_manual, &mut bytes, 0), bytes);
    by_manual.imm_wide = -4_i32 as u32;
    show_encoded("with -4", encode_manual(&by_manual, &mut bytes, 0), bytes);
    Ok(())
}
