//! Reads subroutines, and tells whether each takes back the registers that it saved: `PUSHM` and `POPM` have the bits of their lists the
//! other way round, so one byte names other registers in each.

use m16c::{sweep, Instruction, Opcode, OperandSpec, Refusal, RegisterList};

#[rustfmt::skip] // an instruction a line
const GOOD: [u8; 14] = [
    0xEC, 0xC9, // PUSHM R0,R1,A0,FB
    0x73, 0xBA, 0x05, 0x20, // MOV.W 5[FB], 20H[SB]
    0x72, 0xCF, 0x34, 0x12, 0x00, 0x04, // MOV.B 1234H[A0], 0400H
    0xED, 0x93, // POPM R0,R1,A0,FB
];

#[rustfmt::skip]
const BAD: [u8; 8] = [
    0xEC, 0xC9, // PUSHM R0,R1,A0,FB
    0x73, 0xAB, 0x20, 0xFE, // MOV.W 20H[SB], -2[FB]
    0xED, 0xC9, // the same byte: POPM R0,R3,SB,FB
];

/// The numbers of both operands, with their signs: of two displacements the earlier one is in `first`.
fn show_numbers(instruction: &Instruction) {
    let [source, destination] = [0, 1].map(|k| instruction.operand(k).and_then(|operand| operand.number));
    if let (Some(source), Some(destination)) = (source, destination) {
        let Instruction { first, dispabs, .. } = instruction;
        println!("  from {source}, first {first:X}, to {destination}, dispabs {dispabs:X}");
    }
}

fn show_list(instruction: &Instruction) {
    let names: Vec<&str> = instruction.register_list().map(OperandSpec::name).collect();
    println!("  {} registers: {}", instruction.registers(), names.join(" "));
}

/// Whether two lists name the same registers: the one of a `POPM` is read from its other end.
fn same(pushed: RegisterList, popped: RegisterList) -> bool {
    pushed.eq(popped.rev())
}

/// Shows each instruction, and compares what was saved with what is taken back.
fn check(image: &[u8]) -> Result<(), Refusal> {
    let mut starts = [0; GOOD.len()];
    let nothing = Instruction::default().register_list();
    let (mut saved, mut taken_back) = (nothing.clone(), nothing);
    for placed in sweep(image, &mut starts)?.instructions().flatten() {
        println!("{placed}");
        let instruction = placed.instruction;
        match instruction.opcode {
            Opcode::PUSHM => {
                show_list(&instruction);
                saved = instruction.register_list();
            }
            Opcode::POPM => {
                show_list(&instruction);
                taken_back = instruction.register_list();
            }
            _ => show_numbers(&instruction),
        }
    }
    println!("entry and exit name {} registers", if same(saved, taken_back) { "the same" } else { "different" });
    Ok(())
}

fn main() -> Result<(), Refusal> {
    check(&GOOD)?;
    check(&BAD)
}
