//! Makes instructions, and has their shortest bytes written.

use m16c::{encode, Instruction, Opcode, OperandSpec, Size, Width, LONGEST_INSTRUCTION};

/// `ADD.W #immediate, displacement[A0]`.
fn add(immediate: u32, displacement: u16) -> Instruction {
    Instruction {
        opcode: Opcode::ADD(Size::W),
        width: Width::W,
        operands: [OperandSpec::Imm16, OperandSpec::Disp16_A0, OperandSpec::Nothing],
        imm_wide: immediate,
        dispabs: displacement,
        ..Instruction::default()
    }
}

fn show(text: &str, instruction: &Instruction, room: usize) {
    let mut bytes = [0; LONGEST_INSTRUCTION];
    match encode(instruction, &mut bytes[..room], 0) {
        Ok(length) => println!("{text}: {:02X?}", &bytes[..length]),
        Err(refusal) => println!("{text}: {refusal}, {refusal:?}"),
    }
}

fn main() {
    show("ADD.W #03E8H, 1234H[A0]", &add(0x03E8, 0x1234), LONGEST_INSTRUCTION);
    show("the same, in 5 bytes", &add(0x03E8, 0x1234), 5);
    // 8 bits are enough for the displacement.
    show("ADD.W #03E8H, 12H[A0]", &add(0x03E8, 0x12), LONGEST_INSTRUCTION);
    // 16 bits are not enough for the immediate.
    show("ADD.W #10000H, 12H[A0]", &add(0x10000, 0x12), LONGEST_INSTRUCTION);
}
