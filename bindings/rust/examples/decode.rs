//! Decodes instructions, and reads what they say.

use m16c::{decode, line, Instruction, Opcode, OperandSpec};

const IMAGE: [u8; 7] = [0x74, 0x0F, 0x34, 0x12, 0x89, 0x67, 0xF5];

// A variable below the frame base: its displacement is negative.
const LOCAL: [u8; 3] = [0x74, 0x5B, 0xF0];

fn main() -> Result<(), Box<dyn std::error::Error>> {
    let instruction = decode(&IMAGE, 0)?;
    println!("{}", line(&IMAGE, 0)?);
    println!("{} bytes, opcode {}", instruction.length, instruction.opcode.name());
    show_operands(&instruction);
    if instruction.opcode == Opcode::STE && instruction.operands[..2] == [OperandSpec::Abs16, OperandSpec::Abs20] {
        println!("STE from address {:04X} to address {:05X}", instruction.dispabs, instruction.imm_wide);
    }
    if instruction.dropped {
        println!("of the address's three bytes four bits were dropped, and were not zero");
    }
    println!("{}", line(&LOCAL, 0)?);
    show_operands(&decode(&LOCAL, 0)?);
    // The image ends inside the instruction.
    if let Err(refused) = decode(&IMAGE[..6], 0) {
        println!("{:?} at {}, after {} bytes", refused.refusal, refused.place, refused.taken);
    }
    Ok(())
}

fn show_operands(instruction: &Instruction) {
    for (k, operand) in (0..3).filter_map(|k| Some((k, instruction.operand(k)?))) {
        match operand.number {
            Some(number) => println!("operand {k}: {} with {number}", operand.spec.name()),
            None => println!("operand {k}: {}", operand.spec.name()),
        }
    }
}
