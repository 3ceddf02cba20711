// Records with an operand whose number is asked for, for the stored list. README.md describes the fields.

use oracle::{ACCEPTED, OPERAND_NAMES};

use crate::operands::number_of;

const NO_NUMBER: u8 = 5;

// Numbers whose low bytes are above 7F and which do not fit in a byte, so that sign and digits of each field show.
const FIELDS: [u32; 3] = [0x1234_56F0, 0x01F0, 0x0280];

// Names of which two can meet in a record, each with another rule for its number.
const FEW: [&str; 8] = ["Disp8_FB", "Disp8_SP", "Disp8_A0", "Abs16", "Bit_Disp8_FB", "Disp8", "Imm16", "R0"];

// More names than there are of opcodes, sizes, widths and operands.
const NO_RECORDS: [[u32; 6]; 6] =
    [[0xFF, 0, 0, 36, 0, 0], [0, 4, 0, 36, 0, 0], [0, 0, 3, 36, 0, 0], [0, 0, 0, 57, 0, 0], [0, 0, 0, 36, 57, 0], [0, 0, 0, 36, 0, 57]];

pub fn list() -> String {
    let names = || 0..OPERAND_NAMES.len() as u32;
    let mut text = String::new();
    for operand in names() {
        for k in 0..3 {
            let mut operands = [0; 3];
            operands[k] = operand;
            text += &stored_line([0; 3], operands, FIELDS, k);
        }
    }
    for byte in 0..=0xFF {
        text += &stored_line([0; 3], [named("Disp8_FB"), 0, 0], [0, byte, 0], 0);
        text += &stored_line([0; 3], [named("Disp8"), 0, 0], [byte, 0, 0], 0);
    }
    for op0 in FEW.map(named) {
        for op1 in FEW.map(named) {
            for k in 0..2 {
                text += &stored_line([0; 3], [op0, op1, 0], FIELDS, k);
            }
        }
    }
    for k in 0..16 {
        text += &stored_line([0; 3], ["Disp8_FB", "Disp8", "Imm8"].map(named), FIELDS, k);
    }
    for [opcode, size, width, op0, op1, op2] in NO_RECORDS {
        text += &stored_line([opcode, size, width], [op0, op1, op2], FIELDS, 0);
    }
    text
}

fn named(name: &str) -> u32 {
    OPERAND_NAMES.iter().position(|other| *other == name).expect("a name of an operand") as u32
}

fn stored_line(names: [u32; 3], operands: [u32; 3], fields: [u32; 3], k: usize) -> String {
    let ([opcode, size, width], [op0, op1, op2], [imm_wide, dispabs, first]) = (names, operands, fields);
    let answer = number_of(&[0, opcode, size, width, op0, op1, op2, imm_wide, dispabs, first, 0, 0], k);
    let (refusal, number) = answer.map_or((NO_NUMBER, 0), |number| (ACCEPTED, number));
    format!(
        "N{opcode:02X}{size:X}{width:X}{op0:02X}{op1:02X}{op2:02X} {imm_wide:08X} {dispabs:04X}{first:04X} {k:X} {refusal} {}     {:08X}\n",
        u8::from(number < 0),
        number.unsigned_abs()
    )
}
