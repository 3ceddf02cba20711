//! Where each operand has its number, for every pair of names and every third: by a table that scripts/interface makes from the
//! definition of sameness that the library is proved over. Which names are signed is from the rules.

use m16c::{Instruction, Operand, OperandSpec};

const TABLE: &str = include_str!("fields.txt");

const IMM_WIDE: u32 = 0xABCDE;
const DISPABS: u16 = 0x1234;
const FIRST: u16 = 0x5698;

/// A name with its letter as operand 2, and for each operand 1 the letters of operand 0 and operand 1.
struct Row {
    spec: OperandSpec,
    alone: u8,
    pairs: Vec<[u8; 2]>,
}

fn rows() -> Vec<Row> {
    let lines = TABLE.lines().filter(|line| !line.starts_with('#'));
    let rows: Vec<Row> = (0..).zip(lines).map(|(number, line)| row(number, line)).collect();
    assert_eq!(rows.len(), 57);
    assert!(rows.iter().all(|row| row.pairs.len() == rows.len()));
    rows
}

fn row(number: u32, line: &str) -> Row {
    let mut words = line.split(' ');
    let spec = OperandSpec::from_number(number).expect("a name for each row");
    assert_eq!(words.next(), Some(spec.name()));
    let &[alone] = words.next().expect("a letter").as_bytes() else { panic!("{line}") };
    let pairs = words.map(|word| word.as_bytes().try_into().expect("two letters")).collect();
    Row { spec, alone, pairs }
}

/// An operand whose number is in the field with this letter.
fn operand(spec: OperandSpec, letter: u8) -> Option<Operand> {
    let raw = match letter {
        b'-' => None,
        b'i' => Some(IMM_WIDE),
        b'd' => Some(u32::from(DISPABS)),
        b'f' => Some(u32::from(FIRST)),
        other => panic!("the table has a letter {other}"),
    };
    let number = raw.map(|raw| match spec {
        OperandSpec::Disp8_FB | OperandSpec::Disp8 => i64::from(raw as i8),
        _ => i64::from(raw),
    });
    (spec != OperandSpec::Nothing).then_some(Operand { spec, number })
}

fn instruction(operands: [OperandSpec; 3]) -> Instruction {
    Instruction { operands, imm_wide: IMM_WIDE, dispabs: DISPABS, first: FIRST, ..Instruction::default() }
}

#[test]
fn every_operand_has_the_number_of_the_table() {
    let rows = rows();
    for op0 in &rows {
        for (op1, [letter0, letter1]) in rows.iter().zip(&op0.pairs) {
            for op2 in &rows {
                let operands = [op0.spec, op1.spec, op2.spec];
                let expected = [operand(op0.spec, *letter0), operand(op1.spec, *letter1), operand(op2.spec, op2.alone)];
                let instruction = instruction(operands);
                assert_eq!([0, 1, 2].map(|k| instruction.operand(k)), expected, "{operands:?}");
            }
        }
    }
}
