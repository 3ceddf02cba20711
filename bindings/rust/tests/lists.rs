//! Request A7's lists of registers: all of both opcodes, as the manual has their bits.

use m16c::c::m16c_decode;
use m16c::{decode, encode, length_of, line, Instruction, Opcode, OperandSpec, Refusal, Refused, Width};

/// First bytes with their opcodes, and the registers of a list's bits, 80 first.
const LISTS: [(u8, Opcode, [&str; 8]); 2] = [
    (0xEC, Opcode::PUSHM, ["R0", "R1", "R2", "R3", "A0", "A1", "SB", "FB"]),
    (0xED, Opcode::POPM, ["FB", "SB", "A1", "A0", "R3", "R2", "R1", "R0"]),
];

fn list(opcode: Opcode, byte: u8) -> Instruction {
    Instruction {
        opcode,
        width: Width::None,
        operands: [OperandSpec::RegList, OperandSpec::Nothing, OperandSpec::Nothing],
        imm_wide: byte.into(),
        length: 2,
        registers: (0..8).map(|k| byte >> k & 1).sum(),
        ..Instruction::default()
    }
}

#[test]
fn every_record() {
    for (first, opcode, _) in LISTS {
        for byte in 0..=0xFF_u8 {
            // What stands behind is not read.
            for bytes in [&[first, byte][..], &[first, byte, 0xEC, 0xFF]] {
                assert_eq!(decode(bytes, 0), Ok(list(opcode, byte)), "{bytes:X?}");
            }
            let expected = format!("0000 2 - {} RegList={byte:02X}", opcode.name());
            assert_eq!(line(&[first, byte], 0).expect("a line").as_str(), expected);
            assert_eq!(length_of(&[first, byte]), Ok(2));
        }
        assert_eq!(decode(&[first], 0), Err(Refused { place: 0, refusal: Refusal::ExhaustedInput, taken: 1 }));
    }
}

#[test]
fn every_register() {
    for (_, opcode, names) in LISTS {
        for byte in 0..=0xFF_u8 {
            let mut expected: Vec<&str> = (0..8).filter(|k| byte & (0x80 >> k) != 0).map(|k| names[k]).collect();
            let found = list(opcode, byte).register_list();
            assert_eq!(found.len(), usize::from(list(opcode, byte).registers()));
            assert_eq!(found.clone().map(OperandSpec::name).collect::<Vec<_>>(), expected, "{opcode:?} {byte:02X}");
            expected.reverse();
            assert_eq!(found.rev().map(OperandSpec::name).collect::<Vec<_>>(), expected, "{opcode:?} {byte:02X}");
        }
    }
}

/// From both ends at once no register comes twice, and none comes behind the last.
#[test]
fn both_ends_meet() {
    for byte in 0..=0xFF_u8 {
        let mut registers = list(Opcode::PUSHM, byte).register_list();
        let mut count = 0;
        while let Some(register) = if count % 2 == 0 { registers.next() } else { registers.next_back() } {
            assert!(registers.clone().all(|other| other != register));
            count += 1;
        }
        assert_eq!(count, byte.count_ones());
        assert_eq!((registers.next(), registers.next_back(), registers.len()), (None, None, 0));
    }
}

/// A byte and the same turned round.
#[test]
fn what_was_pushed_is_popped() {
    for byte in 0..=0xFF_u8 {
        let popped = list(Opcode::POPM, byte.reverse_bits());
        assert!(list(Opcode::PUSHM, byte).register_list().eq(popped.register_list().rev()), "{byte:02X}");
    }
}

#[test]
fn only_lists_have_registers() {
    let jump = decode(&[0x7D, 0xC8, 0xFF], 0).expect("a jump");
    assert_eq!((jump.registers(), jump.register_list().next()), (0, None));
    // A refusal leaves 0 there too.
    for bytes in [&[0xEC][..], &[0x04], &[0x74, 0x63], &[0x7E, 0xE0], &[]] {
        let mut numbers = [9; 20];
        let refusal = unsafe { m16c_decode(bytes.as_ptr(), bytes.len(), 0, numbers.as_mut_ptr(), numbers.len()) };
        assert_ne!(refusal, 0);
        assert_eq!(numbers[19], 0, "{bytes:X?}");
    }
}

#[test]
fn encoding() {
    for (first, opcode, _) in LISTS {
        for byte in 0..=0xFF_u8 {
            // How many registers the record says that there are does not count.
            for registers in [0, 3, 0xFF] {
                let mut buffer = [0xA1; 4];
                let record = Instruction { registers, length: 0, ..list(opcode, byte) };
                assert_eq!(encode(&record, &mut buffer, 1), Ok(2));
                assert_eq!(buffer, [0xA1, first, byte, 0xA1]);
            }
        }
        assert_eq!(encode(&list(opcode, 0x80), &mut [0; 1], 0), Err(Refusal::TooLittleRoom));
    }
}

#[test]
fn encoding_refused() {
    use OperandSpec::{Imm8, Nothing, RegList, R0};
    for (_, opcode, _) in LISTS {
        let good = list(opcode, 0x80);
        let refused = |record: Instruction| assert_eq!(encode(&record, &mut [0; 7], 0), Err(Refusal::NoString));
        for imm_wide in [0x100, 0x180, 0x8000_0000, u32::MAX] {
            refused(Instruction { imm_wide, ..good });
        }
        for width in [Width::B, Width::W] {
            refused(Instruction { width, ..good });
        }
        for op0 in [Nothing, R0, Imm8] {
            refused(Instruction { operands: [op0, Nothing, Nothing], ..good });
        }
        for operands in [[RegList, R0, Nothing], [RegList, Nothing, R0], [Nothing, RegList, Nothing]] {
            refused(Instruction { operands, ..good });
        }
        refused(Instruction { opcode: Opcode::INT, ..good });
    }
}
