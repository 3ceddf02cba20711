//! Request A9, the reading by the manual: each row that it changes, its refusals, and that readings are not mixed unseen.

use m16c::{decode, decode_manual, encode, encode_manual, line_manual, sweep, sweep_manual, sweep_manual_stopping};
use m16c::{AnyOpcode, Instruction, ManualInstruction, ManualOpcode, ManualSweep, Opcode, OperandSpec};
use m16c::{Part, Parts, Reading, Refusal, Refused, Size, Sweep, Width};
use OperandSpec::{Abs16, Disp20_A0, Disp8_A0, Disp8_SP, Imm4, Imm8, Nothing, A0, A1, INTBL, R0, R0L, R1, R2, R3, SP};

fn accepted(bytes: &[u8]) -> ManualInstruction {
    decode_manual(bytes, 0).unwrap_or_else(|refused| panic!("{bytes:X?}: {refused}"))
}

fn refused(bytes: &[u8]) -> (u32, usize) {
    let Refused { place, refusal, taken } = decode_manual(bytes, 0).expect_err("a refusal");
    assert_eq!(place, 0);
    (refusal.number(), taken)
}

fn encoded(instruction: &ManualInstruction) -> Result<Vec<u8>, Refusal> {
    let mut buffer = [0; m16c::LONGEST_INSTRUCTION];
    let length = encode_manual(instruction, &mut buffer, 0)?;
    Ok(buffer[..length].to_vec())
}

fn part(offset: u8, width: u8) -> Option<Part> {
    Some(Part { offset, width })
}

/// An instruction that is unmarked, has this line, and comes back from its bytes.
fn check(bytes: &[u8], line: &str) -> ManualInstruction {
    let instruction = accepted(bytes);
    assert!(!instruction.marked, "{bytes:X?}");
    assert_eq!(usize::from(instruction.length), bytes.len(), "{bytes:X?}");
    let listed = format!("0000 {} {line}", bytes.len());
    assert_eq!(line_manual(bytes, 0).map(|line| line.to_string()), Ok(listed));
    assert_eq!(encoded(&instruction).as_deref(), Ok(bytes));
    instruction
}

#[test]
fn one_operand_and_no_immediate() {
    let divided = check(&[0x76, 0x90], "B DIVX.B R0L");
    assert_eq!(
        divided,
        ManualInstruction {
            opcode: Opcode::DIVX(Size::B).into(),
            width: Width::B,
            operands: [R0L, Nothing, Nothing],
            length: 2,
            ..ManualInstruction::blank()
        }
    );
    check(&[0x77, 0x91], "W DIVX.W R1");
    check(&[0x76, 0xC8, 0x10], "B DIVU.B Disp8_A0=10");
    check(&[0x77, 0xEF, 0x34, 0x12], "W ADCF.W Abs16=1234");
    // Of the same pages, and not changed.
    assert_eq!(accepted(&[0x76, 0x40, 0x22]), decode(&[0x76, 0x40, 0x22], 0).expect("an instruction").to_manual());
}

#[test]
fn products_have_their_operand() {
    let product = check(&[0x7C, 0x48, 0x10, 0x22], "B MULU.B Imm8=22 Disp8_A0=10");
    assert_eq!(product.opcode, Opcode::MULU(Size::B));
    assert_eq!(product.operands, [Imm8, Disp8_A0, Nothing]);
    assert_eq!((product.imm_wide, product.dispabs, product.first), (0x22, 0x10, 0));
    assert_eq!(product.parts(), Parts { first: None, dispabs: part(2, 1), imm_wide: part(3, 1) });
    check(&[0x7D, 0x5F, 0x34, 0x12, 0x78, 0x56], "W MUL Imm16=5678 Abs16=1234");
    check(&[0x7C, 0x44, 0x22], "B MULU.B Imm8=22 A0");
    // Refused as now, before anything is read.
    for bytes in [[0x7C, 0x43], [0x7C, 0x45], [0x7D, 0x45], [0x7D, 0x55]] {
        assert_eq!(refused(&bytes), (3, 2), "{bytes:X?}");
    }
}

#[test]
fn the_stack_has_its_own_byte() {
    let moved = check(&[0x74, 0x38, 0x10, 0x20], "B MOV.B Disp8_A0=10 Disp8_SP=20");
    assert_eq!(moved.operands, [Disp8_A0, Disp8_SP, Nothing]);
    assert_eq!((moved.first, moved.dispabs), (0x10, 0x20));
    assert_eq!([0, 1].map(|k| moved.operand(k).and_then(|operand| operand.number)), [Some(0x10), Some(0x20)]);
    assert_eq!(moved.parts(), Parts { first: part(2, 1), dispabs: part(3, 1), imm_wide: None });
    check(&[0x75, 0x30, 0x20], "W MOV.W R0 Disp8_SP=20");
    let long = check(&[0x75, 0x3F, 0x34, 0x12, 0x20], "W MOV.W Abs16=1234 Disp8_SP=20");
    assert_eq!((long.operands[0], long.first, long.dispabs), (Abs16, 0x1234, 0x20));
    assert_eq!(refused(&[0x74, 0x38, 0x10]), (1, 3));
}

#[test]
fn control_registers_take_words() {
    let loaded = check(&[0x7A, 0x90], "B LDC R0 INTBL");
    assert_eq!((loaded.operands, loaded.width), ([R0, INTBL, Nothing], Width::B));
    check(&[0x7A, 0xF3], "B LDC R3 FB");
    check(&[0x7A, 0x98, 0x10], "B LDC Disp8_A0=10 INTBL");
    assert_eq!(refused(&[0x7A, 0x80]), (3, 2));
    assert_eq!(refused(&[0x7A, 0x88]), (1, 2));
    assert_eq!(refused(&[0x7A, 0x88, 0x10]), (3, 3));
}

#[test]
fn numbers_in_the_code() {
    for level in 0..8 {
        let set = check(&[0x7D, 0xA0 | level], &format!("W LDIPL Imm8=0{level}"));
        assert_eq!((set.opcode.common(), set.imm_wide), (Some(Opcode::LDIPL), level.into()));
    }
    for (code, number) in (0..16).zip((0..8).chain(-8..0)) {
        let low_byte = number as u8;
        let added = check(&[0x7D, 0xB0 | code], &format!("W ADD.W Imm8={low_byte:02X} SP"));
        assert_eq!((added.operands, added.imm_wide), ([Imm8, SP, Nothing], number as u32));
        // For this name the number is the field as it is.
        assert_eq!(added.operand(0).and_then(|operand| operand.number), Some(i64::from(number as u32)));
        assert_eq!(added.parts(), Parts::default());
    }
    assert_eq!(accepted(&[0x7D, 0xB8]).imm_wide, 0xFFFF_FFF8);
    // A number that no code has.
    let nine = Instruction { imm_wide: 9, ..accepted(&[0x7D, 0xB8]) };
    assert_eq!(encoded(&nine), Err(Refusal::NoString));
}

#[test]
fn conditions_and_flags() {
    for (code, name, opcode) in
        [(0xDA, "BMGE", Opcode::BMGE), (0xDD, "BMNO", Opcode::BMNO), (0xDE, "BMLT", Opcode::BMLT)]
    {
        assert_eq!(check(&[0x7D, code], &format!("W {name}")).opcode, opcode);
    }
    for flag in 0..8 {
        let set = check(&[0xEB, flag << 4 | 4], &format!("- FSET Imm4={flag}"));
        let cleared = check(&[0xEB, flag << 4 | 5], &format!("- FCLR Imm4={flag}"));
        assert_eq!((set.opcode.common(), cleared.opcode.common()), (Some(Opcode::FSET), Some(Opcode::FCLR)));
        assert_eq!((set.operands, set.imm_wide), ([Imm4, Nothing, Nothing], flag.into()));
    }
}

#[test]
fn word_jumps() {
    let registers = [(R0, "R0"), (R1, "R1"), (R2, "R2"), (R3, "R3"), (A0, "A0"), (A1, "A1")];
    for (code, (spec, name)) in (0..).zip(registers) {
        let jump = check(&[0x7D, 0x20 | code], &format!("W JMPI.W {name}"));
        let call = check(&[0x7D, 0x30 | code], &format!("W JSRI.W {name}"));
        assert_eq!((jump.opcode, call.opcode), (ManualOpcode::JMPI_W, ManualOpcode::JSRI_W));
        assert_eq!((jump.operands[0], call.operands[0]), (spec, spec));
    }
    let far = check(&[0x7D, 0x2C, 0x11, 0x22, 0x03], "W JMPI.W Disp20_A0=32211");
    assert_eq!((far.operands[0], far.imm_wide), (Disp20_A0, 0x32211));
    // The others carry no size, and refuse as before.
    assert_eq!(check(&[0x7D, 0x00], "W JMPI R2R0").opcode, Opcode::JMPI);
    assert_eq!(check(&[0x7D, 0x14], "W JSRI A1A0").opcode, Opcode::JSRI);
    for code in [0x02, 0x03, 0x05, 0x12, 0x13, 0x15] {
        assert_eq!(refused(&[0x7D, code]), (3, 2));
    }
}

#[test]
fn other_marked_rows_stay() {
    for bytes in [[0x7C, 0xC0], [0xEB, 0x41]] {
        let instruction = accepted(&bytes);
        assert!(instruction.marked, "{bytes:X?}");
        assert_eq!(instruction, decode(&bytes, 0).expect("an instruction").to_manual());
    }
}

#[test]
fn refusals() {
    assert_eq!(refused(&[]), (1, 0));
    assert_eq!(refused(&[0x76]), (1, 1));
    assert_eq!(refused(&[0x04]), (4, 1));
    assert_eq!(refused(&[0x7E, 0xE0]), (2, 2));
    let image = [0x76, 0x90, 0x7D, 0x45];
    assert_eq!(decode_manual(&image, 2), Err(Refused { place: 2, refusal: Refusal::InvalidOperand, taken: 2 }));
    for past in [4, 5, usize::MAX] {
        let ended = Refused { place: past, refusal: Refusal::ExhaustedInput, taken: 0 };
        assert_eq!(decode_manual(&image, past), Err(ended));
    }
    assert_eq!(line_manual(&image, 2).err(), Some(Refusal::InvalidOperand));
    assert_eq!(line_manual(&image, 4).err(), Some(Refusal::ExhaustedInput));
    assert_eq!(line_manual(&[0x04], 0).err(), Some(Refusal::FirstByteOutside));
    assert_eq!(line_manual(&[0x7E, 0xE0], 0).err(), Some(Refusal::InvalidOpcode));
}

#[test]
fn encoding_refused() {
    const UNTOUCHED: [u8; 3] = [0xA1, 0xB2, 0xC3];
    let mut buffer = UNTOUCHED;
    // Blank, and one that only a marked row decodes to by either reading.
    for unsayable in [ManualInstruction::blank(), accepted(&[0x7C, 0xC0])] {
        assert_eq!(encode_manual(&unsayable, &mut buffer, 0), Err(Refusal::NoString));
    }
    let flag = accepted(&[0xEB, 0x64]);
    for place in [2, 3, 4, usize::MAX] {
        assert_eq!(encode_manual(&flag, &mut buffer, place), Err(Refusal::TooLittleRoom));
    }
    assert_eq!(encode_manual(&flag, &mut [], 0), Err(Refusal::TooLittleRoom));
    assert_eq!(buffer, UNTOUCHED);
    assert_eq!(encode_manual(&flag, &mut buffer, 1), Ok(2));
    assert_eq!(buffer, [0xA1, 0xEB, 0x64]);
}

/// The sweeps' types say their reading, and so do the instructions that they give.
#[test]
fn sweeps_say_their_reading() {
    const IMAGE: [u8; 8] = [0x76, 0x90, 0x7D, 0x22, 0x7D, 0x45, 0xEB, 0x64];
    let mut starts = [0; IMAGE.len()];
    let swept: ManualSweep = sweep_manual(&IMAGE, &mut starts).expect("a sweep");
    assert_eq!((swept.reading(), swept.starts, swept.place), (Reading::Manual, &[0, 2, 6][..], 8));
    // Both bytes at 4 are refused places.
    assert_eq!((swept.refused, swept.read, swept.stopped), (2, 2 + 2 + 2 + 1 + 2, None));
    let found: Vec<ManualInstruction> = swept.instructions().flatten().map(|placed| placed.instruction).collect();
    assert_eq!(found, [0, 2, 6].map(|at| decode_manual(&IMAGE, at).expect("an instruction")));
    assert_eq!(
        swept.to_string(),
        "\
0000 2 B DIVX.B R0L
0002 2 W JMPI.W R2
0004 REFUSED 3 TAKEN 2
0005 REFUSED 4 TAKEN 1
0006 2 - FSET Imm4=6
END 0008
"
    );
    let stopped: ManualSweep = sweep_manual_stopping(&IMAGE, &mut starts).expect("a sweep");
    assert_eq!((stopped.starts, stopped.place, stopped.refused, stopped.read), (&[0, 2][..], 4, 0, 6));
    assert_eq!(stopped.stopped, Some(Refused { place: 4, refusal: Refusal::InvalidOperand, taken: 2 }));
    assert_eq!(stopped.to_string(), "0000 2 B DIVX.B R0L\n0002 2 W JMPI.W R2\n0004 REFUSED 3 TAKEN 2\n");
    let by_document: Sweep = sweep(&IMAGE, &mut starts).expect("a sweep");
    assert_eq!(by_document.reading(), Reading::Document01);
    assert!(by_document.to_string().starts_with("0000 3 B DIVX.B Imm8=7D\n"));
}

#[test]
fn sweeping_refused() {
    const UNTOUCHED: [u16; 4097] = [0xDEAD; 4097];
    let image = [0xEB; 4097];
    let mut starts = UNTOUCHED;
    for sweep in [sweep_manual, sweep_manual_stopping] {
        assert_eq!(sweep(&image, &mut starts).err(), Some(Refusal::ImageTooLong));
        assert_eq!(sweep(&image, &mut []).err(), Some(Refusal::ImageTooLong));
        assert_eq!(sweep(&image[..9], &mut starts[..8]).err(), Some(Refusal::TooLittleRoom));
        assert_eq!(sweep(&image[..1], &mut []).err(), Some(Refusal::TooLittleRoom));
    }
    assert_eq!(starts, UNTOUCHED);
}

/// A record of one reading under the other: only where it is said, and then it may be another instruction.
#[test]
fn readings_are_mixed_by_name_only() {
    let bytes = [0x7D, 0xB9];
    let by_document = decode(&bytes, 0).expect("an instruction");
    assert_eq!((by_document.reading(), by_document.imm_wide, by_document.marked), (Reading::Document01, 1, true));
    assert_eq!(encode(&by_document, &mut [0; 2], 0), Err(Refusal::NoString));
    assert_eq!(encoded(&by_document.to_manual()), Ok(vec![0x7D, 0xB1]));
    let by_manual = accepted(&bytes);
    assert_eq!((by_manual.reading(), by_manual.imm_wide, by_manual.marked), (Reading::Manual, 0xFFFF_FFF9, false));
    assert_eq!(encoded(&by_manual), Ok(bytes.to_vec()));
    let back = by_manual.to_document01().expect("an opcode of document 01");
    assert_eq!(encode(&back, &mut [0; 2], 0), Err(Refusal::NoString));
    // Nothing but the type changes.
    assert_eq!(by_document.to_manual().to_document01(), Some(by_document));
    assert_eq!(accepted(&[0x7D, 0x22]).to_document01(), None);
}

#[test]
fn each_opcode_has_its_number() {
    for number in 0..200 {
        for size in [None, Some(Size::B), Some(Size::W), Some(Size::L)] {
            let opcode = ManualOpcode::from_number(number, size);
            let word_jump = [52, 55].contains(&number) && size == Some(Size::W);
            assert_eq!(opcode.and_then(ManualOpcode::common), Opcode::from_number(number, size));
            assert_eq!(opcode.is_some(), Opcode::from_number(number, size).is_some() || word_jump);
            if let Some(opcode) = opcode {
                assert_eq!((opcode.number(), opcode.size()), (number, size));
                let generic: (&str, _, _, _) = told(opcode);
                assert_eq!(generic, (opcode.name(), opcode.size(), opcode.number(), opcode.common()));
            }
        }
    }
    assert_eq!([ManualOpcode::JMPI_W, ManualOpcode::JSRI_W].map(ManualOpcode::name), ["JMPI", "JSRI"]);
}

fn told<O: AnyOpcode>(opcode: O) -> (&'static str, Option<Size>, u32, Option<Opcode>) {
    assert_eq!(O::from_number(opcode.number(), opcode.size()), Some(opcode));
    (opcode.name(), opcode.size(), opcode.number(), opcode.common())
}
