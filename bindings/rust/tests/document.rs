//! The lines that document 01 gives, and a case of every refusal.

use m16c::{decode, encode, line, sweep, sweep_stopping};
use m16c::{Instruction, Opcode, OperandSpec, Part, Parts, Refusal, Refused, Size, Width};

fn accepted(bytes: &[u8]) -> Instruction {
    decode(bytes, 0).unwrap_or_else(|refused| panic!("{bytes:X?}: {refused}"))
}

fn refused(bytes: &[u8]) -> (u32, usize) {
    let Refused { place, refusal, taken } = decode(bytes, 0).expect_err("a refusal");
    assert_eq!(place, 0);
    (refusal.number(), taken)
}

fn part(offset: u8, width: u8) -> Option<Part> {
    Some(Part { offset, width })
}

fn encoded(bytes: &[u8]) -> Vec<u8> {
    let mut buffer = [0; m16c::LONGEST_INSTRUCTION];
    let length = encode(&accepted(bytes), &mut buffer, 0).expect("an encoding");
    buffer[..length].to_vec()
}

#[test]
fn accepted_lines() {
    assert_eq!(
        accepted(&[0x74, 0x0F, 0x34, 0x12, 0x89, 0x67, 0xF5]),
        Instruction {
            opcode: Opcode::STE,
            width: Width::B,
            operands: [OperandSpec::Abs16, OperandSpec::Abs20, OperandSpec::Nothing],
            imm_wide: 0x56789,
            dispabs: 0x1234,
            first: 0,
            length: 7,
            marked: false,
            dropped: true,
            parts: Parts { first: None, dispabs: part(2, 2), imm_wide: part(4, 3) },
            registers: 0,
        }
    );
    let rotated = accepted(&[0x75, 0x63]);
    assert_eq!(rotated.opcode, Opcode::ROT(Size::W));
    assert_eq!(rotated.operands, [OperandSpec::R1H, OperandSpec::R3, OperandSpec::Nothing]);
    let multiplied = accepted(&[0x78, 0x89, 0x10, 0x20]);
    assert_eq!((multiplied.first, multiplied.dispabs), (0x10, 0x20));
    assert_eq!(accepted(&[0x7E, 0x20, 0x05, 0x06]).opcode, Opcode::BMGE);
    assert_eq!(accepted(&[0x7D, 0xA5]).imm_wide, 0xFFFF_FFFD);
}

#[test]
fn refused_lines() {
    assert_eq!(refused(&[]), (1, 0));
    assert_eq!(refused(&[0x04]), (4, 1));
    assert_eq!(refused(&[0x74, 0x0F, 0x34, 0x12, 0x89, 0x67]), (1, 6));
    assert_eq!(refused(&[0x74, 0x63]), (3, 2));
    assert_eq!(refused(&[0x78, 0x83]), (1, 2));
    assert_eq!(refused(&[0x78, 0x83, 0x10]), (3, 3));
    assert_eq!(refused(&[0x7B, 0x88]), (3, 2));
    assert_eq!(refused(&[0x7A, 0x88]), (1, 2));
    assert_eq!(refused(&[0x7E, 0x20, 0x05, 0x07]), (2, 4));
}

#[test]
fn dropped_bits() {
    let (kept, dropped) = ([0x74, 0x00, 0x61, 0xFE, 0x06], [0x74, 0x00, 0x61, 0xFE, 0x16]);
    assert_eq!(accepted(&dropped), Instruction { dropped: true, ..accepted(&kept) });
    assert!(!accepted(&kept).dropped);
    assert_eq!(encoded(&dropped), kept);
    // No other number has bits to drop.
    assert!(!accepted(&[0x77, 0x4C, 0xFF, 0xFF, 0xFF, 0xFF]).dropped);
    assert_eq!(line(&kept, 0).map(|line| line.to_string()), Ok("0000 5 B STE R0L Abs20=6FE61".to_string()));
    assert_eq!(line(&dropped, 0).map(|line| line.to_string()), Ok("0000 5 B STE R0L Abs20=6FE61 !".to_string()));
}

#[test]
fn encoded_lines() {
    assert_eq!(encoded(&[0x74, 0x5C, 0x00, 0x00]), [0x74, 0x56]);
    assert_eq!(encoded(&[0xEB, 0x0C, 0x00, 0x00]), [0xEB, 0x08, 0x00]);
    assert_eq!(encoded(&[0x74, 0x7E, 0xFF, 0x00]), [0x74, 0x7A, 0xFF]);
    assert_eq!(encoded(&[0x74, 0x7E, 0x00, 0x01]), [0x74, 0x7E, 0x00, 0x01]);
    assert_eq!(encoded(&[0x7D, 0x0C, 0x10, 0x00, 0x00]), [0x7D, 0x0C, 0x10, 0x00, 0x00]);
}

/// Request A3: signed where the name is Disp8_FB or Disp8, and nowhere else; the fields stay as they are.
#[test]
fn signed_numbers() {
    let numbers = |bytes: &[u8]| [0, 1, 2].map(|k| accepted(bytes).operand(k).and_then(|operand| operand.number));
    for (byte, number) in [(0x00, 0), (0x7F, 127), (0x80, -128), (0xF0, -16), (0xFF, -1)] {
        assert_eq!(numbers(&[0x74, 0x5B, byte]), [Some(number), None, None]); // NEG Disp8_FB
        assert_eq!(numbers(&[0x7D, 0xC8, byte]), [Some(number), None, None]); // JLE Disp8
        assert_eq!(numbers(&[0x7E, 0x8B, byte]), [Some(byte.into()), None, None]); // BCLR Bit_Disp8_FB
        assert_eq!(numbers(&[0x74, 0xB0, byte]), [Some(byte.into()), None, None]); // MOV.B Disp8_SP,R0L
        assert_eq!(accepted(&[0x74, 0x5B, byte]).dispabs, byte.into());
        assert_eq!(accepted(&[0x7D, 0xC8, byte]).imm_wide, byte.into());
    }
    assert_eq!(numbers(&[0x78, 0xBB, 0x80, 0x7F]), [Some(-128), Some(127), None]); // MUL Disp8_FB,Disp8_FB
    assert_eq!(numbers(&[0x7D, 0xA5]), [Some(0xFFFF_FFFD), None, None]); // LDIPL Imm8
    assert_eq!(numbers(&[0x75, 0x63]), [None; 3]); // ROT.W R1H,R3
    // The low byte counts, and sameness asks for all of the field.
    let wide = Instruction { dispabs: 0x01F0, ..accepted(&[0x74, 0x5B, 0xF0]) };
    assert_eq!(wide.operand(0).and_then(|operand| operand.number), Some(-16));
    assert_eq!(encode(&wide, &mut [0; m16c::LONGEST_INSTRUCTION], 0), Err(Refusal::NoString));
    assert_eq!(wide.operand(3), None);
}

/// Request A5: of each field that has one. Encoding does not ask for them.
#[test]
fn parts_of_numbers() {
    let parts = |bytes: &[u8]| {
        let Parts { first, dispabs, imm_wide } = accepted(bytes).parts();
        [first, dispabs, imm_wide]
    };
    assert_eq!(parts(&[0x78, 0x89, 0x10, 0x20]), [part(2, 1), part(3, 1), None]); // MUL Disp8_A0,Disp8_A1
    assert_eq!(parts(&[0x78, 0xF8, 0x34, 0x12, 0x20]), [part(2, 2), part(4, 1), None]); // MUL Abs16,Disp8_A0
    assert_eq!(parts(&[0x74, 0xBC, 0x34, 0x12, 0x20]), [part(2, 2), part(4, 1), None]); // MOV Disp8_SP,Disp16_A0
    assert_eq!(parts(&[0x77, 0x4C, 0x34, 0x12, 0xE8, 0x03]), [None, part(2, 2), part(4, 2)]); // ADD.W Imm16,Disp16_A0
    assert_eq!(parts(&[0x7D, 0xC8, 0x05]), [None, None, part(2, 1)]); // JLE Disp8
    assert_eq!(parts(&[0x7D, 0x0C, 0x10, 0x00, 0x00]), [None, None, part(2, 3)]); // JMPI Disp20_A0
    assert_eq!(parts(&[0x7E, 0x20, 0x05, 0x06]), [None, part(2, 1), None]); // BMGE Bit_R0: a condition is no number

    // Parts go by fields: this one is the source's displacement, and the line shows it at the other operand. The row is marked.
    let marked = [0x74, 0x38, 0x10];
    assert_eq!(parts(&marked), [None, part(2, 1), None]);
    assert_eq!(line(&marked, 0).map(|line| line.to_string()), Ok("0000 3 B MOV.B Disp8_A0=00 Disp8_SP=10".to_string()));

    // No number, or one in the code: NEG R0L, INT, SHL.L Imm4, LDIPL, ADD Imm8,SP.
    for bytes in [[0x74, 0x50], [0xEB, 0xC5], [0xEB, 0x8F], [0x7D, 0xA5], [0x7D, 0xB5]] {
        assert_eq!(accepted(&bytes).parts(), Parts::default());
    }
    assert_eq!(Instruction::default().parts(), Parts::default());
    assert_eq!(part(4, 3).map(Part::range), Some(4..7));

    let short = accepted(&[0x74, 0x5C, 0x00, 0x00]);
    for parts in [Parts::default(), Parts { first: part(9, 9), dispabs: part(0xFF, 0), imm_wide: part(2, 2) }] {
        let mut buffer = [0xA1; 3];
        assert_eq!(encode(&Instruction { parts, ..short }, &mut buffer, 1), Ok(2));
        assert_eq!(buffer, [0xA1, 0x74, 0x56]);
    }
}

#[test]
fn decoding_refused() {
    let image = [0xEB, 0xC5, 0x7E, 0xE0];
    let there = Refused { place: 2, refusal: Refusal::InvalidOpcode, taken: 2 };
    assert_eq!(decode(&image, 2), Err(there));
    assert_eq!(there.to_string(), "0002 REFUSED 2 TAKEN 2");
    for past in [4, 5, usize::MAX] {
        assert_eq!(decode(&image, past), Err(Refused { place: past, refusal: Refusal::ExhaustedInput, taken: 0 }));
    }
}

#[test]
fn encoding_refused() {
    const UNTOUCHED: [u8; 4] = [0xA1, 0xB2, 0xC3, 0xD4];
    let mut buffer = UNTOUCHED;
    // Blank, and one that only a marked row decodes to.
    for unsayable in [Instruction::default(), accepted(&[0x7D, 0xA5])] {
        assert_eq!(encode(&unsayable, &mut buffer, 0), Err(Refusal::NoString));
    }
    let jump = accepted(&[0x7D, 0xC8, 0x05]);
    for place in [2, 3, 4, 5, usize::MAX] {
        assert_eq!(encode(&jump, &mut buffer, place), Err(Refusal::TooLittleRoom));
    }
    assert_eq!(encode(&jump, &mut [], 0), Err(Refusal::TooLittleRoom));
    assert_eq!(buffer, UNTOUCHED);
    assert_eq!(encode(&jump, &mut buffer, 1), Ok(3));
    assert_eq!(buffer, [0xA1, 0x7D, 0xC8, 0x05]);
}

/// The fourteen bytes, by both rules: request A1's goes on behind the refusal.
#[test]
fn swept_bytes() {
    const IMAGE: [u8; 14] = [0x74, 0x0F, 0x34, 0x12, 0x89, 0x67, 0xF5, 0x7D, 0xC8, 0x05, 0xEB, 0xC5, 0x7E, 0xE0];
    const STOPPED: &str = "\
0000 7 B STE Abs16=1234 Abs20=56789 !
0007 3 W JLE Disp8=+05
000A 2 - INT Imm8=05
000C REFUSED 2 TAKEN 2
";
    let mut starts = [0; IMAGE.len()];
    let stopping = sweep_stopping(&IMAGE, &mut starts).expect("a sweep");
    assert_eq!((stopping.starts, stopping.place, stopping.refused), (&[0, 7, 10][..], 12, 0));
    assert_eq!(stopping.stopped, Some(Refused { place: 12, refusal: Refusal::InvalidOpcode, taken: 2 }));
    assert_eq!(stopping.to_string(), STOPPED);
    // Three instructions, and both bytes of the refusal.
    assert_eq!(stopping.read, 7 + 3 + 2 + 2);
    let going_on = sweep(&IMAGE, &mut starts).expect("a sweep");
    assert_eq!((going_on.starts, going_on.place, going_on.refused), (&[0, 7, 10][..], 14, 2));
    assert_eq!(going_on.stopped, None);
    assert_eq!(going_on.to_string(), format!("{STOPPED}000D REFUSED 4 TAKEN 1\nEND 000E\n"));
    // The last byte once more, as a place of its own.
    assert_eq!(going_on.read, 7 + 3 + 2 + 2 + 1);
}

/// Request A13: what all decodings took, the refused ones too.
#[test]
fn read_bytes() {
    const IMAGE: [u8; 6] = [0x74, 0x0C, 0x76, 0x7D, 0xEB, 0x00];
    // Nothing but refusals, most of which read to the image's end.
    let refusals = [0, 1, 2, 3, 4, 5].map(|at| refused(&IMAGE[at..]));
    assert_eq!(refusals, [(1, 6), (4, 1), (1, 4), (1, 3), (3, 2), (4, 1)]);
    let mut starts = [0; IMAGE.len()];
    assert_eq!(sweep(&IMAGE, &mut starts).expect("a sweep").read, 6 + 1 + 4 + 3 + 2 + 1);
    assert_eq!(sweep_stopping(&IMAGE, &mut starts).expect("a sweep").read, 6);
    for sweep in [sweep, sweep_stopping] {
        assert_eq!(sweep(&[], &mut starts).expect("a sweep").read, 0);
    }
}

#[test]
fn sweeping_refused() {
    const UNTOUCHED: [u16; 4097] = [0xDEAD; 4097];
    let image = [0xEB; 4097];
    let mut starts = UNTOUCHED;
    for sweep in [sweep, sweep_stopping] {
        assert_eq!(sweep(&image, &mut starts).err(), Some(Refusal::ImageTooLong));
        assert_eq!(sweep(&image, &mut []).err(), Some(Refusal::ImageTooLong));
        assert_eq!(sweep(&image[..9], &mut starts[..8]).err(), Some(Refusal::TooLittleRoom));
        assert_eq!(sweep(&image[..1], &mut []).err(), Some(Refusal::TooLittleRoom));
    }
    assert_eq!(starts, UNTOUCHED);
    assert_eq!(Refusal::ImageTooLong.to_string(), "REFUSED 7");
}

#[test]
fn lines_refused() {
    let image = [0xEB, 0xC5, 0x7E, 0xE0];
    assert_eq!(line(&image, 0).expect("a line").as_str(), "0000 2 - INT Imm8=05");
    assert_eq!(line(&image, 2).err(), Some(Refusal::InvalidOpcode));
    assert_eq!(line(&image, 4).err(), Some(Refusal::ExhaustedInput));
    assert_eq!(line(&[0x74, 0x63], 0).err(), Some(Refusal::InvalidOperand));
    assert_eq!(line(&[0x04], 0).err(), Some(Refusal::FirstByteOutside));
}
