
// The oracle: each of the nine decoders above on a fresh record, with a reader that counts; model.rs where request A7 has the first byte.
// `oracle/build` appends this file to the given text, because the decoders, the record's fields and `OperandSpec` are private to it.

// Refusal numbers.
pub const ACCEPTED: u8 = 0;
pub const EXHAUSTED_INPUT: u8 = 1;
pub const INVALID_OPCODE: u8 = 2;
pub const INVALID_OPERAND: u8 = 3;
pub const FIRST_BYTE_OUTSIDE: u8 = 4;

// A name's number is its place in these arrays, which follow the enums of the project's own record; `oracle/check-names` compares them.
pub const OPCODE_NAMES: &[&str] = &[
    "NOP", "ABS", "ADC", "ADCF", "ADD", "AND", "BAND", "BCLR", "BMEQ", "BMGEU", "BMGT", "BMGTU",
    "BMLE", "BMLEU", "BMLTU", "BMLT", "BMNO", "BMGE", "BMN", "BMNE", "BMO", "BMPZ", "BNAND",
    "BNOR", "BNOT", "BNTST", "BNXOR", "BOR", "BSET", "BTST", "BTSTC", "BTSTS", "BXOR", "CMP",
    "DADC", "DADD", "DIV", "DIVU", "DIVX", "DSBB", "DSUB", "ENTER", "EXITD", "EXTS", "FCLR",
    "FSET", "GE", "INT", "JGE", "JGT", "JLE", "JLT", "JMPI", "JNO", "JO", "JSRI", "LDC", "LDCTX",
    "LDE", "LDIPL", "LT", "MOV", "MOVA", "MOVHH", "MOVHL", "MOVLH", "MOVLL", "MUL", "MULU", "NEG",
    "NO", "NOT", "OR", "POP", "POPC", "POPM", "PUSH", "PUSHA", "PUSHC", "PUSHM", "RMPA", "ROLC",
    "RORC", "ROT", "SBB", "SHA", "SHL", "SMOVB", "SMOVF", "SSTR", "STC", "STCTX", "STE", "SUB",
    "TST", "WAIT", "XCHG", "XOR",
];

pub const SIZE_NAMES: &[&str] = &["None", "B", "W", "L"];

pub const OPERAND_NAMES: &[&str] = &[
    "Nothing", "Imm4", "Imm8", "Imm16", "R0L", "R0H", "R1L", "R1H", "R0", "R1", "R2", "R3",
    "R2R0", "R3R1", "A0", "A1", "A1A0", "Bit_R0", "Bit_R1", "Bit_R2", "Bit_R3", "Bit_A0",
    "Bit_A1", "Bit_Deref_A0", "Bit_Deref_A1", "Bit_Disp8_A0", "Bit_Disp8_A1", "Bit_Disp8_SB",
    "Bit_Disp8_FB", "Bit_Disp16_A0", "Bit_Disp16_A1", "Bit_Disp16_SB", "Bit_Abs16", "Disp8_A0",
    "Disp8_A1", "Disp8_SB", "Disp8_FB", "Disp8_SP", "Disp16_A0", "Disp16_A1", "Disp16_SB",
    "Disp20_A0", "Disp20_A1", "Deref_A0", "Deref_A1", "Deref_A1A0", "Abs16", "Abs20", "Disp8",
    "RegList", "INTBL", "INTBH", "FLG", "ISP", "SP", "SB", "FB",
];

/// What has to be answered for one string of bytes; all zeros behind `taken` where it is refused.
#[derive(Debug, Copy, Clone, PartialEq, Eq)]
pub struct Answer {
    pub refusal: u8,
    pub taken: usize,
    pub opcode: u8,
    pub size: u8,
    pub operands: [u8; 3],
    pub imm_wide: u32,
    pub dispabs: u16,
    /// The earlier of two displacements, by the model. The nine decoders do not keep it: 0 for their codes.
    pub first: u16,
    pub length: u8,
    /// How many registers a list names, by the model.
    pub registers: u8,
}

/// Decodes the instruction at the start of `bytes`: by the model where request A7 has the first byte, else by the nine decoders. A panic of
/// the given text comes through to the caller.
pub fn answer(bytes: &[u8]) -> Answer {
    match model::decoded(bytes) {
        Some(decoded) => decoded.answer,
        None => by_the_nine(bytes),
    }
}

fn by_the_nine(bytes: &[u8]) -> Answer {
    let mut reader = CountingReader { bytes, taken: 0 };
    let mut inst = fresh();
    match decode_counted(&mut inst, &mut reader) {
        Ok(()) => accepted(&inst, reader.taken),
        Err(refusal) => refused(refusal, reader.taken),
    }
}

fn accepted(inst: &Instruction, taken: usize) -> Answer {
    let (opcode, size) = opcode_and_size_numbers(inst.opcode);
    Answer {
        refusal: ACCEPTED,
        taken,
        opcode,
        size,
        operands: inst.operands.map(operand_number),
        imm_wide: inst.imm_wide,
        dispabs: inst.dispabs,
        first: 0,
        length: inst.length,
        registers: 0,
    }
}

fn refused(refusal: u8, taken: usize) -> Answer {
    Answer { refusal, taken, opcode: 0, size: 0, operands: [0; 3], imm_wide: 0, dispabs: 0, first: 0, length: 0, registers: 0 }
}

/// What the crate's own first-byte table makes of a string that begins with one of request A7's first bytes, in the project's record. The
/// crate counts no registers: 0.
pub fn by_the_table(bytes: &[u8]) -> Answer {
    let mut reader = CountingReader { bytes, taken: 0 };
    let mut inst = Instruction::default(); // the table counts the first byte itself
    match InstDecoder::default().decode_into(&mut inst, &mut reader) {
        Ok(()) => mapped(inst, reader.taken),
        Err(error) => refused(refusal_number(error), reader.taken),
    }
}

/// The one mapping from the crate's record to the project's, for codes of request A7. The crate has room for one displacement in `dispabs`,
/// operand 0's; it keeps operand 1's in `imm_wide`, under names that say so. And it turns the list of POPM round, which A7 does not.
fn mapped(mut inst: Instruction, taken: usize) -> Answer {
    let plain = plain_name(inst.operands[1]);
    inst.operands[1] = plain.unwrap_or(inst.operands[1]);
    let answer = accepted(&inst, taken);
    match (plain, inst.opcode) {
        (Some(_), _) => {
            assert!(inst.imm_wide <= 0xFFFF, "a displacement has two bytes at most");
            Answer { imm_wide: 0, dispabs: inst.imm_wide as u16, first: inst.dispabs, ..answer }
        }
        (None, Opcode::POPM) => Answer { imm_wide: u32::from((inst.imm_wide as u8).reverse_bits()), ..answer },
        _ => answer,
    }
}

/// The name of an operand whose displacement the crate keeps in `imm_wide`; none of any other.
fn plain_name(operand: OperandSpec) -> Option<OperandSpec> {
    Some(match operand {
        OperandSpec::Disp2_8_A0 => OperandSpec::Disp8_A0,
        OperandSpec::Disp2_8_A1 => OperandSpec::Disp8_A1,
        OperandSpec::Disp2_8_SB => OperandSpec::Disp8_SB,
        OperandSpec::Disp2_8_FB => OperandSpec::Disp8_FB,
        OperandSpec::Disp2_16_A0 => OperandSpec::Disp16_A0,
        OperandSpec::Disp2_16_A1 => OperandSpec::Disp16_A1,
        OperandSpec::Disp2_16_SB => OperandSpec::Disp16_SB,
        OperandSpec::Abs2_16 => OperandSpec::Abs16,
        _ => return None,
    })
}

// What a decoder is given to fill in: the first byte is counted by whoever chose the decoder by it.
fn fresh() -> Instruction {
    Instruction { length: 1, ..Instruction::default() }
}

// A read that fails finds every byte taken, so the count needs no special case there.
struct CountingReader<'a> {
    bytes: &'a [u8],
    taken: usize,
}

impl Reader<<M16C as Arch>::Address, <M16C as Arch>::Word> for CountingReader<'_> {
    fn next(&mut self) -> Result<u8, StandardDecodeError> {
        let byte = *self.bytes.get(self.taken).ok_or(StandardDecodeError::ExhaustedInput)?;
        self.taken += 1;
        Ok(byte)
    }
}

fn decode_counted(inst: &mut Instruction, words: &mut CountingReader) -> Result<(), u8> {
    let first = words.next().map_err(refusal_number)?;
    // The crate's own rule for the size. It matters to neither 7E nor EB: their decoders ignore it.
    let size = if first & 1 == 0 { Size::B } else { Size::W };
    let outcome = match first {
        0x74 | 0x75 => decode_op74(inst, size, words),
        0x76 | 0x77 => decode_op76(inst, size, words),
        0x78 | 0x79 => decode_op78(inst, size, words),
        0x7A => decode_op7A(inst, size, words),
        0x7B => decode_op7B(inst, size, words),
        0x7C => decode_op7C(inst, size, words),
        0x7D => decode_op7D(inst, size, words),
        0x7E => decode_op7E(inst, size, words),
        0xEB => decode_opEB(inst, size, words),
        _ => return Err(FIRST_BYTE_OUTSIDE),
    };
    outcome.map_err(refusal_number)
}

fn refusal_number(error: StandardDecodeError) -> u8 {
    match error {
        StandardDecodeError::ExhaustedInput => EXHAUSTED_INPUT,
        StandardDecodeError::InvalidOpcode => INVALID_OPCODE,
        StandardDecodeError::InvalidOperand => INVALID_OPERAND,
    }
}

// Runs while compiling only: a name that is missing from the array is a compile error.
const fn position(names: &[&str], wanted: &str) -> u8 {
    let mut place = 0;
    while !same_bytes(names[place].as_bytes(), wanted.as_bytes()) {
        place += 1;
    }
    place as u8
}

// `==` on slices cannot run while compiling.
const fn same_bytes(left: &[u8], right: &[u8]) -> bool {
    if left.len() != right.len() {
        return false;
    }
    let mut place = 0;
    while place < left.len() {
        if left[place] != right[place] {
            return false;
        }
        place += 1;
    }
    true
}

// The number of a variant, found by the variant's own name, so that no second table of numbers is kept.
macro_rules! number {
    ($variant:ident in $names:ident) => {
        const { position($names, stringify!($variant)) }
    };
}

// Names without a number belong to first bytes that are not decoded here. The bench takes that on trust (`--cfg trusted_names`):
// the port's record has no such names, so the Rust would be measured with a test that the port has no need of.
macro_rules! without_number {
    ($what:literal, $name:expr) => {
        if cfg!(trusted_names) {
            unsafe { core::hint::unreachable_unchecked() }
        } else {
            panic!("{} without a number: {:?}", $what, $name)
        }
    };
}

#[inline(always)]
fn opcode_and_size_numbers(opcode: Opcode) -> (u8, u8) {
    macro_rules! numbers {
        (without size: $($plain:ident)*; with size: $($sized:ident)*) => {
            match opcode {
                $(Opcode::$plain => (number!($plain in OPCODE_NAMES), number!(None in SIZE_NAMES)),)*
                $(Opcode::$sized(size) => (number!($sized in OPCODE_NAMES), size_number(size)),)*
                unnumbered => without_number!("opcode", unnumbered),
            }
        };
    }
    numbers! {
        without size:
            NOP ABS BAND BCLR BMEQ BMGEU BMGT BMGTU BMLE BMLEU BMLTU BMLT BMNO BMGE BMN BMNE BMO
            BMPZ BNAND BNOR BNOT BNTST BNXOR BOR BSET BTST BTSTC BTSTS BXOR DADC DADD DSBB DSUB
            ENTER EXITD EXTS GE INT JGE JGT JLE JLT JMPI JNO JO JSRI LDC LDCTX LDE LDIPL LT MOVA
            MOVHH MOVHL MOVLH MOVLL MUL NEG NO POP POPC POPM PUSHA PUSHC PUSHM ROLC RORC STC STCTX
            STE WAIT;
        with size:
            ADC ADCF ADD AND CMP DIV DIVU DIVX MOV MULU NOT OR PUSH RMPA ROT SBB SHA SHL SMOVB
            SMOVF SSTR SUB TST XCHG XOR
    }
}

fn size_number(size: Size) -> u8 {
    match size {
        Size::B => number!(B in SIZE_NAMES),
        Size::W => number!(W in SIZE_NAMES),
        Size::L => number!(L in SIZE_NAMES),
        unnumbered => without_number!("size", unnumbered),
    }
}

#[inline(always)]
fn operand_number(operand: OperandSpec) -> u8 {
    macro_rules! numbers {
        ($($name:ident)*) => {
            match operand {
                $(OperandSpec::$name => number!($name in OPERAND_NAMES),)*
                unnumbered => without_number!("operand", unnumbered),
            }
        };
    }
    numbers! {
        Nothing Imm4 Imm8 Imm16 R0L R0H R1L R1H R0 R1 R2 R3 R2R0 R3R1 A0 A1 A1A0
        Bit_R0 Bit_R1 Bit_R2 Bit_R3 Bit_A0 Bit_A1 Bit_Deref_A0 Bit_Deref_A1
        Bit_Disp8_A0 Bit_Disp8_A1 Bit_Disp8_SB Bit_Disp8_FB
        Bit_Disp16_A0 Bit_Disp16_A1 Bit_Disp16_SB Bit_Abs16
        Disp8_A0 Disp8_A1 Disp8_SB Disp8_FB Disp8_SP Disp16_A0 Disp16_A1 Disp16_SB
        Disp20_A0 Disp20_A1 Deref_A0 Deref_A1 Deref_A1A0 Abs16 Abs20 Disp8 RegList
        INTBL INTBH FLG ISP SP SB FB
    }
}
