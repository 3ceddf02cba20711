// The names that instructions are made of, and their numbers in the library.
// Made by scripts/interface from crates/record and oracle/driver.rs: change those, not this.

/// Opcodes, spelled as in yaxpeax-m16c; those that carry a size there carry it here.
#[allow(non_camel_case_types, clippy::upper_case_acronyms)]
#[derive(Debug, Clone, Copy, PartialEq, Eq, Hash)]
pub enum Opcode {
    NOP,
    ABS,
    ADC(Size),
    ADCF(Size),
    ADD(Size),
    AND(Size),
    BAND,
    BCLR,
    BMEQ,
    BMGEU,
    BMGT,
    BMGTU,
    BMLE,
    BMLEU,
    BMLTU,
    BMLT,
    BMNO,
    BMGE,
    BMN,
    BMNE,
    BMO,
    BMPZ,
    BNAND,
    BNOR,
    BNOT,
    BNTST,
    BNXOR,
    BOR,
    BSET,
    BTST,
    BTSTC,
    BTSTS,
    BXOR,
    CMP(Size),
    DADC,
    DADD,
    DIV(Size),
    DIVU(Size),
    DIVX(Size),
    DSBB,
    DSUB,
    ENTER,
    EXITD,
    EXTS,
    FCLR,
    FSET,
    GE,
    INT,
    JGE,
    JGT,
    JLE,
    JLT,
    JMPI,
    JNO,
    JO,
    JSRI,
    LDC,
    LDCTX,
    LDE,
    LDIPL,
    LT,
    MOV(Size),
    MOVA,
    MOVHH,
    MOVHL,
    MOVLH,
    MOVLL,
    MUL,
    MULU(Size),
    NEG,
    NO,
    NOT(Size),
    OR(Size),
    POP,
    POPC,
    POPM,
    PUSH(Size),
    PUSHA,
    PUSHC,
    PUSHM,
    RMPA(Size),
    ROLC,
    RORC,
    ROT(Size),
    SBB(Size),
    SHA(Size),
    SHL(Size),
    SMOVB(Size),
    SMOVF(Size),
    SSTR(Size),
    STC,
    STCTX,
    STE,
    SUB(Size),
    TST(Size),
    WAIT,
    XCHG(Size),
    XOR(Size),
}

impl Opcode {
    /// The name as it is spelled here, without the size.
    pub const fn name(self) -> &'static str {
        match self {
            Opcode::NOP => "NOP",
            Opcode::ABS => "ABS",
            Opcode::ADC(_) => "ADC",
            Opcode::ADCF(_) => "ADCF",
            Opcode::ADD(_) => "ADD",
            Opcode::AND(_) => "AND",
            Opcode::BAND => "BAND",
            Opcode::BCLR => "BCLR",
            Opcode::BMEQ => "BMEQ",
            Opcode::BMGEU => "BMGEU",
            Opcode::BMGT => "BMGT",
            Opcode::BMGTU => "BMGTU",
            Opcode::BMLE => "BMLE",
            Opcode::BMLEU => "BMLEU",
            Opcode::BMLTU => "BMLTU",
            Opcode::BMLT => "BMLT",
            Opcode::BMNO => "BMNO",
            Opcode::BMGE => "BMGE",
            Opcode::BMN => "BMN",
            Opcode::BMNE => "BMNE",
            Opcode::BMO => "BMO",
            Opcode::BMPZ => "BMPZ",
            Opcode::BNAND => "BNAND",
            Opcode::BNOR => "BNOR",
            Opcode::BNOT => "BNOT",
            Opcode::BNTST => "BNTST",
            Opcode::BNXOR => "BNXOR",
            Opcode::BOR => "BOR",
            Opcode::BSET => "BSET",
            Opcode::BTST => "BTST",
            Opcode::BTSTC => "BTSTC",
            Opcode::BTSTS => "BTSTS",
            Opcode::BXOR => "BXOR",
            Opcode::CMP(_) => "CMP",
            Opcode::DADC => "DADC",
            Opcode::DADD => "DADD",
            Opcode::DIV(_) => "DIV",
            Opcode::DIVU(_) => "DIVU",
            Opcode::DIVX(_) => "DIVX",
            Opcode::DSBB => "DSBB",
            Opcode::DSUB => "DSUB",
            Opcode::ENTER => "ENTER",
            Opcode::EXITD => "EXITD",
            Opcode::EXTS => "EXTS",
            Opcode::FCLR => "FCLR",
            Opcode::FSET => "FSET",
            Opcode::GE => "GE",
            Opcode::INT => "INT",
            Opcode::JGE => "JGE",
            Opcode::JGT => "JGT",
            Opcode::JLE => "JLE",
            Opcode::JLT => "JLT",
            Opcode::JMPI => "JMPI",
            Opcode::JNO => "JNO",
            Opcode::JO => "JO",
            Opcode::JSRI => "JSRI",
            Opcode::LDC => "LDC",
            Opcode::LDCTX => "LDCTX",
            Opcode::LDE => "LDE",
            Opcode::LDIPL => "LDIPL",
            Opcode::LT => "LT",
            Opcode::MOV(_) => "MOV",
            Opcode::MOVA => "MOVA",
            Opcode::MOVHH => "MOVHH",
            Opcode::MOVHL => "MOVHL",
            Opcode::MOVLH => "MOVLH",
            Opcode::MOVLL => "MOVLL",
            Opcode::MUL => "MUL",
            Opcode::MULU(_) => "MULU",
            Opcode::NEG => "NEG",
            Opcode::NO => "NO",
            Opcode::NOT(_) => "NOT",
            Opcode::OR(_) => "OR",
            Opcode::POP => "POP",
            Opcode::POPC => "POPC",
            Opcode::POPM => "POPM",
            Opcode::PUSH(_) => "PUSH",
            Opcode::PUSHA => "PUSHA",
            Opcode::PUSHC => "PUSHC",
            Opcode::PUSHM => "PUSHM",
            Opcode::RMPA(_) => "RMPA",
            Opcode::ROLC => "ROLC",
            Opcode::RORC => "RORC",
            Opcode::ROT(_) => "ROT",
            Opcode::SBB(_) => "SBB",
            Opcode::SHA(_) => "SHA",
            Opcode::SHL(_) => "SHL",
            Opcode::SMOVB(_) => "SMOVB",
            Opcode::SMOVF(_) => "SMOVF",
            Opcode::SSTR(_) => "SSTR",
            Opcode::STC => "STC",
            Opcode::STCTX => "STCTX",
            Opcode::STE => "STE",
            Opcode::SUB(_) => "SUB",
            Opcode::TST(_) => "TST",
            Opcode::WAIT => "WAIT",
            Opcode::XCHG(_) => "XCHG",
            Opcode::XOR(_) => "XOR",
        }
    }

    /// The size that the opcode carries.
    pub const fn size(self) -> Option<Size> {
        match self {
            Opcode::ADC(size)
            | Opcode::ADCF(size)
            | Opcode::ADD(size)
            | Opcode::AND(size)
            | Opcode::CMP(size)
            | Opcode::DIV(size)
            | Opcode::DIVU(size)
            | Opcode::DIVX(size)
            | Opcode::MOV(size)
            | Opcode::MULU(size)
            | Opcode::NOT(size)
            | Opcode::OR(size)
            | Opcode::PUSH(size)
            | Opcode::RMPA(size)
            | Opcode::ROT(size)
            | Opcode::SBB(size)
            | Opcode::SHA(size)
            | Opcode::SHL(size)
            | Opcode::SMOVB(size)
            | Opcode::SMOVF(size)
            | Opcode::SSTR(size)
            | Opcode::SUB(size)
            | Opcode::TST(size)
            | Opcode::XCHG(size)
            | Opcode::XOR(size) => Some(size),
            _ => None,
        }
    }

    /// Its number in the library.
    pub const fn number(self) -> u32 {
        match self {
            Opcode::NOP => 0,
            Opcode::ABS => 1,
            Opcode::ADC(_) => 2,
            Opcode::ADCF(_) => 3,
            Opcode::ADD(_) => 4,
            Opcode::AND(_) => 5,
            Opcode::BAND => 6,
            Opcode::BCLR => 7,
            Opcode::BMEQ => 8,
            Opcode::BMGEU => 9,
            Opcode::BMGT => 10,
            Opcode::BMGTU => 11,
            Opcode::BMLE => 12,
            Opcode::BMLEU => 13,
            Opcode::BMLTU => 14,
            Opcode::BMLT => 15,
            Opcode::BMNO => 16,
            Opcode::BMGE => 17,
            Opcode::BMN => 18,
            Opcode::BMNE => 19,
            Opcode::BMO => 20,
            Opcode::BMPZ => 21,
            Opcode::BNAND => 22,
            Opcode::BNOR => 23,
            Opcode::BNOT => 24,
            Opcode::BNTST => 25,
            Opcode::BNXOR => 26,
            Opcode::BOR => 27,
            Opcode::BSET => 28,
            Opcode::BTST => 29,
            Opcode::BTSTC => 30,
            Opcode::BTSTS => 31,
            Opcode::BXOR => 32,
            Opcode::CMP(_) => 33,
            Opcode::DADC => 34,
            Opcode::DADD => 35,
            Opcode::DIV(_) => 36,
            Opcode::DIVU(_) => 37,
            Opcode::DIVX(_) => 38,
            Opcode::DSBB => 39,
            Opcode::DSUB => 40,
            Opcode::ENTER => 41,
            Opcode::EXITD => 42,
            Opcode::EXTS => 43,
            Opcode::FCLR => 44,
            Opcode::FSET => 45,
            Opcode::GE => 46,
            Opcode::INT => 47,
            Opcode::JGE => 48,
            Opcode::JGT => 49,
            Opcode::JLE => 50,
            Opcode::JLT => 51,
            Opcode::JMPI => 52,
            Opcode::JNO => 53,
            Opcode::JO => 54,
            Opcode::JSRI => 55,
            Opcode::LDC => 56,
            Opcode::LDCTX => 57,
            Opcode::LDE => 58,
            Opcode::LDIPL => 59,
            Opcode::LT => 60,
            Opcode::MOV(_) => 61,
            Opcode::MOVA => 62,
            Opcode::MOVHH => 63,
            Opcode::MOVHL => 64,
            Opcode::MOVLH => 65,
            Opcode::MOVLL => 66,
            Opcode::MUL => 67,
            Opcode::MULU(_) => 68,
            Opcode::NEG => 69,
            Opcode::NO => 70,
            Opcode::NOT(_) => 71,
            Opcode::OR(_) => 72,
            Opcode::POP => 73,
            Opcode::POPC => 74,
            Opcode::POPM => 75,
            Opcode::PUSH(_) => 76,
            Opcode::PUSHA => 77,
            Opcode::PUSHC => 78,
            Opcode::PUSHM => 79,
            Opcode::RMPA(_) => 80,
            Opcode::ROLC => 81,
            Opcode::RORC => 82,
            Opcode::ROT(_) => 83,
            Opcode::SBB(_) => 84,
            Opcode::SHA(_) => 85,
            Opcode::SHL(_) => 86,
            Opcode::SMOVB(_) => 87,
            Opcode::SMOVF(_) => 88,
            Opcode::SSTR(_) => 89,
            Opcode::STC => 90,
            Opcode::STCTX => 91,
            Opcode::STE => 92,
            Opcode::SUB(_) => 93,
            Opcode::TST(_) => 94,
            Opcode::WAIT => 95,
            Opcode::XCHG(_) => 96,
            Opcode::XOR(_) => 97,
        }
    }

    /// What has a number in the library, with the size that it carries; none if nothing has.
    pub const fn from_number(number: u32, size: Option<Size>) -> Option<Self> {
        Some(match (number, size) {
            (0, None) => Opcode::NOP,
            (1, None) => Opcode::ABS,
            (2, Some(size)) => Opcode::ADC(size),
            (3, Some(size)) => Opcode::ADCF(size),
            (4, Some(size)) => Opcode::ADD(size),
            (5, Some(size)) => Opcode::AND(size),
            (6, None) => Opcode::BAND,
            (7, None) => Opcode::BCLR,
            (8, None) => Opcode::BMEQ,
            (9, None) => Opcode::BMGEU,
            (10, None) => Opcode::BMGT,
            (11, None) => Opcode::BMGTU,
            (12, None) => Opcode::BMLE,
            (13, None) => Opcode::BMLEU,
            (14, None) => Opcode::BMLTU,
            (15, None) => Opcode::BMLT,
            (16, None) => Opcode::BMNO,
            (17, None) => Opcode::BMGE,
            (18, None) => Opcode::BMN,
            (19, None) => Opcode::BMNE,
            (20, None) => Opcode::BMO,
            (21, None) => Opcode::BMPZ,
            (22, None) => Opcode::BNAND,
            (23, None) => Opcode::BNOR,
            (24, None) => Opcode::BNOT,
            (25, None) => Opcode::BNTST,
            (26, None) => Opcode::BNXOR,
            (27, None) => Opcode::BOR,
            (28, None) => Opcode::BSET,
            (29, None) => Opcode::BTST,
            (30, None) => Opcode::BTSTC,
            (31, None) => Opcode::BTSTS,
            (32, None) => Opcode::BXOR,
            (33, Some(size)) => Opcode::CMP(size),
            (34, None) => Opcode::DADC,
            (35, None) => Opcode::DADD,
            (36, Some(size)) => Opcode::DIV(size),
            (37, Some(size)) => Opcode::DIVU(size),
            (38, Some(size)) => Opcode::DIVX(size),
            (39, None) => Opcode::DSBB,
            (40, None) => Opcode::DSUB,
            (41, None) => Opcode::ENTER,
            (42, None) => Opcode::EXITD,
            (43, None) => Opcode::EXTS,
            (44, None) => Opcode::FCLR,
            (45, None) => Opcode::FSET,
            (46, None) => Opcode::GE,
            (47, None) => Opcode::INT,
            (48, None) => Opcode::JGE,
            (49, None) => Opcode::JGT,
            (50, None) => Opcode::JLE,
            (51, None) => Opcode::JLT,
            (52, None) => Opcode::JMPI,
            (53, None) => Opcode::JNO,
            (54, None) => Opcode::JO,
            (55, None) => Opcode::JSRI,
            (56, None) => Opcode::LDC,
            (57, None) => Opcode::LDCTX,
            (58, None) => Opcode::LDE,
            (59, None) => Opcode::LDIPL,
            (60, None) => Opcode::LT,
            (61, Some(size)) => Opcode::MOV(size),
            (62, None) => Opcode::MOVA,
            (63, None) => Opcode::MOVHH,
            (64, None) => Opcode::MOVHL,
            (65, None) => Opcode::MOVLH,
            (66, None) => Opcode::MOVLL,
            (67, None) => Opcode::MUL,
            (68, Some(size)) => Opcode::MULU(size),
            (69, None) => Opcode::NEG,
            (70, None) => Opcode::NO,
            (71, Some(size)) => Opcode::NOT(size),
            (72, Some(size)) => Opcode::OR(size),
            (73, None) => Opcode::POP,
            (74, None) => Opcode::POPC,
            (75, None) => Opcode::POPM,
            (76, Some(size)) => Opcode::PUSH(size),
            (77, None) => Opcode::PUSHA,
            (78, None) => Opcode::PUSHC,
            (79, None) => Opcode::PUSHM,
            (80, Some(size)) => Opcode::RMPA(size),
            (81, None) => Opcode::ROLC,
            (82, None) => Opcode::RORC,
            (83, Some(size)) => Opcode::ROT(size),
            (84, Some(size)) => Opcode::SBB(size),
            (85, Some(size)) => Opcode::SHA(size),
            (86, Some(size)) => Opcode::SHL(size),
            (87, Some(size)) => Opcode::SMOVB(size),
            (88, Some(size)) => Opcode::SMOVF(size),
            (89, Some(size)) => Opcode::SSTR(size),
            (90, None) => Opcode::STC,
            (91, None) => Opcode::STCTX,
            (92, None) => Opcode::STE,
            (93, Some(size)) => Opcode::SUB(size),
            (94, Some(size)) => Opcode::TST(size),
            (95, None) => Opcode::WAIT,
            (96, Some(size)) => Opcode::XCHG(size),
            (97, Some(size)) => Opcode::XOR(size),
            _ => return None,
        })
    }
}

/// The size that an opcode carries.
#[allow(non_camel_case_types, clippy::upper_case_acronyms)]
#[derive(Debug, Clone, Copy, PartialEq, Eq, Hash)]
pub enum Size {
    B = 1,
    W = 2,
    L = 3,
}

impl Size {
    /// The name as it is spelled here.
    pub const fn name(self) -> &'static str {
        match self {
            Size::B => "B",
            Size::W => "W",
            Size::L => "L",
        }
    }

    /// Its number in the library.
    pub const fn number(self) -> u32 {
        self as u32
    }

    /// What has a number in the library; none if nothing has.
    pub const fn from_number(number: u32) -> Option<Self> {
        Some(match number {
            1 => Size::B,
            2 => Size::W,
            3 => Size::L,
            _ => return None,
        })
    }
}

/// The width that decoding starts with, by the first byte.
#[allow(non_camel_case_types, clippy::upper_case_acronyms)]
#[derive(Debug, Clone, Copy, PartialEq, Eq, Hash)]
pub enum Width {
    None = 0,
    B = 1,
    W = 2,
}

impl Width {
    /// The name as it is spelled here.
    pub const fn name(self) -> &'static str {
        match self {
            Width::None => "None",
            Width::B => "B",
            Width::W => "W",
        }
    }

    /// Its number in the library.
    pub const fn number(self) -> u32 {
        self as u32
    }

    /// What has a number in the library; none if nothing has.
    pub const fn from_number(number: u32) -> Option<Self> {
        Some(match number {
            0 => Width::None,
            1 => Width::B,
            2 => Width::W,
            _ => return None,
        })
    }
}

/// The forms of operands, spelled as in yaxpeax-m16c.
#[allow(non_camel_case_types, clippy::upper_case_acronyms)]
#[derive(Debug, Clone, Copy, PartialEq, Eq, Hash)]
pub enum OperandSpec {
    Nothing = 0,
    Imm4 = 1,
    Imm8 = 2,
    Imm16 = 3,
    R0L = 4,
    R0H = 5,
    R1L = 6,
    R1H = 7,
    R0 = 8,
    R1 = 9,
    R2 = 10,
    R3 = 11,
    R2R0 = 12,
    R3R1 = 13,
    A0 = 14,
    A1 = 15,
    A1A0 = 16,
    Bit_R0 = 17,
    Bit_R1 = 18,
    Bit_R2 = 19,
    Bit_R3 = 20,
    Bit_A0 = 21,
    Bit_A1 = 22,
    Bit_Deref_A0 = 23,
    Bit_Deref_A1 = 24,
    Bit_Disp8_A0 = 25,
    Bit_Disp8_A1 = 26,
    Bit_Disp8_SB = 27,
    Bit_Disp8_FB = 28,
    Bit_Disp16_A0 = 29,
    Bit_Disp16_A1 = 30,
    Bit_Disp16_SB = 31,
    Bit_Abs16 = 32,
    Disp8_A0 = 33,
    Disp8_A1 = 34,
    Disp8_SB = 35,
    Disp8_FB = 36,
    Disp8_SP = 37,
    Disp16_A0 = 38,
    Disp16_A1 = 39,
    Disp16_SB = 40,
    Disp20_A0 = 41,
    Disp20_A1 = 42,
    Deref_A0 = 43,
    Deref_A1 = 44,
    Deref_A1A0 = 45,
    Abs16 = 46,
    Abs20 = 47,
    Disp8 = 48,
    RegList = 49,
    INTBL = 50,
    INTBH = 51,
    FLG = 52,
    ISP = 53,
    SP = 54,
    SB = 55,
    FB = 56,
}

impl OperandSpec {
    /// The name as it is spelled here.
    pub const fn name(self) -> &'static str {
        match self {
            OperandSpec::Nothing => "Nothing",
            OperandSpec::Imm4 => "Imm4",
            OperandSpec::Imm8 => "Imm8",
            OperandSpec::Imm16 => "Imm16",
            OperandSpec::R0L => "R0L",
            OperandSpec::R0H => "R0H",
            OperandSpec::R1L => "R1L",
            OperandSpec::R1H => "R1H",
            OperandSpec::R0 => "R0",
            OperandSpec::R1 => "R1",
            OperandSpec::R2 => "R2",
            OperandSpec::R3 => "R3",
            OperandSpec::R2R0 => "R2R0",
            OperandSpec::R3R1 => "R3R1",
            OperandSpec::A0 => "A0",
            OperandSpec::A1 => "A1",
            OperandSpec::A1A0 => "A1A0",
            OperandSpec::Bit_R0 => "Bit_R0",
            OperandSpec::Bit_R1 => "Bit_R1",
            OperandSpec::Bit_R2 => "Bit_R2",
            OperandSpec::Bit_R3 => "Bit_R3",
            OperandSpec::Bit_A0 => "Bit_A0",
            OperandSpec::Bit_A1 => "Bit_A1",
            OperandSpec::Bit_Deref_A0 => "Bit_Deref_A0",
            OperandSpec::Bit_Deref_A1 => "Bit_Deref_A1",
            OperandSpec::Bit_Disp8_A0 => "Bit_Disp8_A0",
            OperandSpec::Bit_Disp8_A1 => "Bit_Disp8_A1",
            OperandSpec::Bit_Disp8_SB => "Bit_Disp8_SB",
            OperandSpec::Bit_Disp8_FB => "Bit_Disp8_FB",
            OperandSpec::Bit_Disp16_A0 => "Bit_Disp16_A0",
            OperandSpec::Bit_Disp16_A1 => "Bit_Disp16_A1",
            OperandSpec::Bit_Disp16_SB => "Bit_Disp16_SB",
            OperandSpec::Bit_Abs16 => "Bit_Abs16",
            OperandSpec::Disp8_A0 => "Disp8_A0",
            OperandSpec::Disp8_A1 => "Disp8_A1",
            OperandSpec::Disp8_SB => "Disp8_SB",
            OperandSpec::Disp8_FB => "Disp8_FB",
            OperandSpec::Disp8_SP => "Disp8_SP",
            OperandSpec::Disp16_A0 => "Disp16_A0",
            OperandSpec::Disp16_A1 => "Disp16_A1",
            OperandSpec::Disp16_SB => "Disp16_SB",
            OperandSpec::Disp20_A0 => "Disp20_A0",
            OperandSpec::Disp20_A1 => "Disp20_A1",
            OperandSpec::Deref_A0 => "Deref_A0",
            OperandSpec::Deref_A1 => "Deref_A1",
            OperandSpec::Deref_A1A0 => "Deref_A1A0",
            OperandSpec::Abs16 => "Abs16",
            OperandSpec::Abs20 => "Abs20",
            OperandSpec::Disp8 => "Disp8",
            OperandSpec::RegList => "RegList",
            OperandSpec::INTBL => "INTBL",
            OperandSpec::INTBH => "INTBH",
            OperandSpec::FLG => "FLG",
            OperandSpec::ISP => "ISP",
            OperandSpec::SP => "SP",
            OperandSpec::SB => "SB",
            OperandSpec::FB => "FB",
        }
    }

    /// Its number in the library.
    pub const fn number(self) -> u32 {
        self as u32
    }

    /// What has a number in the library; none if nothing has.
    pub const fn from_number(number: u32) -> Option<Self> {
        Some(match number {
            0 => OperandSpec::Nothing,
            1 => OperandSpec::Imm4,
            2 => OperandSpec::Imm8,
            3 => OperandSpec::Imm16,
            4 => OperandSpec::R0L,
            5 => OperandSpec::R0H,
            6 => OperandSpec::R1L,
            7 => OperandSpec::R1H,
            8 => OperandSpec::R0,
            9 => OperandSpec::R1,
            10 => OperandSpec::R2,
            11 => OperandSpec::R3,
            12 => OperandSpec::R2R0,
            13 => OperandSpec::R3R1,
            14 => OperandSpec::A0,
            15 => OperandSpec::A1,
            16 => OperandSpec::A1A0,
            17 => OperandSpec::Bit_R0,
            18 => OperandSpec::Bit_R1,
            19 => OperandSpec::Bit_R2,
            20 => OperandSpec::Bit_R3,
            21 => OperandSpec::Bit_A0,
            22 => OperandSpec::Bit_A1,
            23 => OperandSpec::Bit_Deref_A0,
            24 => OperandSpec::Bit_Deref_A1,
            25 => OperandSpec::Bit_Disp8_A0,
            26 => OperandSpec::Bit_Disp8_A1,
            27 => OperandSpec::Bit_Disp8_SB,
            28 => OperandSpec::Bit_Disp8_FB,
            29 => OperandSpec::Bit_Disp16_A0,
            30 => OperandSpec::Bit_Disp16_A1,
            31 => OperandSpec::Bit_Disp16_SB,
            32 => OperandSpec::Bit_Abs16,
            33 => OperandSpec::Disp8_A0,
            34 => OperandSpec::Disp8_A1,
            35 => OperandSpec::Disp8_SB,
            36 => OperandSpec::Disp8_FB,
            37 => OperandSpec::Disp8_SP,
            38 => OperandSpec::Disp16_A0,
            39 => OperandSpec::Disp16_A1,
            40 => OperandSpec::Disp16_SB,
            41 => OperandSpec::Disp20_A0,
            42 => OperandSpec::Disp20_A1,
            43 => OperandSpec::Deref_A0,
            44 => OperandSpec::Deref_A1,
            45 => OperandSpec::Deref_A1A0,
            46 => OperandSpec::Abs16,
            47 => OperandSpec::Abs20,
            48 => OperandSpec::Disp8,
            49 => OperandSpec::RegList,
            50 => OperandSpec::INTBL,
            51 => OperandSpec::INTBH,
            52 => OperandSpec::FLG,
            53 => OperandSpec::ISP,
            54 => OperandSpec::SP,
            55 => OperandSpec::SB,
            56 => OperandSpec::FB,
            _ => return None,
        })
    }
}

/// Why something was refused, numbered as in document 01.
#[allow(non_camel_case_types, clippy::upper_case_acronyms)]
#[derive(Debug, Clone, Copy, PartialEq, Eq, Hash)]
pub enum Refusal {
    /// Decoding: the image ends inside the instruction; asked for a length: there are fewer than two bytes.
    ExhaustedInput = 1,
    /// Decoding: no instruction has this code or this condition byte.
    InvalidOpcode = 2,
    /// Decoding: the instruction does not take this operand.
    InvalidOperand = 3,
    /// Decoding: not one of the 34 first bytes that are decoded here.
    FirstByteOutside = 4,
    /// Encoding: no bytes decode to this instruction, but for those of marked rows; asked for a number: there is none.
    NoString = 5,
    /// What was passed in for the result is too short.
    TooLittleRoom = 6,
    /// Sweeping: the image is longer than 4,096 bytes.
    ImageTooLong = 7,
}

impl Refusal {
    /// The name as it is spelled here.
    pub const fn name(self) -> &'static str {
        match self {
            Refusal::ExhaustedInput => "ExhaustedInput",
            Refusal::InvalidOpcode => "InvalidOpcode",
            Refusal::InvalidOperand => "InvalidOperand",
            Refusal::FirstByteOutside => "FirstByteOutside",
            Refusal::NoString => "NoString",
            Refusal::TooLittleRoom => "TooLittleRoom",
            Refusal::ImageTooLong => "ImageTooLong",
        }
    }

    /// Its number in the library.
    pub const fn number(self) -> u32 {
        self as u32
    }

    /// What has a number in the library; none if nothing has.
    pub const fn from_number(number: u32) -> Option<Self> {
        Some(match number {
            1 => Refusal::ExhaustedInput,
            2 => Refusal::InvalidOpcode,
            3 => Refusal::InvalidOperand,
            4 => Refusal::FirstByteOutside,
            5 => Refusal::NoString,
            6 => Refusal::TooLittleRoom,
            7 => Refusal::ImageTooLong,
            _ => return None,
        })
    }
}

/// The numbers of a record, by their index.
pub(crate) mod index {
    pub const TAKEN: usize = 0;
    pub const OPCODE: usize = 1;
    pub const SIZE: usize = 2;
    pub const WIDTH: usize = 3;
    pub const OP0: usize = 4;
    pub const OP1: usize = 5;
    pub const OP2: usize = 6;
    pub const IMM_WIDE: usize = 7;
    pub const DISPABS: usize = 8;
    pub const FIRST: usize = 9;
    pub const LENGTH: usize = 10;
    pub const MARKED: usize = 11;
    pub const DROPPED: usize = 12;
    pub const FIRST_OFFSET: usize = 13;
    pub const FIRST_WIDTH: usize = 14;
    pub const DISPABS_OFFSET: usize = 15;
    pub const DISPABS_WIDTH: usize = 16;
    pub const IMM_WIDE_OFFSET: usize = 17;
    pub const IMM_WIDE_WIDTH: usize = 18;
    pub const REGISTERS: usize = 19;
    pub const NUMBERS: usize = 20;
}
