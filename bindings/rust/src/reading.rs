use core::fmt::Debug;
use core::hash::Hash;

use crate::{c, Instruction, Opcode, Size, Sweep};

/// By what bytes are read. Each function is of one reading, and what it gives has a type that says which.
#[derive(Debug, Clone, Copy, PartialEq, Eq, Hash)]
pub enum Reading {
    /// That of [`decode`](crate::decode) and the functions beside it. It keeps the answers of yaxpeax-m16c, and marks those that depart from
    /// the maker's manual.
    Document01,
    /// That of [`decode_manual`](crate::decode_manual) and the other names with `_manual`: by the maker's manual in most of the marked rows,
    /// which are then unmarked, and in all others as by document 01.
    Manual,
}

/// The opcodes of a reading: [`Opcode`] of document 01's, [`ManualOpcode`] of the manual's. It is for functions that take what either gives.
///
/// ```
/// use m16c::{AnyOpcode, Instruction, Opcode, Reading};
///
/// fn told<O: AnyOpcode>(instruction: &Instruction<O>) -> (&'static str, Reading) {
///     (instruction.opcode.name(), instruction.reading())
/// }
///
/// let bytes = [0x7D, 0xDA];
/// assert_eq!(told(&m16c::decode(&bytes, 0)?), ("GE", Reading::Document01));
/// assert_eq!(told(&m16c::decode_manual(&bytes, 0)?), ("BMGE", Reading::Manual));
/// # Ok::<(), m16c::Refused>(())
/// ```
pub trait AnyOpcode: Functions + Debug + Copy + Eq + Hash {
    const READING: Reading;

    /// The name as the listing spells it, without the size.
    fn name(self) -> &'static str;

    /// The size that the opcode carries.
    fn size(self) -> Option<Size>;

    /// Its number in the library.
    fn number(self) -> u32;

    /// What document 01 calls it; none for the opcodes that only the manual has.
    fn common(self) -> Option<Opcode>;

    /// What has a number in the library, with the size that it carries; none if nothing has.
    fn from_number(number: u32, size: Option<Size>) -> Option<Self>;
}

/// The library's functions of a reading. Nobody else can name this, so there are no readings but these two.
pub trait Functions {
    const DECODE: c::Decode;
    const ENCODE: c::Encode;
    const LINE: c::Line;
}

impl Functions for Opcode {
    const DECODE: c::Decode = c::m16c_decode;
    const ENCODE: c::Encode = c::m16c_encode;
    const LINE: c::Line = c::m16c_line;
}

impl Functions for ManualOpcode {
    const DECODE: c::Decode = c::m16c_decode_manual;
    const ENCODE: c::Encode = c::m16c_encode_manual;
    const LINE: c::Line = c::m16c_line_manual;
}

impl AnyOpcode for Opcode {
    const READING: Reading = Reading::Document01;

    fn name(self) -> &'static str {
        self.name()
    }

    fn size(self) -> Option<Size> {
        self.size()
    }

    fn number(self) -> u32 {
        self.number()
    }

    fn common(self) -> Option<Opcode> {
        Some(self)
    }

    fn from_number(number: u32, size: Option<Size>) -> Option<Self> {
        Self::from_number(number, size)
    }
}

/// Opcodes by the manual: those of document 01, and the two jumps that carry a size in 7D 2x and 3x and none in 0x and 1x.
///
/// ```
/// use m16c::{decode_manual, ManualOpcode, Opcode, Size};
///
/// // A name of document 01 can be compared with as it is.
/// assert_eq!(decode_manual(&[0x76, 0x90], 0)?.opcode, Opcode::DIVX(Size::B));
///
/// let jump = decode_manual(&[0x7D, 0x22], 0)?.opcode;
/// assert_eq!(jump, ManualOpcode::JMPI_W);
/// assert_eq!((jump.name(), jump.size()), ("JMPI", Some(Size::W)));
/// assert_eq!(decode_manual(&[0x7D, 0x00], 0)?.opcode, Opcode::JMPI);
/// # Ok::<(), m16c::Refused>(())
/// ```
#[allow(non_camel_case_types)]
#[derive(Debug, Clone, Copy, PartialEq, Eq, Hash)]
pub enum ManualOpcode {
    /// One that document 01 has too.
    Common(Opcode),
    JMPI_W,
    JSRI_W,
}

impl ManualOpcode {
    /// The name as it is spelled in [`Opcode`], without the size.
    pub const fn name(self) -> &'static str {
        self.unsized_or_common().name()
    }

    /// The size that the opcode carries.
    pub const fn size(self) -> Option<Size> {
        match self {
            ManualOpcode::Common(opcode) => opcode.size(),
            ManualOpcode::JMPI_W | ManualOpcode::JSRI_W => Some(Size::W),
        }
    }

    /// Its number in the library.
    pub const fn number(self) -> u32 {
        self.unsized_or_common().number()
    }

    /// What document 01 calls it; none for the two jumps.
    pub const fn common(self) -> Option<Opcode> {
        match self {
            ManualOpcode::Common(opcode) => Some(opcode),
            ManualOpcode::JMPI_W | ManualOpcode::JSRI_W => None,
        }
    }

    /// What has a number in the library, with the size that it carries; none if nothing has.
    pub const fn from_number(number: u32, size: Option<Size>) -> Option<Self> {
        const JMPI: u32 = Opcode::JMPI.number();
        const JSRI: u32 = Opcode::JSRI.number();
        match (number, size) {
            (JMPI, Some(Size::W)) => Some(ManualOpcode::JMPI_W),
            (JSRI, Some(Size::W)) => Some(ManualOpcode::JSRI_W),
            _ => match Opcode::from_number(number, size) {
                Some(opcode) => Some(ManualOpcode::Common(opcode)),
                None => None,
            },
        }
    }

    /// The opcode with this name and number.
    const fn unsized_or_common(self) -> Opcode {
        match self {
            ManualOpcode::Common(opcode) => opcode,
            ManualOpcode::JMPI_W => Opcode::JMPI,
            ManualOpcode::JSRI_W => Opcode::JSRI,
        }
    }
}

impl AnyOpcode for ManualOpcode {
    const READING: Reading = Reading::Manual;

    fn name(self) -> &'static str {
        self.name()
    }

    fn size(self) -> Option<Size> {
        self.size()
    }

    fn number(self) -> u32 {
        self.number()
    }

    fn common(self) -> Option<Opcode> {
        self.common()
    }

    fn from_number(number: u32, size: Option<Size>) -> Option<Self> {
        Self::from_number(number, size)
    }
}

impl From<Opcode> for ManualOpcode {
    fn from(opcode: Opcode) -> Self {
        ManualOpcode::Common(opcode)
    }
}

// Not the other way round as well: a second type to compare an `Opcode` with would leave `opcode == name.into()` open.
impl PartialEq<Opcode> for ManualOpcode {
    fn eq(&self, other: &Opcode) -> bool {
        self.common() == Some(*other)
    }
}

/// An instruction by the manual. [`encode`](crate::encode) does not take it, nor [`encode_manual`](crate::encode_manual) one of document 01.
pub type ManualInstruction = Instruction<ManualOpcode>;

/// What a sweep by the manual found.
pub type ManualSweep<'a> = Sweep<'a, ManualOpcode>;
