use core::error::Error;
use core::fmt;

use crate::c;
use crate::instruction::Numbers;
use crate::names::index;
use crate::{AnyOpcode, Instruction, ManualInstruction, Refusal};

/// Why a number of the library's can have no name here: its header and these names are made from the same sources.
pub(crate) const OTHER_LIBRARY: &str = "the library that is linked is not of this version";

/// A place where decoding refuses. Shown as the listing shows it: `000C REFUSED 2 TAKEN 2`.
#[derive(Debug, Clone, Copy, PartialEq, Eq)]
pub struct Refused {
    pub place: usize,
    pub refusal: Refusal,
    /// How many bytes were read until it was clear.
    pub taken: usize,
}

/// Decodes the instruction at a place of an image. A place past the end is an image that ends there.
pub fn decode(image: &[u8], at: usize) -> Result<Instruction, Refused> {
    decode_by(image, at)
}

/// The same by the manual: rows that document 01 marks are read as the maker's manual has them, and are unmarked then. Some marked rows
/// stay.
///
/// ```
/// use m16c::{decode, decode_manual, Refusal};
///
/// // MULU #22H, 10H[A0]; document 01 has no displacement there, and one byte less.
/// let bytes = [0x7C, 0x48, 0x10, 0x22];
/// let instruction = decode_manual(&bytes, 0)?;
/// assert_eq!((instruction.imm_wide, instruction.dispabs, instruction.length), (0x22, 0x10, 4));
/// assert!(!instruction.marked);
/// let other = decode(&bytes, 0)?;
/// assert_eq!((other.imm_wide, other.dispabs, other.length), (0x10, 0, 3));
/// assert!(other.marked);
///
/// // It refuses what the manual has no instruction for: A1 as a product.
/// assert_eq!(decode_manual(&[0x7D, 0x45], 0).map_err(|refused| refused.refusal), Err(Refusal::InvalidOperand));
/// # Ok::<(), m16c::Refused>(())
/// ```
pub fn decode_manual(image: &[u8], at: usize) -> Result<ManualInstruction, Refused> {
    decode_by(image, at)
}

pub(crate) fn decode_by<O: AnyOpcode>(image: &[u8], at: usize) -> Result<Instruction<O>, Refused> {
    let mut numbers: Numbers = [0; index::NUMBERS];
    // Sound: both are slices, passed with their own lengths and borrowed for the call.
    let returned = unsafe { (O::DECODE)(image.as_ptr(), image.len(), at, numbers.as_mut_ptr(), numbers.len()) };
    match accepted(returned) {
        Ok(()) => Ok(Instruction::from_numbers(&numbers).expect(OTHER_LIBRARY)),
        Err(refusal) => Err(Refused { place: at, refusal, taken: numbers[index::TAKEN] as usize }),
    }
}

/// Writes the shortest bytes that decode to the same instruction, of these the first in byte order, from a place of a buffer on. Returns
/// how many were written; nothing else is touched, and nothing at all on refusal. What the instruction says of `length`, `marked`,
/// `dropped`, `parts` and `registers` does not count.
pub fn encode(instruction: &Instruction, buf: &mut [u8], place: usize) -> Result<usize, Refusal> {
    encode_by(instruction, buf, place)
}

/// The same by the manual: the shortest bytes that [`decode_manual`] takes for the same instruction by an unmarked row.
///
/// ```
/// use m16c::{decode_manual, encode_manual, OperandSpec};
///
/// // LDIPL #7 becomes LDIPL #3.
/// let mut level = decode_manual(&[0x7D, 0xA7], 0)?;
/// assert_eq!((level.operands[0], level.imm_wide), (OperandSpec::Imm8, 7));
/// level.imm_wide = 3;
/// let mut bytes = [0; 2];
/// assert_eq!(encode_manual(&level, &mut bytes, 0)?, 2);
/// assert_eq!(bytes, [0x7D, 0xA3]);
/// # Ok::<(), Box<dyn std::error::Error>>(())
/// ```
pub fn encode_manual(instruction: &ManualInstruction, buf: &mut [u8], place: usize) -> Result<usize, Refusal> {
    encode_by(instruction, buf, place)
}

fn encode_by<O: AnyOpcode>(instruction: &Instruction<O>, buf: &mut [u8], place: usize) -> Result<usize, Refusal> {
    let numbers = instruction.numbers();
    let mut length = 0;
    // Sound: both are slices, passed with their own lengths and borrowed for the call, and `length` is a number of ours.
    let returned =
        unsafe { (O::ENCODE)(numbers.as_ptr(), numbers.len(), buf.as_mut_ptr(), buf.len(), place, &mut length) };
    accepted(returned).map(|()| length)
}

/// The length that every instruction has by document 01 that begins with the first two bytes; more bytes do not count, and none are needed.
/// Where no bytes behind these two make an instruction, the refusal that decoding gives if there are enough of them. A first byte that is
/// not decoded here is refused before fewer than two bytes are.
///
/// ```
/// use m16c::{length_of, Refusal};
///
/// assert_eq!(length_of(&[0x74, 0x0F]), Ok(7));
/// assert_eq!(length_of(&[0x78, 0x83]), Err(Refusal::InvalidOperand));
///
/// // More bytes do not count: 07 is no condition, so decoding refuses this.
/// assert_eq!(length_of(&[0x7E, 0x20, 0x05, 0x07]), Ok(4));
///
/// // Fewer than two bytes, and before that a first byte outside.
/// assert_eq!(length_of(&[]), Err(Refusal::ExhaustedInput));
/// assert_eq!(length_of(&[0x74]), Err(Refusal::ExhaustedInput));
/// assert_eq!(length_of(&[0x04]), Err(Refusal::FirstByteOutside));
/// ```
pub fn length_of(bytes: &[u8]) -> Result<u8, Refusal> {
    let mut length = 0;
    // Sound: a slice, passed with its own length and borrowed for the call, and a number of ours.
    let returned = unsafe { c::m16c_length(bytes.as_ptr(), bytes.len(), &mut length) };
    accepted(returned).map(|()| length.try_into().expect(OTHER_LIBRARY))
}

/// The number that belongs to an operand, if there is one.
pub(crate) fn operand_number<O: AnyOpcode>(instruction: &Instruction<O>, k: usize) -> Option<i64> {
    let numbers = instruction.numbers();
    let mut number = 0;
    // Sound: a slice, passed with its own length and borrowed for the call, and a number of ours.
    let returned = unsafe { c::m16c_operand_number(numbers.as_ptr(), numbers.len(), k, &mut number) };
    accepted(returned).ok().map(|()| number)
}

/// What a function of the library returned.
pub(crate) fn accepted(returned: u32) -> Result<(), Refusal> {
    match returned {
        0 => Ok(()),
        number => Err(Refusal::from_number(number).expect(OTHER_LIBRARY)),
    }
}

impl fmt::Display for Refusal {
    fn fmt(&self, f: &mut fmt::Formatter) -> fmt::Result {
        write!(f, "REFUSED {}", self.number())
    }
}

impl fmt::Display for Refused {
    fn fmt(&self, f: &mut fmt::Formatter) -> fmt::Result {
        write!(f, "{:04X} {} TAKEN {}", self.place & 0xFFFF, self.refusal, self.taken)
    }
}

impl Error for Refusal {}

impl Error for Refused {}
