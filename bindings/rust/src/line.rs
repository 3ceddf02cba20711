use core::fmt;

use crate::calls::accepted;
use crate::{AnyOpcode, ManualOpcode, Opcode, Refusal, LONGEST_LINE};

/// A line of the listing, without a newline.
#[derive(Clone, Copy)]
pub struct Line {
    bytes: [u8; LONGEST_LINE],
    length: usize,
}

/// The listing's line of the instruction at a place of an image.
pub fn line(image: &[u8], at: usize) -> Result<Line, Refusal> {
    line_by::<Opcode>(image, at)
}

/// The same by the manual.
///
/// ```
/// let bytes = [0xEB, 0x64];
/// assert_eq!(m16c::line_manual(&bytes, 0)?.as_str(), "0000 2 - FSET Imm4=6");
/// assert_eq!(m16c::line(&bytes, 0)?.as_str(), "0000 2 - NOP");
/// # Ok::<(), m16c::Refusal>(())
/// ```
pub fn line_manual(image: &[u8], at: usize) -> Result<Line, Refusal> {
    line_by::<ManualOpcode>(image, at)
}

pub(crate) fn line_by<O: AnyOpcode>(image: &[u8], at: usize) -> Result<Line, Refusal> {
    let mut line = Line { bytes: [0; LONGEST_LINE], length: 0 };
    let (out, room) = (line.bytes.as_mut_ptr(), line.bytes.len());
    // Sound: a slice and an array of ours, passed with their own lengths, and a number of ours.
    let returned = unsafe { (O::LINE)(image.as_ptr(), image.len(), at, out, room, &mut line.length) };
    accepted(returned).map(|()| line)
}

impl Line {
    pub fn as_str(&self) -> &str {
        core::str::from_utf8(&self.bytes[..self.length]).expect("a line has ASCII characters only")
    }
}

impl fmt::Display for Line {
    fn fmt(&self, f: &mut fmt::Formatter) -> fmt::Result {
        f.pad(self.as_str())
    }
}

impl fmt::Debug for Line {
    fn fmt(&self, f: &mut fmt::Formatter) -> fmt::Result {
        fmt::Debug::fmt(self.as_str(), f)
    }
}
