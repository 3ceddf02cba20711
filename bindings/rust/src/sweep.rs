use core::fmt;
use core::iter::FusedIterator;
use core::marker::PhantomData;

use crate::calls::{accepted, decode_by};
use crate::line::line_by;
use crate::{c, AnyOpcode, Instruction, ManualSweep, Opcode, Reading, Refusal, Refused};

/// What a sweep found in an image. Shown, it is the image's whole listing, with the last line that `./m16c list` prints.
///
/// Its type says by which reading, as that of an [`Instruction`] does: a `Sweep<'a>` is document 01's, a [`ManualSweep`] the manual's. Its
/// instructions and its listing are by the same.
#[derive(Debug, Clone, Copy)]
pub struct Sweep<'a, O = Opcode> {
    image: &'a [u8],
    opcodes: PhantomData<O>,
    /// Where the instructions start.
    pub starts: &'a [u16],
    /// Where the sweep ended: at the image's end, or at the refusal that stopped it.
    pub place: usize,
    /// How many places were refused and passed. [`sweep_stopping`] passes none.
    pub refused: usize,
    /// How many bytes all decodings took, the refused ones too. By [`sweep`] it is at most three times the image's length, since bytes
    /// behind a refused place are read again; by [`sweep_stopping`] at most the image's length.
    pub read: usize,
    /// The refusal that stopped it; none at the image's end, so none by [`sweep`].
    pub stopped: Option<Refused>,
}

/// Decodes at 0, then behind each instruction, to the image's end. A refused place is counted and passed by one byte, so that what
/// stands behind data is found. The starts are kept in the slice that is passed in, which needs an entry for each byte of the image.
/// Refused are too few entries, and an image of more than 4,096 bytes.
pub fn sweep<'a>(image: &'a [u8], starts: &'a mut [u16]) -> Result<Sweep<'a>, Refusal> {
    sweep_by(c::m16c_sweep, image, starts)
}

/// The same, to the image's end or the first refusal.
pub fn sweep_stopping<'a>(image: &'a [u8], starts: &'a mut [u16]) -> Result<Sweep<'a>, Refusal> {
    sweep_by(c::m16c_sweep_stopping, image, starts)
}

/// As [`sweep`], by the manual: decoding is that of [`decode_manual`](crate::decode_manual).
///
/// ```
/// // By document 01 the DIVX takes an immediate, and so the first byte of what stands behind it.
/// let image = [0x76, 0x90, 0x7D, 0x22];
/// let mut starts = [0; 4];
/// let sweep = m16c::sweep_manual(&image, &mut starts)?;
/// assert_eq!(sweep.reading(), m16c::Reading::Manual);
/// assert_eq!(sweep.to_string(), "0000 2 B DIVX.B R0L\n0002 2 W JMPI.W R2\nEND 0004\n");
///
/// let sweep = m16c::sweep(&image, &mut starts)?;
/// assert_eq!(sweep.to_string(), "0000 3 B DIVX.B Imm8=7D\n0003 REFUSED 4 TAKEN 1\nEND 0004\n");
/// # Ok::<(), m16c::Refusal>(())
/// ```
pub fn sweep_manual<'a>(image: &'a [u8], starts: &'a mut [u16]) -> Result<ManualSweep<'a>, Refusal> {
    sweep_by(c::m16c_sweep_manual, image, starts)
}

/// As [`sweep_stopping`], by the manual.
///
/// ```
/// // By document 01 R2 is refused here.
/// let image = [0x7D, 0x22, 0x7D, 0x45];
/// let mut starts = [0; 4];
/// let sweep = m16c::sweep_manual_stopping(&image, &mut starts)?;
/// assert_eq!(sweep.to_string(), "0000 2 W JMPI.W R2\n0002 REFUSED 3 TAKEN 2\n");
/// assert_eq!(m16c::sweep_stopping(&image, &mut starts)?.to_string(), "0000 REFUSED 3 TAKEN 2\n");
/// # Ok::<(), m16c::Refusal>(())
/// ```
pub fn sweep_manual_stopping<'a>(image: &'a [u8], starts: &'a mut [u16]) -> Result<ManualSweep<'a>, Refusal> {
    sweep_by(c::m16c_sweep_manual_stopping, image, starts)
}

/// By a function of this reading.
fn sweep_by<'a, O: AnyOpcode>(
    function: c::Sweep,
    image: &'a [u8],
    starts: &'a mut [u16],
) -> Result<Sweep<'a, O>, Refusal> {
    let (mut count, mut place, mut refused, mut read) = (0, 0, 0, 0);
    let (out, room) = (starts.as_mut_ptr(), starts.len());
    // Sound: both are slices, passed with their own lengths and borrowed for the call, and the numbers are ours.
    let returned =
        unsafe { function(image.as_ptr(), image.len(), out, room, &mut count, &mut place, &mut refused, &mut read) };
    let stopped = match accepted(returned) {
        Err(refusal @ (Refusal::TooLittleRoom | Refusal::ImageTooLong)) => return Err(refusal),
        Err(_) => decode_by::<O>(image, place).err(),
        Ok(()) => None,
    };
    Ok(Sweep { image, opcodes: PhantomData, starts: &starts[..count], place, refused, read, stopped })
}

impl<'a, O: AnyOpcode> Sweep<'a, O> {
    /// The reading that it is by.
    pub fn reading(&self) -> Reading {
        O::READING
    }

    /// The instructions in their order, and between them the places that were refused and passed; last the refusal that stopped the
    /// sweep, if one did. `flatten` gives the instructions only.
    pub fn instructions(&self) -> Instructions<'a, O> {
        Instructions { image: self.image, opcodes: PhantomData, place: 0, end: self.place, stopped: self.stopped }
    }
}

/// The instructions and the refused places of a sweep.
#[derive(Debug, Clone)]
pub struct Instructions<'a, O = Opcode> {
    image: &'a [u8],
    opcodes: PhantomData<O>,
    place: usize,
    end: usize,
    stopped: Option<Refused>,
}

/// An instruction at its place in an image. Shown, it is the listing's line.
#[derive(Debug, Clone, Copy)]
pub struct Placed<'a, O = Opcode> {
    image: &'a [u8],
    pub place: usize,
    pub instruction: Instruction<O>,
}

impl<'a, O: AnyOpcode> Iterator for Instructions<'a, O> {
    type Item = Result<Placed<'a, O>, Refused>;

    fn next(&mut self) -> Option<Self::Item> {
        let (image, place) = (self.image, self.place);
        if place >= self.end {
            return self.stopped.take().map(Err);
        }
        let found = decode_by::<O>(image, place);
        self.place += found.map_or(1, |instruction| usize::from(instruction.length));
        Some(found.map(|instruction| Placed { image, place, instruction }))
    }
}

impl<O: AnyOpcode> FusedIterator for Instructions<'_, O> {}

impl<O: AnyOpcode> fmt::Display for Placed<'_, O> {
    fn fmt(&self, f: &mut fmt::Formatter) -> fmt::Result {
        // What is placed was decoded there, so it has a line.
        let line = line_by::<O>(self.image, self.place).map_err(|_| fmt::Error)?;
        fmt::Display::fmt(&line, f)
    }
}

impl<O: AnyOpcode> fmt::Display for Sweep<'_, O> {
    fn fmt(&self, f: &mut fmt::Formatter) -> fmt::Result {
        for found in self.instructions() {
            match found {
                Ok(placed) => writeln!(f, "{placed}")?,
                Err(refused) => writeln!(f, "{refused}")?,
            }
        }
        match self.stopped {
            None => writeln!(f, "END {:04X}", self.place),
            Some(_) => Ok(()),
        }
    }
}
