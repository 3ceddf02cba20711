use core::ops::Range;

use crate::instruction::Numbers;
use crate::names::index;

/// Bytes of an instruction that hold a number, the low byte first.
#[derive(Debug, Clone, Copy, PartialEq, Eq, Hash)]
pub struct Part {
    /// Counted from the instruction's first byte. The code has the first two, so it is 2 at least.
    pub offset: u8,
    /// 1, 2 or 3 bytes. Three hold 20 bits: the upper four of the last do not belong to the number.
    pub width: u8,
}

/// Where the numbers of an instruction stand in its bytes, by the fields that hold them. No two parts have a byte in common. There is
/// none where no byte behind the second was read for a field: it is 0 then, or the code itself has its number, as in `INT`.
#[derive(Debug, Clone, Copy, PartialEq, Eq, Hash, Default)]
pub struct Parts {
    pub first: Option<Part>,
    pub dispabs: Option<Part>,
    pub imm_wide: Option<Part>,
}

impl Part {
    /// Its bytes, counted from the instruction's first.
    pub fn range(self) -> Range<usize> {
        let offset = usize::from(self.offset);
        offset..offset + usize::from(self.width)
    }

    fn of(offset: u8, width: u8) -> Option<Self> {
        (width > 0).then_some(Part { offset, width })
    }
}

impl Parts {
    /// None if the numbers are those of no parts.
    pub(crate) fn from_numbers(numbers: &Numbers) -> Option<Self> {
        let byte = |index: usize| u8::try_from(numbers[index]).ok();
        Some(Parts {
            first: Part::of(byte(index::FIRST_OFFSET)?, byte(index::FIRST_WIDTH)?),
            dispabs: Part::of(byte(index::DISPABS_OFFSET)?, byte(index::DISPABS_WIDTH)?),
            imm_wide: Part::of(byte(index::IMM_WIDE_OFFSET)?, byte(index::IMM_WIDE_WIDTH)?),
        })
    }
}
