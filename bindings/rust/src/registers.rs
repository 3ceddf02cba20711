use core::iter::FusedIterator;

use crate::{AnyOpcode, Instruction, Opcode, OperandSpec};

// The registers of a list's bits, 80 first.
const PUSHED: [OperandSpec; 8] = [
    OperandSpec::R0,
    OperandSpec::R1,
    OperandSpec::R2,
    OperandSpec::R3,
    OperandSpec::A0,
    OperandSpec::A1,
    OperandSpec::SB,
    OperandSpec::FB,
];
const POPPED: [OperandSpec; 8] = [
    OperandSpec::FB,
    OperandSpec::SB,
    OperandSpec::A1,
    OperandSpec::A0,
    OperandSpec::R3,
    OperandSpec::R2,
    OperandSpec::R1,
    OperandSpec::R0,
];

/// The registers of a `PUSHM` or `POPM`, in the order of the list's bits, 80 first; from the other end, in the order in which they are
/// pushed or popped.
#[derive(Debug, Clone)]
pub struct RegisterList {
    names: [OperandSpec; 8],
    /// The bits of those that are still to come.
    left: u8,
}

impl RegisterList {
    pub(crate) fn of<O: AnyOpcode>(instruction: &Instruction<O>) -> Self {
        let list = instruction.imm_wide as u8;
        match instruction.opcode.common() {
            Some(Opcode::PUSHM) => RegisterList { names: PUSHED, left: list },
            Some(Opcode::POPM) => RegisterList { names: POPPED, left: list },
            _ => RegisterList { names: PUSHED, left: 0 },
        }
    }

    /// The register of a bit, counted from 80; that bit is done with.
    fn take_bit(&mut self, bit: u32) -> OperandSpec {
        self.left &= !(0x80 >> bit);
        self.names[bit as usize]
    }
}

impl Iterator for RegisterList {
    type Item = OperandSpec;

    fn next(&mut self) -> Option<OperandSpec> {
        (self.left != 0).then(|| self.take_bit(self.left.leading_zeros()))
    }

    fn size_hint(&self) -> (usize, Option<usize>) {
        let count = self.left.count_ones() as usize;
        (count, Some(count))
    }
}

impl DoubleEndedIterator for RegisterList {
    fn next_back(&mut self) -> Option<OperandSpec> {
        (self.left != 0).then(|| self.take_bit(7 - self.left.trailing_zeros()))
    }
}

impl ExactSizeIterator for RegisterList {}

impl FusedIterator for RegisterList {}
