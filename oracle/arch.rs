// A stand-in for the crate yaxpeax_arch, which the given Rust text needs and which is not at hand.
// It is not the real crate: it has only the names that the text uses, with just enough behind each for the text to compile.
#![no_std]

pub trait Arch {
    type Address;
    type Word;
    type Instruction;
    type DecodeError;
    type Decoder;
    type Operand;
}

pub trait Decoder<A: Arch> {
    fn decode_into<T: Reader<A::Address, A::Word>>(
        &self,
        inst: &mut A::Instruction,
        words: &mut T,
    ) -> Result<(), A::DecodeError>;
}

pub trait Instruction {
    fn well_defined(&self) -> bool;
}

pub trait LengthedInstruction {
    type Unit;
    fn min_size() -> Self::Unit;
    fn len(&self) -> Self::Unit;
}

// Nobody here looks at a difference of addresses, so it is only kept.
pub struct AddressDiff<Address>(pub Address);

impl<Address> AddressDiff<Address> {
    pub const fn from_const(diff: Address) -> Self {
        AddressDiff(diff)
    }
}

// The address type stands for places, which the ported functions never ask for.
pub trait Reader<Address, Item> {
    fn next(&mut self) -> Result<Item, StandardDecodeError>;
}

#[derive(Debug, Copy, Clone, PartialEq, Eq)]
pub enum StandardDecodeError {
    ExhaustedInput,
    InvalidOpcode,
    InvalidOperand,
}
