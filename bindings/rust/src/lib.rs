#![doc = include_str!("../README.md")]
#![no_std]

#[rustfmt::skip] // a slice's two parameters stand in one line
pub mod c;
mod calls;
mod instruction;
mod line;
mod names;
mod parts;
mod reading;
mod registers;
mod sweep;

pub use c::{LONGEST_IMAGE, LONGEST_INSTRUCTION, LONGEST_LINE};
pub use calls::{decode, decode_manual, encode, encode_manual, length_of, Refused};
pub use instruction::{Instruction, Operand};
pub use line::{line, line_manual, Line};
pub use names::{Opcode, OperandSpec, Refusal, Size, Width};
pub use parts::{Part, Parts};
pub use reading::{AnyOpcode, ManualInstruction, ManualOpcode, ManualSweep, Reading};
pub use registers::RegisterList;
pub use sweep::{sweep, sweep_manual, sweep_manual_stopping, sweep_stopping, Instructions, Placed, Sweep};
