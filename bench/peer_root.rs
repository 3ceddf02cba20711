// The root of the crate that holds one Rust peer; `given` is the given text, oracle/driver.rs and peer.rs in one file.
// `given` is private, so that nothing of it is kept but the peer and what the peer calls.
#![no_std]

mod given;

#[cfg(peer = "call")]
pub use given::rust_decode;
#[cfg(peer = "loop")]
pub use given::rust_decode_at_each;
#[cfg(any(peer = "nine", peer = "both"))]
pub use given::rust_nine;
#[cfg(any(peer = "sweep_call", peer = "sweep_loop", peer = "both"))]
pub use given::rust_sweep;

use core::hint::black_box;

/// How the port delivers an instruction: taken, opcode, size, width, three operands, imm_wide, dispabs, first, length, marked, dropped,
/// offset and width of first, of dispabs and of imm_wide, and registers.
pub const NUMBERS: usize = 20;
pub type Record = [u32; NUMBERS];

/// The Rust delivers the numbers up to marked, and is not charged for what stands behind them, of which it tells nothing.
pub const RUST_NUMBERS: usize = 12;

/// The loop of every measurement. The boxes keep the compiler from working ahead, and from dropping what nobody reads.
#[inline(always)]
pub fn at_each<Item, Out>(items: impl Iterator<Item = Item>, out: &mut Out, mut work: impl FnMut(Item, &mut Out)) {
    for item in items {
        work(black_box(item), out);
        black_box(&mut *out);
    }
}

// Calls that do no work. They stand outside of the program, where the compiler would not pass what nobody uses.

#[inline(never)]
pub extern "C" fn nothing_decoded(
    _image: *const u8,
    _image_len: usize,
    _at: usize,
    _out: *mut u32,
    _out_len: usize,
) -> u32 {
    0
}

#[inline(never)]
pub extern "C" fn nothing_encoded(
    _record: *const u32,
    _record_len: usize,
    _buf: *mut u8,
    _buf_len: usize,
    _place: usize,
    _length: *mut usize,
) -> u32 {
    0
}

#[inline(never)]
pub extern "C" fn nothing_told(_bytes: *const u8, _bytes_len: usize, _length: *mut usize) -> u32 {
    0
}
