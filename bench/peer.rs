
// Rust's side of the bench, appended to oracle/driver.rs: the nine decoders at a place of an image, the record as numbers.
// One peer is compiled at a time (`--cfg peer=..`): with one caller the decoders can be inlined, which serves the Rust best.

const TOO_LITTLE_ROOM: u32 = 6;

#[inline(always)]
fn deliver(image: &[u8], at: usize, out: &mut [u32]) -> u32 {
    let Some(record) = out.first_chunk_mut() else { return TOO_LITTLE_ROOM };
    let bytes = image.get(at..).unwrap_or(&[]);
    let mut reader = CountingReader { bytes, taken: 0 };
    let mut inst = fresh();
    match decode_counted(&mut inst, &mut reader) {
        Ok(()) => {
            *record = numbers(&inst, width_number(bytes[0]), reader.taken);
            u32::from(ACCEPTED)
        }
        Err(refusal) => {
            *record = [0; crate::RUST_NUMBERS];
            record[0] = reader.taken as u32;
            u32::from(refusal)
        }
    }
}

#[inline(always)]
fn width_number(first: u8) -> u32 {
    match first {
        0x7E | 0xEB => 0,
        _ if first & 1 == 0 => 1,
        _ => 2,
    }
}

// The Rust has neither the earlier displacement nor the mark: their numbers are 0.
#[inline(always)]
fn numbers(inst: &Instruction, width: u32, taken: usize) -> [u32; crate::RUST_NUMBERS] {
    let (opcode, size) = opcode_and_size_numbers(inst.opcode);
    let operand = |k: usize| u32::from(operand_number(inst.operands[k]));
    [
        taken as u32,
        u32::from(opcode),
        u32::from(size),
        width,
        operand(0),
        operand(1),
        operand(2),
        inst.imm_wide,
        u32::from(inst.dispabs),
        0,
        u32::from(inst.length),
        0,
    ]
}

/// The parameters of the port's `m16c_decode`, and of its answer the refusal and the first twelve numbers.
///
/// # Safety
/// `image` has `image_len` bytes to read, `out` has `out_len` numbers to write.
#[cfg(peer = "call")]
#[no_mangle]
#[inline(never)]
pub unsafe extern "C" fn rust_decode(
    image: *const u8,
    image_len: usize,
    at: usize,
    out: *mut u32,
    out_len: usize,
) -> u32 {
    let image = core::slice::from_raw_parts(image, image_len);
    deliver(image, at, core::slice::from_raw_parts_mut(out, out_len))
}

#[cfg(peer = "loop")]
#[inline(never)]
pub fn rust_decode_at_each(image: &[u8], places: &[u32], record: &mut crate::Record) {
    crate::at_each(
        places.iter().copied(),
        record,
        // Left alone, the compiler makes a function of this much code and calls it.
        #[inline(always)]
        |place, record| {
            deliver(image, place as usize, record);
        },
    );
}

const LONGEST_IMAGE: usize = 4096;
const IMAGE_TOO_LONG: u32 = 7;

/// The parameters and the answer of the port's `m16c_sweep`.
///
/// # Safety
/// `image` has `image_len` bytes to read, `starts` has `starts_len` numbers to write, `count`, `place`, `refused` and `read` are to be
/// written.
#[cfg(any(peer = "sweep_call", peer = "sweep_loop", peer = "both"))]
#[cfg_attr(any(peer = "sweep_call", peer = "both"), export_name = "rust_sweep_call")]
#[cfg_attr(peer = "sweep_loop", export_name = "rust_sweep_loop")]
#[inline(never)]
pub unsafe extern "C" fn rust_sweep(
    image: *const u8,
    image_len: usize,
    starts: *mut u16,
    starts_len: usize,
    count: *mut usize,
    place: *mut usize,
    refused: *mut usize,
    read: *mut usize,
) -> u32 {
    let image = core::slice::from_raw_parts(image, image_len);
    let swept = repeat(image, core::slice::from_raw_parts_mut(starts, starts_len));
    *count = swept.count;
    *place = swept.place;
    *refused = swept.refused;
    *read = swept.read;
    swept.refusal
}

struct Swept {
    refusal: u32,
    count: usize,
    place: usize,
    refused: usize,
    read: usize,
}

// A refused place is counted, and passed by one byte; what its decoding took was read too.
#[inline(always)]
fn repeat(image: &[u8], starts: &mut [u16]) -> Swept {
    let mut swept = Swept { refusal: u32::from(ACCEPTED), count: 0, place: 0, refused: 0, read: 0 };
    if image.len() > LONGEST_IMAGE {
        return Swept { refusal: IMAGE_TOO_LONG, ..swept };
    }
    if starts.len() < image.len() {
        return Swept { refusal: TOO_LITTLE_ROOM, ..swept };
    }
    while swept.place < image.len() {
        let mut inst = fresh();
        let (refusal, taken) = decode_once(&image[swept.place..], &mut inst);
        swept.read += taken;
        if refusal == ACCEPTED {
            starts[swept.count] = swept.place as u16;
            swept.count += 1;
            swept.place += taken;
        } else {
            swept.refused += 1;
            swept.place += 1;
        }
    }
    swept
}

// In the loop the compiler may drop what a sweep has no use for; behind a call the whole record is made, as the port's is.
#[cfg_attr(any(peer = "sweep_call", peer = "both"), inline(never))]
#[cfg_attr(not(any(peer = "sweep_call", peer = "both")), inline(always))]
fn decode_once(bytes: &[u8], inst: &mut Instruction) -> (u8, usize) {
    let mut reader = CountingReader { bytes, taken: 0 };
    let refusal = decode_counted(inst, &mut reader).err().unwrap_or(ACCEPTED);
    (refusal, reader.taken)
}

/// The nine functions for their size alone: they fill in their own record, and nobody makes numbers of it.
#[cfg(any(peer = "nine", peer = "both"))]
#[no_mangle]
pub fn rust_nine(bytes: &[u8], inst: &mut Instruction) -> (u8, usize) {
    decode_once(bytes, inst)
}
