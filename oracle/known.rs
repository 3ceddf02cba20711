// Images that both the stored list and the differential run have.

/// The image of the rules' listing.
pub const RULES_IMAGE: [u8; 14] = [0x74, 0x0F, 0x34, 0x12, 0x89, 0x67, 0xF5, 0x7D, 0xC8, 0x05, 0xEB, 0xC5, 0x7E, 0xE0];

/// Going on reads 17 bytes of these six: three of its decodings run out of bytes.
pub const READS_MUCH: [u8; 6] = [0x74, 0x0C, 0x76, 0x7D, 0xEB, 0x00];

/// And 15 of these five, all that is left at every place: four decodings run out, and the last byte begins nothing.
pub const READS_ALL: [u8; 5] = [0x74, 0x88, 0xEB, 0x7C, 0x08];

// Refused after five bytes, unless the fifth is a condition: one behind the other, going on reads three times their bytes.
const LATE_CODE: [u8; 2] = [0x7E, 0x2C];

/// Of no image of so many bytes going on reads more: of five or more it reads three times as many, or one less if their number is even.
pub fn reading_most(length: usize) -> Vec<u8> {
    let end = if length % 2 == 0 { &READS_MUCH[..] } else { &READS_ALL[..] };
    let image = [&LATE_CODE.repeat(length / 2), end].concat();
    image[image.len() - length..].to_vec()
}
