// The stored example of the program that tells lengths: questions, and their answers by told.rs.

use oracle::{answer, FIRST_BYTE_OUTSIDE};

use crate::told::{told, Told};

fn strings() -> Vec<Vec<u8>> {
    let is_outside = |first: &u8| answer(&[*first]).refusal == FIRST_BYTE_OUTSIDE;
    let (outside, decoded): (Vec<u8>, Vec<u8>) = (0..=0xFF).partition(is_outside);
    let mut strings = vec![vec![]];
    strings.extend((0..=0xFF).map(|first| vec![first]));
    for first in decoded {
        strings.extend((0..=0xFF).map(|second| vec![first, second]));
    }
    for first in outside {
        strings.extend([vec![first, 0x00], vec![first, 0xFF]]);
    }
    strings
}

/// Three bytes each: how many are asked about, and these, 0 where there are fewer.
pub fn asked() -> Vec<u8> {
    let question = |bytes: &Vec<u8>| {
        let byte = |place| bytes.get(place).copied().unwrap_or(0);
        vec![bytes.len() as u8, byte(0), byte(1)]
    };
    strings().iter().flat_map(question).collect()
}

/// A line each.
pub fn answered() -> Result<String, String> {
    strings().iter().map(|bytes| told(bytes).map(line)).collect()
}

fn line(told: Told) -> String {
    match told.refusal {
        0 => format!("{}\n", told.length),
        refusal => format!("REFUSED {}\n", refusal),
    }
}
