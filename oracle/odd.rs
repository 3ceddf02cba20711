// The odd records as numbers: a line of fixed width for each record of the file `odd-records`, or of `odd-records-manual`.

use crate::stored::packed_hex;
use oracle::manual::Reading;
use oracle::{OPCODE_NAMES, OPERAND_NAMES, SIZE_NAMES};

const WIDTH_NAMES: &[&str] = &["-", "B", "W"];
const MOST_BYTES: usize = 7;
const NO_STRING: u8 = 5;

pub fn list(reading: Reading) -> Result<String, String> {
    let records = match reading {
        Reading::Present => include_str!("odd-records"),
        Reading::Manual => include_str!("odd-records-manual"),
    };
    let lines = records.lines().filter(|line| !line.is_empty() && !line.starts_with('#'));
    lines.map(|line| numbered(line).ok_or_else(|| format!("not an odd record: {}", line))).collect()
}

// README.md describes the fields.
fn numbered(line: &str) -> Option<String> {
    let (record, answer) = line.split_once(" -> ")?;
    let mut words = record.split(' ');
    let (opcode, size) = opcode_and_size(words.next()?)?;
    let width = number(WIDTH_NAMES, words.next()?)?;
    let [op0, op1, op2] = operands(words.next()?)?;
    let (mut imm_wide, mut dispabs, mut first) = (0, 0, 0);
    for word in words {
        let (field, digits) = word.split_once('=')?;
        match field {
            "imm_wide" => imm_wide = u32::from_str_radix(digits, 16).ok()?,
            "dispabs" => dispabs = u16::from_str_radix(digits, 16).ok()?,
            "first" => first = u16::from_str_radix(digits, 16).ok()?,
            _ => return None,
        }
    }
    Some(format!(
        "{:02X} {} {} {:02X} {:02X} {:02X} {:08X} {:04X} {:04X} {}\n",
        opcode, size, width, op0, op1, op2, imm_wide, dispabs, first, answered(answer)?
    ))
}

fn number(names: &[&str], wanted: &str) -> Option<usize> {
    names.iter().position(|name| *name == wanted)
}

fn opcode_and_size(word: &str) -> Option<(usize, usize)> {
    let (opcode, size) = word.split_once('.').unwrap_or((word, "None"));
    Some((number(OPCODE_NAMES, opcode)?, number(SIZE_NAMES, size)?))
}

fn operands(word: &str) -> Option<[usize; 3]> {
    let mut numbers = [0; 3];
    if word != "-" {
        for (place, name) in word.split(',').enumerate() {
            *numbers.get_mut(place)? = number(OPERAND_NAMES, name)?;
        }
    }
    Some(numbers)
}

// Refusal, length and bytes.
fn answered(answer: &str) -> Option<String> {
    if answer == "none" {
        return Some(format!("{} 0 {}", NO_STRING, "00".repeat(MOST_BYTES)));
    }
    let bytes: Option<Vec<u8>> = answer.split(' ').map(|byte| u8::from_str_radix(byte, 16).ok()).collect();
    let mut bytes = bytes?;
    let length = bytes.len();
    bytes.resize(MOST_BYTES, 0);
    Some(format!("{} {} {}", oracle::ACCEPTED, length, packed_hex(&bytes)))
}
