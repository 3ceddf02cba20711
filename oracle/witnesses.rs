// The witnesses' table, ../docs/manual/codes.tsv, beside the model of request A9 and the port: whether the manual has a meaning for a code
// that the request names, and which; and the numbers that one of the witnesses prints.

use oracle::manual::has;

use crate::operands::number_of;
use crate::{expected, hex, named_codes, ported, Answer, Kind, Tally, LENGTH, NAMED, OFFSETS, OPCODE, OPERANDS, SIZE, WIDTH};

#[rustfmt::skip]
pub const KINDS: &[Kind] = &[
    Kind { name: "which codes the request names, and that the table has them", quick_parts: 1, all_parts: 1, run_part: named },
    Kind { name: "instructions and lengths", quick_parts: NAMED, all_parts: NAMED, run_part: instructions },
    Kind { name: "numbers, as the disassembler prints them", quick_parts: NAMED, all_parts: NAMED, run_part: numbers },
];

const TABLE: &str = include_str!("../docs/manual/codes.tsv");

// What the witnesses had behind each code.
const BEHIND: [u8; 7] = [0x11, 0x22, 0x33, 0x44, 0x55, 0x66, 0x77];
const TAILS: [[u8; 7]; 3] = [BEHIND, [0x00; 7], [0xFF; 7]];

const FLAGS: [&str; 8] = ["C", "D", "Z", "S", "B", "O", "I", "U"];

struct Row {
    code: [u8; 2],
    /// What the disassembler prints.
    printed: &'static str,
    /// The manual's instruction and its length, if it has a meaning.
    meaning: Option<(&'static str, u32)>,
    rests: &'static str,
}

fn rows() -> impl Iterator<Item = Row> {
    TABLE.lines().skip(1).map(|line| row(line).unwrap_or_else(|| panic!("not a row of the witnesses' table: {line}")))
}

fn row(line: &'static str) -> Option<Row> {
    let [code, printed, _, _, _, meaning, length, rests] = line.split('\t').collect::<Vec<&str>>()[..] else { return None };
    let meaning = if meaning == "-" { None } else { Some((meaning, length.parse().ok()?)) };
    Some(Row { code: u16::from_str_radix(code, 16).ok()?.to_be_bytes(), printed, meaning, rests })
}

/// A part is a code.
fn row_of(part: usize) -> Row {
    let code = named_codes()[part];
    rows().find(|row| row.code == code).expect("the first kind has seen that the table has it")
}

fn named(_part: usize, tally: &mut Tally) {
    let (codes, rows) = (named_codes().len(), rows().filter(|row| has(row.code)).count());
    assert!(codes == NAMED && rows == NAMED, "the request names {NAMED} codes: the model has {codes}, the table {rows} of them");
    tally.count(true, true, String::new);
}

fn instructions(part: usize, tally: &mut Tally) {
    let row = row_of(part);
    for tail in TAILS {
        let string = [&row.code[..], &tail].concat();
        let wanted = row.meaning.map(|(words, length)| (words.to_string(), length));
        for (who, answer) in both(tally, &string) {
            let found = (answer.refusal == 0).then(|| (in_words(&answer.fields), answer.fields[LENGTH]));
            tally.count(wanted.is_some(), found == wanted, || format!("{}\n  table {wanted:?}\n  {who} {found:?}\n", hex(&string)));
        }
    }
}

fn both(tally: &Tally, string: &[u8]) -> [(&'static str, Answer); 2] {
    [("model", expected(tally.reading, string)), ("port", ported(tally.reading, string, 0))]
}

/// The instruction of a record in the table's words. These give MUL a size, a flag its letter, and conditions on the flag C their operand.
fn in_words(record: &[u32]) -> String {
    let opcode = oracle::OPCODE_NAMES[record[OPCODE] as usize];
    let size = if opcode == "MUL" { record[WIDTH] } else { record[SIZE] };
    let mut text = opcode.to_string();
    if size != 0 {
        text += &format!(".{}", oracle::SIZE_NAMES[size as usize]);
    }
    for (k, name) in named_operands(record) {
        let in_code = record[OFFSETS[2]] == 0;
        text += &match (name, number_of(record, k)) {
            ("Imm4", Some(flag)) => format!(" {}", FLAGS.get(flag as usize).unwrap_or(&"no flag")),
            ("Imm8", Some(number)) if in_code => format!(" Imm8={}", number as i32),
            _ => format!(" {name}"),
        };
    }
    if opcode.starts_with("BM") {
        text += " C";
    }
    text
}

fn named_operands(record: &[u32]) -> impl Iterator<Item = (usize, &'static str)> + '_ {
    let named = move |(k, field): (usize, usize)| (record[field] != 0).then(|| (k, oracle::OPERAND_NAMES[record[field] as usize]));
    OPERANDS.into_iter().enumerate().filter_map(named)
}

/// Which bytes each operand's number was read from is seen here. Of three bytes the disassembler shows all 24 bits, so 20 are compared. Where
/// the table does not follow it, the row rests on the simulator.
fn numbers(part: usize, tally: &mut Tally) {
    let row = row_of(part);
    if row.meaning.is_none() || row.rests == "sim" {
        return;
    }
    let string = [&row.code[..], &BEHIND].concat();
    let wanted = numbers_in(row.printed);
    for (who, answer) in both(tally, &string) {
        let record = &answer.fields;
        let operands = named_operands(record).filter(|(_, name)| *name != "Imm4");
        let found: Vec<i64> = operands.filter_map(|(k, _)| number_of(record, k)).map(|number| number & 0xF_FFFF).collect();
        tally.count(true, found == wanted, || format!("{}, {}\n  table {wanted:X?}\n  {who} {found:X?}\n", hex(&string), row.printed));
    }
}

/// The numbers of a printed line in their order: `mov.b:g 0x11[a0],34[sp]` has 11 and 22 in hex. Names of registers begin with a letter.
fn numbers_in(printed: &str) -> Vec<i64> {
    let (_, operands) = printed.split_once(' ').unwrap_or((printed, ""));
    let words = operands.split(|c: char| ",[]#".contains(c));
    let number = |word: &str| match word.strip_prefix("0x") {
        Some(digits) => i64::from_str_radix(digits, 16).ok(),
        None => word.parse().ok(),
    };
    words.filter_map(number).map(|number: i64| number & 0xF_FFFF).collect()
}
