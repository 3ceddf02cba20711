// An encoder by brute force over decoding, the Rust's and for requests A7 and A9 the models': every unmarked code, with a record's
// numbers filled in where the code reads them, is decoded; of the strings that say the same instruction the shortest is taken, then the
// first in byte order.
// No row is written down here. Which codes can name an instruction, and what their bytes are for, is found by trying.

use std::collections::HashMap;
use std::sync::OnceLock;

use crate::operands::{asked_for, settled, Field, WIDTHS};
use crate::{code_of, expected, manual, Reading, CODES, DISPABS, FIELDS, FIRST, IMM_WIDE, OPCODE, OPERANDS, SIZE, TAKEN, WIDTH};

pub type Record = [u32; FIELDS];

const LONGEST: usize = 7;

// ---- Sameness

/// All that counts of a record: two records are the same instruction if this agrees.
#[derive(PartialEq, Eq)]
struct Key {
    names: Names,
    numbers: [u32; 3],
}

#[derive(Clone, PartialEq, Eq, Hash)]
struct Names {
    opcode: u32,
    size: u32,
    width: u32,
    bases: [usize; 3],
}

/// None if a number names nothing, or does not fit in its field of the record.
fn key_of(record: &Record) -> Option<Key> {
    let named = |field: usize, count: usize| ((record[field] as usize) < count).then_some(record[field]);
    if record[DISPABS] > 0xFFFF || record[FIRST] > 0xFFFF {
        return None;
    }
    let [op0, op1, op2] = OPERANDS.map(|field| operand_names().get(record[field] as usize));
    let operands = [op0?, op1?, op2?];
    Some(Key {
        names: Names {
            opcode: named(OPCODE, oracle::OPCODE_NAMES.len())?,
            size: named(SIZE, oracle::SIZE_NAMES.len())?,
            width: named(WIDTH, WIDTHS)?,
            bases: operands.map(|operand| operand.base),
        },
        numbers: settled(operands.map(|operand| operand.field), operands[0].is_disp8_sp).map(|field| match field {
            None => 0,
            Some(Field::ImmWide) => record[IMM_WIDE],
            Some(Field::Dispabs) => record[DISPABS],
            Some(Field::First) => record[FIRST],
        }),
    })
}

/// What sameness asks of an operand's name.
struct OperandName {
    base: usize,
    field: Option<Field>,
    is_disp8_sp: bool,
}

/// By the operand's number.
fn operand_names() -> &'static [OperandName] {
    static NAMES: OnceLock<Vec<OperandName>> = OnceLock::new();
    NAMES.get_or_init(|| oracle::OPERAND_NAMES.iter().map(|name| operand_name(name)).collect())
}

fn operand_name(name: &str) -> OperandName {
    let base = oracle::OPERAND_NAMES.iter().position(|other| *other == base(name));
    OperandName { base: base.expect("a base is a name"), field: asked_for(name), is_disp8_sp: name == "Disp8_SP" }
}

/// Base and number count for displacements on A0, A1 and SB, however many bytes the number has; any other name for itself.
fn base(name: &str) -> &str {
    match name {
        "Deref_A0" | "Disp8_A0" => "Disp16_A0",
        "Deref_A1" | "Disp8_A1" => "Disp16_A1",
        "Disp8_SB" => "Disp16_SB",
        _ => name,
    }
}

// ---- Marks

/// Whether a code's row is starred, in the rules or by what docs/DIFFERENCES.md reports; of request A7's none is. By the manual none is
/// that request A9 names, and the others stay. Of a refused code it says nothing.
pub fn marked(reading: Reading, first: u8, second: u8) -> bool {
    if reading == Reading::Manual && manual::has([first, second]) {
        return false;
    }
    let (h, n) = (second >> 4, second & 0xF);
    match first {
        0x74 | 0x75 => h == 3,
        0x76 | 0x77 => matches!(h, 9 | 0xC | 0xE),
        0x7A => h >= 8,
        0x7C if matches!(h, 1 | 2 | 9 | 0xA) => !matches!(n, 0 | 4 | 5),
        0x7C => matches!(h, 4 | 5 | 0xC),
        0x7D => matches!(h, 2 | 3 | 4 | 5 | 0xA | 0xB) || h == 0xD && matches!(n, 0xA | 0xD | 0xE),
        0xEB if h < 8 => matches!(n, 4 | 5) || h >= 4 && n == 1 || h >= 6 && n >= 8,
        _ => false,
    }
}

// ---- Strings

/// The bytes of a whole instruction. Their order is the encoder's: shorter first, then byte order.
#[derive(Clone, Copy, PartialEq, Eq, PartialOrd, Ord)]
pub struct Spelling {
    length: usize,
    bytes: [u8; LONGEST],
}

impl Spelling {
    pub fn of(string: &[u8]) -> Spelling {
        let mut bytes = [0; LONGEST];
        bytes[..string.len()].copy_from_slice(string);
        Spelling { length: string.len(), bytes }
    }

    pub fn bytes(&self) -> &[u8] {
        &self.bytes[..self.length]
    }

    fn with(mut self, place: usize, byte: u8) -> Spelling {
        self.bytes[place] = byte;
        self
    }

    /// What the whole string decodes to.
    fn key(&self, reading: Reading) -> Option<Key> {
        let answer = expected(reading, self.bytes());
        if answer.refusal != 0 || answer.fields[TAKEN] as usize != self.length {
            return None;
        }
        key_of(&answer.fields)
    }

    fn names(&self, reading: Reading) -> Option<Names> {
        Some(self.key(reading)?.names)
    }
}

// ---- The search

/// A string that is accepted, and which of its bytes are those of a number.
struct Form {
    spelling: Spelling,
    holes: Vec<Hole>,
}

/// The place of a byte of an operand's number, and how far up in the number it stands.
struct Hole {
    place: usize,
    operand: usize,
    shift: u32,
}

impl Form {
    fn filled(&self, numbers: &[u32; 3]) -> Spelling {
        let byte_of = |hole: &Hole| (numbers[hole.operand] >> hole.shift) as u8;
        self.holes.iter().fold(self.spelling, |spelling, hole| spelling.with(hole.place, byte_of(hole)))
    }
}

/// The forms of a code. A byte behind it that changes what is named is a condition, and each of its values is a form.
fn forms_of(reading: Reading, first: u8, second: u8) -> Vec<Form> {
    let zeros = [first, second, 0, 0, 0, 0, 0];
    let answer = expected(reading, &zeros);
    if answer.refusal != 0 || marked(reading, first, second) {
        return Vec::new();
    }
    let plain = Spelling::of(&zeros[..answer.fields[TAKEN] as usize]);
    let names = plain.names(reading);
    let is_condition = |place: &usize| (0..=255).any(|byte| plain.with(*place, byte).names(reading) != names);
    let (conditions, numbers): (Vec<usize>, Vec<usize>) = (2..plain.length).partition(is_condition);
    let spellings: Vec<Spelling> = match conditions[..] {
        [] => vec![plain],
        [place] => (0..=255).map(|byte| plain.with(place, byte)).collect(),
        _ => panic!("two conditions behind {first:02X} {second:02X}"),
    };
    let holes = |spelling: Spelling| numbers.iter().map(|place| hole(reading, spelling, *place)).collect();
    let accepted = spellings.into_iter().filter(|spelling| spelling.names(reading).is_some());
    accepted.map(|spelling| Form { spelling, holes: holes(spelling) }).collect()
}

/// Which number a byte belongs to: the one that changes with it.
fn hole(reading: Reading, spelling: Spelling, place: usize) -> Hole {
    let numbers = |spelling: Spelling| spelling.key(reading).expect("a number's byte changes no name").numbers;
    let (without, with) = (numbers(spelling), numbers(spelling.with(place, 1)));
    let operand = (0..3).find(|k| without[*k] != with[*k]).expect("a byte is for something");
    Hole { place, operand, shift: (without[operand] ^ with[operand]).trailing_zeros() }
}

type Forms = HashMap<Names, Vec<Form>>;

fn forms(reading: Reading) -> &'static Forms {
    static FORMS: [OnceLock<Forms>; 2] = [OnceLock::new(), OnceLock::new()];
    FORMS[reading as usize].get_or_init(|| {
        let mut forms = Forms::new();
        for number in 0..CODES {
            let (first, second) = code_of(number);
            for form in forms_of(reading, first, second) {
                let names = form.spelling.names(reading).expect("a form is accepted");
                forms.entry(names).or_default().push(form);
            }
        }
        forms
    })
}

/// The best bytes for a record, if there are any.
pub fn encode(reading: Reading, record: &Record) -> Option<Spelling> {
    let key = key_of(record)?;
    let candidates = forms(reading).get(&key.names)?.iter().map(|form| form.filled(&key.numbers));
    candidates.filter(|spelling| spelling.key(reading).as_ref() == Some(&key)).min()
}
