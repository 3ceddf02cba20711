// The number of an operand: in which field of a record it is, and how it is counted. Written from the rules and the requests, not
// from the port.

use oracle::{OPCODE_NAMES, OPERAND_NAMES, SIZE_NAMES};

/// None, B and W.
pub const WIDTHS: usize = 3;

/// A field of a record that holds a number.
#[derive(Clone, Copy, PartialEq, Eq)]
pub enum Field {
    ImmWide,
    Dispabs,
    First,
}

/// The field that a name asks for, if it has a number.
pub fn asked_for(name: &str) -> Option<Field> {
    let begins = |prefixes: &[&str]| prefixes.iter().any(|prefix| name.starts_with(prefix));
    if name == "Disp8" || name == "RegList" || begins(&["Imm", "Abs20", "Disp20_"]) {
        Some(Field::ImmWide)
    } else if begins(&["Disp8_", "Disp16_", "Abs16"]) || begins(&["Bit_"]) && !begins(&["Bit_Deref_"]) {
        Some(Field::Dispabs)
    } else {
        None
    }
}

/// If operands 0 and 1 both ask for `dispabs`, one of them has its number in `first`.
pub fn settled(mut fields: [Option<Field>; 3], op0_is_disp8_sp: bool) -> [Option<Field>; 3] {
    if fields[0] == Some(Field::Dispabs) && fields[1] == Some(Field::Dispabs) {
        let early = if op0_is_disp8_sp { 1 } else { 0 };
        fields[early] = Some(Field::First);
    }
    fields
}

/// Request A3: displacements from FB and jumps are signed, and nothing else.
pub fn is_signed(name: &str) -> bool {
    name == "Disp8_FB" || name == "Disp8"
}

/// A signed number counts from -128 to 127, by its low byte; any other is as it stands.
fn counted(name: &str, number: u32) -> i64 {
    let byte = i64::from(number % 0x100);
    match is_signed(name) {
        true if byte >= 0x80 => byte - 0x100,
        true => byte,
        false => i64::from(number),
    }
}

/// The number of operand k of the record that numbers make. None if they make no record, or if there is no such operand or number.
pub fn number_of(numbers: &[u32], k: usize) -> Option<i64> {
    let [_, opcode, size, width, op0, op1, op2, imm_wide, dispabs, first, _, _] = *numbers.get(..12)? else {
        unreachable!("twelve numbers");
    };
    let named = (opcode as usize) < OPCODE_NAMES.len() && (size as usize) < SIZE_NAMES.len() && (width as usize) < WIDTHS;
    if !named || dispabs > 0xFFFF || first > 0xFFFF {
        return None;
    }
    let [op0, op1, op2] = [op0, op1, op2].map(|operand| OPERAND_NAMES.get(operand as usize));
    let names = [op0?, op1?, op2?];
    let fields = settled(names.map(|name| asked_for(name)), *names[0] == "Disp8_SP");
    let number = match (*fields.get(k)?)? {
        Field::ImmWide => imm_wide,
        Field::Dispabs => dispabs,
        Field::First => first,
    };
    Some(counted(names[k], number))
}
