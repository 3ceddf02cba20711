// The part of operands' numbers in the differential run: the port's `m16c_operand_number` beside operands.rs. The Rust has no such function.

use oracle::OPERAND_NAMES;

use crate::encoder::any_number;
use crate::operands::number_of;
use crate::{c, record_of, Kind, Random, Tally, FIELDS};

const NO_NUMBER: u32 = 5;

#[rustfmt::skip]
pub const KINDS: &[Kind] = &[
    Kind { name: "every three names", quick_parts: NAMES, all_parts: NAMES, run_part: every_three },
    Kind { name: "every name, every low byte", quick_parts: NAMES, all_parts: NAMES, run_part: every_byte },
    Kind { name: "made up", quick_parts: 20, all_parts: 200, run_part: made_up },
    Kind { name: "of too few numbers or more", quick_parts: NAMES, all_parts: NAMES, run_part: lengths },
];

const NAMES: usize = OPERAND_NAMES.len();
const RECORDS_IN_A_PART: usize = 5_000;
const FAR: [usize; 4] = [3, 4, usize::MAX - 1, usize::MAX];

pub fn compare(tally: &mut Tally, record: &[u32], k: usize, wanted: Option<i64>) {
    let wanted = wanted.map_or((NO_NUMBER, 0), |number| (0, number));
    let mut number = i64::MIN;
    let refusal = unsafe { c::m16c_operand_number(record.as_ptr(), record.len(), k, &mut number) };
    tally.count(wanted.0 == 0, wanted == (refusal, number), || {
        format!("operand {k} of {record:X?}\n  wanted {wanted:?}\n  port   {:?}\n", (refusal, number))
    });
}

fn compare_by_rules(tally: &mut Tally, record: &[u32], k: usize) {
    compare(tally, record, k, number_of(record, k));
}

fn record(operands: [usize; 3], imm_wide: u32, dispabs: u32, first: u32) -> [u32; FIELDS] {
    let [op0, op1, op2] = operands.map(|operand| operand as u32);
    record_of([0, 0, 0, 0, op0, op1, op2, imm_wide, dispabs, first, 0, 0])
}

/// A part is operand 0. Three numbers that no two fields share.
fn every_three(part: usize, tally: &mut Tally) {
    for op1 in 0..NAMES {
        for op2 in 0..NAMES {
            for k in 0..4 {
                compare_by_rules(tally, &record([part, op1, op2], 0xFEDC_BA98, 0x7654, 0x32F1), k);
            }
        }
    }
}

/// A part is a name, as each of the operands; the byte above is 0 and is not.
fn every_byte(part: usize, tally: &mut Tally) {
    for k in 0..3 {
        let mut operands = [0; 3];
        operands[k] = part;
        for number in 0..0x200 {
            compare_by_rules(tally, &record(operands, number, number, number), k);
        }
    }
}

fn made_up(part: usize, tally: &mut Tally) {
    let mut random = Random::of("numbers made up", part);
    for _ in 0..RECORDS_IN_A_PART {
        let record: [u32; FIELDS] = std::array::from_fn(|field| any_number(field, &mut random));
        for k in (0..3).chain(FAR) {
            compare_by_rules(tally, &record, k);
        }
    }
}

/// Fewer than twelve numbers are no record; more do no harm. A part is operand 0.
fn lengths(part: usize, tally: &mut Tally) {
    const MOST: usize = FIELDS + 3;
    let mut numbers = [0xDEAD_BEEF; MOST];
    numbers[..FIELDS].copy_from_slice(&record([part, 0, 0], 0xF1, 0xF2, 0xF3));
    for count in 0..=MOST {
        compare_by_rules(tally, &numbers[..count], 0);
    }
}
