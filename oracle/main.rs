// The oracle on the command line: answers hex lines from standard input, by the manual if it is told so, or prints the stored list, the odd
// records of a reading, or the stored questions about lengths or their answers.

mod asked;
mod images;
mod known;
mod odd;
mod operands;
mod placed;
mod places;
mod questions;
mod stored;
mod told;

use std::env;
use std::ffi::OsString;
use std::io::{self, BufRead, Write};
use std::process::ExitCode;

use oracle::manual::Reading;
use oracle::Answer;

const USAGE: &str = "usage: oracle [--manual | --stored | --odd | --odd-manual | --lengths-asked | --lengths-answered]  \
    (without an option: hex lines on standard input; with --manual the same, by the manual)";

fn main() -> ExitCode {
    match run() {
        Ok(()) => ExitCode::SUCCESS,
        Err(message) => {
            eprintln!("oracle: {}", message);
            ExitCode::from(2)
        }
    }
}

fn run() -> Result<(), String> {
    let options: Vec<OsString> = env::args_os().skip(1).collect();
    match options.as_slice() {
        [] => answer_lines(Reading::Present, io::stdin().lock()),
        [option] if option == "--manual" => answer_lines(Reading::Manual, io::stdin().lock()),
        [option] if option == "--stored" => print(&stored::list()?),
        [option] if option == "--odd" => print(&odd::list(Reading::Present)?),
        [option] if option == "--odd-manual" => print(&odd::list(Reading::Manual)?),
        [option] if option == "--lengths-asked" => print(questions::asked()),
        [option] if option == "--lengths-answered" => print(questions::answered()?),
        _ => Err(USAGE.to_string()),
    }
}

fn print(output: impl AsRef<[u8]>) -> Result<(), String> {
    let written = io::stdout().write_all(output.as_ref());
    written.map_err(|error| format!("standard output: {}", error))
}

fn answer_lines(reading: Reading, input: impl BufRead) -> Result<(), String> {
    for (number, line) in (1..).zip(input.lines()) {
        let line = line.map_err(|error| format!("line {}: {}", number, error))?;
        let bytes = bytes_of_hex(&line)
            .ok_or_else(|| format!("line {}: not pairs of hex digits: {}", number, line))?;
        print(&answer_line(reading, &bytes))?;
    }
    Ok(())
}

// Blanks may stand between bytes, not inside one.
fn bytes_of_hex(line: &str) -> Option<Vec<u8>> {
    let mut bytes = Vec::new();
    for word in line.split_whitespace() {
        for pair in word.as_bytes().chunks(2) {
            match pair {
                [high, low] => bytes.push(hex_digit(*high)? << 4 | hex_digit(*low)?),
                _ => return None,
            }
        }
    }
    Some(bytes)
}

fn hex_digit(digit: u8) -> Option<u8> {
    char::from(digit).to_digit(16).map(|value| value as u8)
}

fn answer_line(reading: Reading, bytes: &[u8]) -> String {
    let answer = reading.answer(bytes);
    let mut line = format!("{} -> {} taken {}", hex_of_bytes(bytes), answer.refusal, answer.taken);
    if answer.refusal == oracle::ACCEPTED {
        line += &format!(
            " {} imm_wide {:X} dispabs {:X} length {}",
            instruction(&answer),
            answer.imm_wide,
            answer.dispabs,
            answer.length
        );
    }
    if answer.refusal == oracle::ACCEPTED && reading.modelled(bytes).is_some() {
        line += &format!(" first {:X} registers {}", answer.first, answer.registers);
    }
    line + "\n"
}

fn hex_of_bytes(bytes: &[u8]) -> String {
    if bytes.is_empty() {
        return "empty".to_string();
    }
    let digits: Vec<String> = bytes.iter().map(|byte| format!("{:02X}", byte)).collect();
    digits.join(" ")
}

fn instruction(answer: &Answer) -> String {
    let mut text = oracle::OPCODE_NAMES[answer.opcode as usize].to_string();
    if answer.size != 0 {
        text += ".";
        text += oracle::SIZE_NAMES[answer.size as usize];
    }
    // Only the operands behind the last one are left out; a gap would show as `Nothing`.
    let count = answer.operands.iter().rposition(|operand| *operand != 0).map_or(0, |last| last + 1);
    let names: Vec<&str> = answer.operands[..count]
        .iter()
        .map(|operand| oracle::OPERAND_NAMES[*operand as usize])
        .collect();
    if !names.is_empty() {
        text += " ";
        text += &names.join(",");
    }
    text
}
