//! Holds the expected output of the program `trials` to the reference: `trials CRATE`, where the folder is the program's.
//!
//! It answers each line of its `stdin` as its `main.rt` says, with the reference in place of the library, and compares
//! the answer with `stdout`.

#![forbid(unsafe_code)]

use std::fs;
use std::path::PathBuf;
use std::process::ExitCode;

mod archive;
mod line;
mod pdu;

use archive::Held;
use pdu::Last;

/// A line for each line of the input; for `many` one for each PDU, and an empty one.
fn answers(input: &str) -> String {
    let (mut last, mut held) = (Last::nothing(), Held::nothing());
    let mut case = |line: &str| match line.chars().next() {
        Some('0'..='9') => last.replace(line),
        Some('e' | 'c' | 'm' | 'o' | 'l' | 'r' | 'v' | 'd' | 'p') => held.case(line),
        _ => format!("{line}{}", last.differ(line)),
    };
    input.lines().map(|line| case(line) + "\n").collect()
}

fn main() -> std::io::Result<ExitCode> {
    let Some(folder) = std::env::args().nth(1).map(PathBuf::from) else {
        eprintln!("usage: trials CRATE");
        return Ok(ExitCode::from(2));
    };
    let input = fs::read_to_string(folder.join("stdin"))?;
    let output = fs::read_to_string(folder.join("stdout"))?;
    let expected = answers(&input);
    let different = output.lines().zip(expected.lines()).position(|(line, answer)| line != answer);
    if let Some(number) = different {
        let (line, answer) = (output.lines().nth(number), expected.lines().nth(number));
        println!("trials: line {} of stdout is {line:?}, not {answer:?}", number + 1);
    } else if output != expected {
        println!("trials: stdout has {} bytes, not {}", output.len(), expected.len());
    }
    println!("trials: {} lines, answered in {}", input.lines().count(), expected.lines().count());
    Ok(if output == expected { ExitCode::SUCCESS } else { ExitCode::FAILURE })
}
