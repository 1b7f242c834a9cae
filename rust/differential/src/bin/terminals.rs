//! Compares the calls about terminals with the reference: `terminals [SEED]`.
//!
//! Each case lends both sides equal tables and buffers of random content and compares the answers, every byte,
//! and the length behind its pointer. Lines are legal, damaged in every byte, cut, and random; tables are legal
//! and not. What was read puts the table back.

#![forbid(unsafe_code)]

use std::process::ExitCode;

use boc::ffi;
use differential::{room, seed, Met, Rng};
use reference::{terminal_line, terminal_reset, Refusal, PLACES};

const CASES: u64 = 40_000;
/// The bytes that a damaged line may have in the place of another.
const BYTES: &[u8] = b"0129,?=\r\n +-AT\0\xff";
/// Values at, beside and beyond the ends of what the fields may be.
const VALUES: [u32; 22] =
    [0, 1, 2, 3, 4, 5, 9, 10, 11, 14, 15, 19, 20, 24, 25, 30, 31, 100, 254, 255, 256, 999];

/// A field with or without leading zeros.
fn field(rng: &mut Rng, value: u32) -> String {
    let width = rng.between(1, 3);
    format!("{value:0width$}")
}

/// A line whose fields often have a meaning.
fn line(rng: &mut Rng) -> Vec<u8> {
    if rng.one_in(5) {
        return b"AT+CTSP?\r".to_vec();
    }
    let profile = if rng.one_in(8) { rng.pick(&VALUES) } else { rng.bits(2) };
    let layer = if rng.one_in(8) { rng.pick(&VALUES) } else { rng.below(5) as u32 };
    let mut text = format!("AT+CTSP={},{}", field(rng, profile), field(rng, layer));
    for _ in 0..rng.pick(&[0, 0, 1, 1, 1, 1, 2, 3]) {
        let value = if rng.one_in(2) { rng.pick(&VALUES) } else { rng.below(260) as u32 };
        text += &format!(",{}", field(rng, value));
    }
    [text.as_bytes(), b"\r"].concat()
}

/// A line with one thing changed: a byte, a byte more, a byte less, or its end.
fn damaged(rng: &mut Rng, line: &[u8]) -> Vec<u8> {
    let mut line = line.to_vec();
    let at = rng.below(line.len());
    match rng.below(4) {
        0 => line[at] = rng.pick(BYTES),
        1 => line.insert(at, rng.pick(BYTES)),
        2 => drop(line.remove(at)),
        _ => line.truncate(at),
    }
    line
}

/// A table, most of whose places may be at the default; once in a while none.
fn table(rng: &mut Rng) -> Vec<u8> {
    let sparse = rng.pick(&[1, 2, 20, 300]);
    let mut table: Vec<u8> =
        (0..PLACES).map(|_| if rng.one_in(sparse) { rng.bits(2) as u8 } else { 2 }).collect();
    match rng.below(24) {
        0 => table[rng.below(PLACES)] = 4 + rng.below(252) as u8,
        1 => table.push(2),
        2 => drop(table.pop()),
        3 => table.clear(),
        _ => {}
    }
    table
}

/// A number, or 0 for a success.
fn number<T>(answer: Result<T, Refusal>) -> u32 {
    answer.map_or_else(Refusal::number, |_| 0)
}

/// Both sides on a line; the answer, if both are the same.
fn compare(
    line: &[u8],
    table: &[u8],
    out: &[u8],
    old: usize,
) -> Result<(Vec<u8>, Vec<u8>, Result<usize, Refusal>), String> {
    let (mut tables, mut outs) = ([table.to_vec(), table.to_vec()], [out.to_vec(), out.to_vec()]);
    let mut length = old;
    let answer = ffi::terminal_line(line, &mut tables[0], &mut outs[0], &mut length);
    let expected = terminal_line(line, &mut tables[1], &mut outs[1]);
    let same = answer == number(expected) && length == expected.unwrap_or(old);
    if !same || tables[0] != tables[1] || outs[0] != outs[1] {
        let shown = String::from_utf8_lossy(line).into_owned();
        return Err(format!("{shown:?}: {answer} and length {length}, not {expected:?}, or other bytes"));
    }
    let ([table, _], [out, _]) = (tables, outs);
    Ok((table, out, expected))
}

/// The set lines of a text put its table back.
fn put_back(text: &[u8], table: &[u8]) -> bool {
    let mut back = vec![0; PLACES];
    assert_eq!(ffi::terminal_reset(&mut back), 0);
    let lines = text.strip_prefix(b"+CTSP: ").unwrap_or(text).split_inclusive(|&byte| byte == b'\n');
    let mut length = 0;
    lines.into_iter().all(|line| {
        let line = [b"AT+CTSP=", line.strip_suffix(b"\n").unwrap_or(line)].concat();
        ffi::terminal_line(&line, &mut back, &mut [], &mut length) == 0
    }) && back == table
}

/// One case; what went wrong.
fn case(rng: &mut Rng, met: &mut Met) -> Result<(), String> {
    let table = table(rng);
    let (mut ours, mut theirs) = (table.clone(), table.clone());
    let reset = number(terminal_reset(&mut theirs));
    if ffi::terminal_reset(&mut ours) != reset || ours != theirs {
        return Err(format!("reset of {} bytes", table.len()));
    }
    met.meet("reset", reset);

    let good = line(rng);
    let mut needed = [0; 2_300];
    let text = terminal_line(&good, &mut table.clone(), &mut needed).unwrap_or(0);
    let mut out = vec![0; room(rng, text)];
    rng.fill(&mut out);
    let old = rng.draw() as usize;
    let (after, written, answer) = compare(&good, &table, &out, old)?;
    met.meet("line", number(answer));
    if good == b"AT+CTSP?\r" {
        if let Ok(length) = answer {
            met.meet("read form", if length == 0 { "nothing" } else { "text" });
            if !put_back(&written[..length], &after) {
                return Err("a text does not put its table back".into());
            }
        }
    }
    for _ in 0..8 {
        let bad = damaged(rng, &good);
        let (_, _, answer) = compare(&bad, &table, &out, old)?;
        met.meet("damaged line", number(answer));
    }
    let mut any = vec![0; rng.below(24)];
    rng.fill(&mut any);
    compare(&any, &table, &out, old).map(|_| ())
}

fn main() -> ExitCode {
    let Some(seed) = seed() else {
        eprintln!("usage: terminals [SEED]");
        return ExitCode::from(2);
    };
    let mut met = Met::default();
    met.expect("reset", [0, 9]);
    met.expect("line", [0, 8, 9, 15, 16, 17]);
    met.expect("damaged line", [0, 8, 9, 15, 16, 17]);
    met.expect("read form", ["nothing", "text"]);
    for number in 0..CASES {
        if let Err(what) = case(&mut Rng::new(seed, number), &mut met) {
            println!("terminals, seed {seed}, case {number}: {what}");
            return ExitCode::FAILURE;
        }
    }
    let complete = met.report();
    println!("terminals: {CASES} cases, the same on both sides");
    if complete {
        ExitCode::SUCCESS
    } else {
        ExitCode::FAILURE
    }
}
