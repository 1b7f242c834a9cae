//! Tries the program `contents` from outside: `program COMMAND [WORDS...]`, where the command runs it.
//!
//! Each case gives it an input and compares what it prints with the reference's listing, or with `refused 7`
//! and, on standard error, with the entry and the bit that are at fault: every byte of both. Others give it an
//! input that cannot be read, or not to its end, which it has to refuse, or an output that cannot be written.

#![forbid(unsafe_code)]

use std::fs::File;
use std::io::{ErrorKind, Result, Write};
use std::os::fd::OwnedFd;
use std::os::unix::net::UnixStream;
use std::process::{Child, Command, ExitCode, Stdio};
use std::thread::sleep;
use std::time::Duration;

use differential::{Archive, Entry, Met, Pdu, Rng, Size, HEADER, LINE, MAX_BYTES, MAX_ENTRIES, SEED};
use reference::layout::{record as at, IDENTITY_WORDS, RECORD_WORDS};

/// The archive that holds profile A for user 1/5 of home network 1, captured on day 300.
const EXAMPLE: [u8; 34] = [
    0x00, 0x00, 0x01, 0x00, 0x01, 0x00, 0x00, 0x01, 0x00, 0x00, 0x05, 0x01, 0x00, 0x8a, 0x01, 0x2c, 0x49,
    0x82, 0x00, 0x00, 0x0a, 0x21, 0x21, 0x20, 0x00, 0x0c, 0x80, 0x00, 0x0c, 0x70, 0x80, 0x00, 0x4b, 0x00,
];

/// How an input arrives.
#[derive(Clone, Copy)]
enum Arrival {
    AtOnce,
    /// In this many pieces, with a pause between them.
    InPieces(usize),
}
use Arrival::{AtOnce, InPieces};

/// What is printed of an input, on standard output and on standard error.
struct Printed {
    output: String,
    error: String,
}

/// Starts the program, with its standard error piped.
fn started(command: &[String], input: Stdio, output: Stdio) -> Result<Child> {
    Command::new(&command[0]).args(&command[1..]).stdin(input).stdout(output).stderr(Stdio::piped()).spawn()
}

/// What a program that was started prints until it ends.
fn ended(child: Child) -> Result<Printed> {
    let ended = child.wait_with_output()?;
    let [output, error] =
        [ended.stdout, ended.stderr].map(|text| String::from_utf8_lossy(&text).into_owned());
    assert!(ended.status.success(), "the program ended with {}: {error}", ended.status);
    Ok(Printed { output, error })
}

/// What the program prints of an input.
fn printed(command: &[String], input: &[u8], arrival: Arrival) -> Result<Printed> {
    let mut child = started(command, Stdio::piped(), Stdio::piped())?;
    let mut stdin = child.stdin.take().expect("its input is piped");
    let written = match arrival {
        AtOnce => stdin.write_all(input),
        InPieces(count) => input.chunks(input.len().div_ceil(count)).try_for_each(|piece| {
            sleep(Duration::from_millis(20));
            stdin.write_all(piece)
        }),
    };
    // The program takes no more than it needs, so that the end of a longer input may not be wanted.
    written.or_else(|error| if error.kind() == ErrorKind::BrokenPipe { Ok(()) } else { Err(error) })?;
    drop(stdin);
    ended(child)
}

/// An input of these bytes, after which it ends or cannot be read.
fn arriving(input: &[u8], then: End) -> Result<Stdio> {
    let (mut near, mut far) = UnixStream::pair()?;
    near.write_all(input)?;
    if then == End::Failure {
        // A socket that is closed before it has read what was sent to it makes reading fail at its other end.
        far.write_all(&[0])?;
    }
    drop(near);
    Ok(OwnedFd::from(far).into())
}

/// How an input ends.
#[derive(PartialEq)]
enum End {
    Regular,
    Failure,
}

/// Gives the program inputs that cannot be read, also after a whole archive, and outputs that cannot be
/// written; says how many cases it tried, and how many failed.
fn failures(command: &[String], longest: &[u8]) -> Result<(usize, usize)> {
    let closing = ["sh", "-c", r#"exec "$@" >&-"#, "sh"].map(String::from);
    let closed = [&closing, command].concat();
    let full = || File::options().write(true).open("/dev/full").map(Stdio::from);
    let refused = ("refused 7\n", "");
    let cases = [
        ("a folder", command, File::open("/")?.into(), Stdio::piped(), refused),
        ("a failing read", command, arriving(&[], End::Failure)?, Stdio::piped(), refused),
        (
            "the example, then a failing read",
            command,
            arriving(&EXAMPLE, End::Failure)?,
            Stdio::piped(),
            refused,
        ),
        (
            "65,536 bytes, then a failing read",
            command,
            arriving(longest, End::Failure)?,
            Stdio::piped(),
            refused,
        ),
        ("a full disk", command, arriving(&EXAMPLE, End::Regular)?, full()?, ("", "")),
        ("a closed output", &closed, arriving(&EXAMPLE, End::Regular)?, Stdio::piped(), ("", "")),
        ("no archive, and a full disk", command, arriving(&[], End::Regular)?, full()?, ("", "")),
    ];
    let (count, mut failed) = (cases.len(), 0);
    for (name, command, input, output, expected) in cases {
        let printed = ended(started(command, input, output)?)?;
        if (&printed.output[..], &printed.error[..]) != expected {
            println!("{name}: prints or tells something else than {expected:?}");
            failed += 1;
        }
    }
    Ok((count, failed))
}

/// A body of identities for a user of the home network: so many services, and entries of three lists.
fn body(ssi: u32, services: u32, entries: [u32; 3], extension: u32) -> Pdu {
    let mut record = [0; RECORD_WORDS];
    record[at::PDU_TYPE] = 12;
    record[at::AFFECTED..at::AFFECTED + 2].copy_from_slice(&[1, ssi]);
    record[at::RESULT] = 1;
    record[at::SERVICE_COUNT] = services;
    for (list, count) in [at::GROUPS, at::RESTRICTED, at::EXCEPTIONS].into_iter().zip(entries) {
        record[list] = count;
        for entry in 0..count as usize {
            record[list + 1 + IDENTITY_WORDS * entry + 1] = extension;
        }
    }
    Pdu::of(&record)
}

/// The archive with the longest listing: in 65,536 bytes 475 of 512 bodies can have a bit length of four digits,
/// 1,000, if the others have the least of three, 100; all other numbers have the most digits.
fn longest_listing() -> Vec<u8> {
    let (home, long, short) = (0xff_ffff, (3, [8, 8, 3], 1), (5, [1, 0, 0], 0));
    let entry = |index| {
        let ssi = 0xff_fe00 + index as u32;
        let (services, entries, extension) = if index < 475 { long } else { short };
        Entry { user: [home, ssi], part: 1, day: u16::MAX, pdu: body(ssi, services, entries, extension) }
    };
    let bytes = Archive { home, entries: (0..MAX_ENTRIES).map(entry).collect() }.bytes();
    assert_eq!(expected(&bytes).0.output.len(), 23_029);
    bytes
}

/// The forms of what is printed.
const FORMS: [&str; 4] = ["listed", "refused", "refused at an entry", "refused at an entry's bit"];

/// What has to be printed of an input, and its form.
fn expected(input: &[u8]) -> (Printed, &'static str) {
    let mut text = vec![0; 1 << 16];
    let refused = match reference::contents(input, &mut text) {
        Ok(length) => {
            text.truncate(length);
            let output = String::from_utf8(text).expect("a listing is text");
            return (Printed { output, error: String::new() }, FORMS[0]);
        }
        Err(refused) => refused,
    };
    let (error, form) = match (refused.entry, refused.place) {
        (None, _) => (String::new(), FORMS[1]),
        (Some(entry), None) => (format!("entry {entry}\n"), FORMS[2]),
        (Some(entry), Some(place)) => (format!("entry {entry} bit {place}\n"), FORMS[3]),
    };
    (Printed { output: format!("refused {}\n", refused.number()), error }, form)
}

/// The inputs, each with its name, whether it is an archive, and how it arrives.
fn cases(rng: &mut Rng) -> Vec<(String, Vec<u8>, bool, Arrival)> {
    let empty = Archive { home: 0xff_ffff, entries: Vec::new() }.bytes();
    let full = Archive::random(rng, MAX_ENTRIES, Size::Small).bytes();
    let longest = Archive::of_length(rng, MAX_BYTES).bytes();
    let too_long = Archive::of_length(rng, MAX_BYTES + 1).bytes();
    let mut cases = vec![
        ("the example".into(), EXAMPLE.to_vec(), true, AtOnce),
        ("the example, byte by byte".into(), EXAMPLE.to_vec(), true, InPieces(EXAMPLE.len())),
        ("an empty archive".into(), empty, true, AtOnce),
        ("512 entries".into(), full.clone(), true, AtOnce),
        ("512 entries in pieces".into(), full.clone(), true, InPieces(7)),
        ("the longest listing".into(), longest_listing(), true, AtOnce),
        ("65,536 bytes".into(), longest.clone(), true, AtOnce),
        ("65,536 bytes in pieces".into(), longest.clone(), true, InPieces(5)),
        ("65,537 bytes".into(), too_long, false, AtOnce),
        ("65,536 bytes and one more in pieces".into(), [&longest[..], &[0]].concat(), false, InPieces(5)),
        ("twice 65,536 bytes".into(), longest.repeat(2), false, AtOnce),
        ("no input".into(), Vec::new(), false, AtOnce),
    ];
    // One damaged byte in each region: count, contents, body, end. Only another day leaves an archive.
    for (archive, name) in [(&EXAMPLE[..], "the example"), (&full, "512 entries"), (&longest, "65,536 bytes")]
    {
        let entries = usize::from(u16::from_be_bytes([archive[3], archive[4]]));
        let bodies = HEADER + LINE * entries;
        let last_line = bodies - LINE;
        let last_bits = usize::from(u16::from_be_bytes([archive[last_line + 7], archive[last_line + 8]]));
        let last_body = archive.len() - last_bits.div_ceil(8);
        for (region, place, bits) in [
            ("count", 4, 1),
            ("contents", HEADER + 6, 3),
            ("length", last_line + 8, 0x80),
            ("first day", HEADER + 9, 0x80),
            ("last day", last_line + 10, 1),
            ("first body", bodies, 0x80),
            ("last body", last_body, 0x80),
            ("end", archive.len() - 1, 1),
        ] {
            let mut damaged = archive.to_vec();
            damaged[place] ^= bits;
            let legal = region.ends_with("day");
            cases.push((format!("{name}, {region} damaged"), damaged, legal, AtOnce));
        }
        let mut damaged = archive.to_vec();
        damaged[bodies] |= 0x80;
        damaged[last_body] |= 0x80;
        cases.push((format!("{name}, first and last body damaged"), damaged, false, AtOnce));
        cases.push((format!("{name}, cut"), archive[..archive.len() - 1].to_vec(), false, AtOnce));
    }
    for (region, place, bits) in [("home network", 0, 1), ("number of services", HEADER + LINE + 5, 1)] {
        let mut damaged = EXAMPLE.to_vec();
        damaged[place] ^= bits;
        cases.push((format!("the example, {region} damaged"), damaged, false, AtOnce));
    }
    cases
}

fn main() -> Result<ExitCode> {
    let command: Vec<String> = std::env::args().skip(1).collect();
    if command.is_empty() {
        eprintln!("usage: program COMMAND [WORDS...]");
        return Ok(ExitCode::from(2));
    }
    let cases = cases(&mut Rng::new(SEED, 0));
    let (tried, mut failed) =
        failures(&command, &Archive::of_length(&mut Rng::new(SEED, 1), MAX_BYTES).bytes())?;
    let mut met = Met::default();
    met.expect("contents", FORMS);
    for (name, input, legal, arrival) in &cases {
        let (expected, form) = expected(input);
        assert_eq!(*legal, form == "listed", "{name} is not the case that it should be");
        met.meet("contents", form);
        let printed = printed(&command, input, *arrival)?;
        if printed.output != expected.output {
            println!("{name}: prints something else");
            failed += 1;
        } else if printed.error != expected.error {
            println!("{name}: standard error has {:?}, not {:?}", printed.error, expected.error);
            failed += 1;
        }
    }
    let complete = met.report();
    println!("contents: {} inputs, {tried} reads or writes that fail, {failed} failed", cases.len());
    Ok(if failed == 0 && complete { ExitCode::SUCCESS } else { ExitCode::FAILURE })
}
