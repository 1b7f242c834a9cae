//! Prints, as Markdown, the time per call of the library beside the reference: the same inputs in the same
//! run, round by round in turn, of each side the fastest round.

#![forbid(unsafe_code)]

use std::hint::black_box;
use std::time::{Duration, Instant};

use boc::ffi::Spot;
use differential::{longest_part, record_of, Archive, Entry, Pdu, Record, Reload, Rng, Size};
use reference::layout::{record as at, request, KEY_WORDS, RECORD_WORDS, REQUEST_WORDS};

const ROUNDS: usize = 200;
const ROUND: Duration = Duration::from_micros(400);
const ROOM: usize = 65_536;

/// What a call answers: its refusal number, 0 for none, and a length or a decision besides.
type Answer = (u32, usize);

/// The reference's answer.
fn answer(result: Result<usize, impl Into<reference::Refused>>) -> Answer {
    result.map_or_else(|refused| (refused.into().number(), 0), |value| (0, value))
}

/// The library's answer: what a call with pointers to a number and to where it stops returns, and that number.
fn through<N: Default + Copy>(call: impl FnOnce(&mut N, &mut Spot) -> u32) -> (u32, N) {
    let (mut number, mut spot) = (N::default(), Spot::NONE);
    (call(&mut number, &mut spot), number)
}

/// Nanoseconds per call.
#[derive(Clone, Copy)]
struct Times {
    library: f64,
    reference: f64,
}

impl Times {
    /// Measures two calls, each with a buffer of its own. Both have to accept, and to answer and write alike.
    fn of<T: Copy + Default + PartialEq>(
        room: usize,
        library: impl Fn(&mut [T]) -> Answer,
        reference: impl Fn(&mut [T]) -> Answer,
    ) -> Self {
        let (mut ours, mut theirs) = (vec![T::default(); room], vec![T::default(); room]);
        let (answer, expected) = (library(&mut ours), reference(&mut theirs));
        assert_eq!((answer, expected.0), (expected, 0), "the two sides answer alike and accept");
        assert!(ours == theirs, "the two sides write alike");
        let mut library = || library(black_box(&mut ours));
        let mut reference = || reference(black_box(&mut theirs));
        let calls = calls_per_round(&mut library);
        let mut best = Times { library: f64::INFINITY, reference: f64::INFINITY };
        for _ in 0..ROUNDS {
            best.library = best.library.min(round(calls, &mut library));
            best.reference = best.reference.min(round(calls, &mut reference));
        }
        best
    }

    /// Prints a row whose first cells say what was measured.
    fn row(&self, cells: &str) {
        let Times { library, reference } = self;
        println!("| {cells} | {library:.0} | {reference:.0} | {:.2} |", library / reference);
    }

    /// The time for each entry from the first measurement to the last.
    fn growth(few: (usize, Times), many: (usize, Times)) -> Times {
        let entries = (many.0 - few.0) as f64;
        Times {
            library: (many.1.library - few.1.library) / entries,
            reference: (many.1.reference - few.1.reference) / entries,
        }
    }
}

/// Nanoseconds per call in one round.
fn round<T>(calls: u32, call: &mut impl FnMut() -> T) -> f64 {
    let began = Instant::now();
    for _ in 0..calls {
        black_box(call());
    }
    began.elapsed().as_nanos() as f64 / f64::from(calls)
}

fn calls_per_round<T>(call: &mut impl FnMut() -> T) -> u32 {
    let mut calls = 1;
    loop {
        let time = round(calls, call) * f64::from(calls);
        if time >= ROUND.as_nanos() as f64 {
            return calls;
        }
        calls *= 2;
    }
}

/// Profile A: services [1], no groups, restricted range 100 to 199, exception 150; user 5, no extensions.
fn profile_a() -> Record {
    let mut words = [0; RECORD_WORDS];
    words[at::PDU_TYPE] = 12;
    words[at::AFFECTED..][..2].copy_from_slice(&[1, 5]);
    words[at::RESULT] = 1;
    words[at::SERVICE_COUNT..][..2].copy_from_slice(&[1, 1]);
    words[at::RESTRICTED..][..5].copy_from_slice(&[9, 100, 0, 0, 199]);
    words[at::EXCEPTIONS..][..2].copy_from_slice(&[1, 150]);
    words
}

fn read_and_write(rng: &mut Rng) {
    let records = [
        ("profile A", profile_a()),
        ("longest identity part", longest_part(rng, 1)),
        ("longest number part", longest_part(rng, 2)),
        ("longest DEFINE", record_of(rng, 5, Size::Full)),
        ("longest DEFINE EXTERNAL", record_of(rng, 7, Size::Full)),
    ];
    for (name, record) in records {
        let Pdu { bytes, bits } = Pdu::of(&record);
        Times::of(
            RECORD_WORDS,
            |words| through(|_, spot| boc::ffi::read(black_box(&bytes), bits, words, &mut spot.place)),
            |words| answer(reference::read(black_box(&bytes), bits, words).map(|()| 0)),
        )
        .row(&format!("read | {name} | {bits}"));
        Times::of(
            512,
            |out| through(|bits, _| boc::ffi::write(black_box(&record), out, bits)),
            |out| answer(reference::write(black_box(&record), out)),
        )
        .row(&format!("write | {name} | {bits}"));
    }
}

/// Capture in place of the last entry, what its line says, restore of it, each reload that it has, the listing,
/// and a decision by it with each engine.
fn on_archive(archive: &Archive) -> Vec<(&'static str, Times)> {
    let held = archive.bytes();
    let held = held.as_slice();
    let Entry { user: [network, ssi], part, day, pdu } = archive.entries.last().expect("it has entries");
    let (bytes, bits, day) = (pdu.bytes.as_slice(), pdu.bits, u32::from(*day));
    let capture = Times::of(
        ROOM,
        |out| through(|length, spot| boc::ffi::capture(black_box(held), bytes, bits, day, out, length, spot)),
        |out| answer(reference::capture(black_box(held), bytes, bits, day, out)),
    );
    let last = archive.entries.len() - 1;
    let entry = Times::of(
        KEY_WORDS,
        |key| {
            let (number, (bits, _)) =
                through(|(bits, day), spot| boc::ffi::entry(black_box(held), last, key, bits, day, spot));
            (number, bits)
        },
        |key| answer(reference::entry(black_box(held), last, key).map(|entry| entry.bits)),
    );
    let restore = Times::of(
        ROOM,
        |out| {
            let (number, (bits, _)) = through(|(bits, day), spot| {
                boc::ffi::restore(black_box(held), *network, *ssi, *part, out, bits, day, spot)
            });
            (number, bits)
        },
        |out| {
            let restored = reference::restore(black_box(held), *network, *ssi, *part, out);
            answer(restored.map(|restored| restored.bits))
        },
    );
    let contents = Times::of(
        ROOM,
        |out| through(|length, spot| boc::ffi::contents(black_box(held), out, length, spot)),
        |out| answer(reference::contents(black_box(held), out)),
    );
    // Speech to a destination that no list has, so that every entry is looked at.
    let mut call = [0; REQUEST_WORDS];
    call[..4].copy_from_slice(&[*network, *ssi, 1, *part]);
    if *part == 1 {
        call[request::NETWORK..][..2].copy_from_slice(&[0x12_3456, 0x65_4321]);
    } else {
        call[request::LENGTH] = 24;
        call[request::FIRST_DIGIT..][..24].fill(7);
    }
    let mut times = vec![("capture", capture), ("entry", entry), ("restore", restore)];
    // As a replacement that is delivered and acknowledged. No part with numbers is a DEFINE, and no identity
    // part a DEFINE EXTERNAL.
    for external in [false, true] {
        let reload = Reload { external, user: [*network, *ssi], part: *part, definition: [1, 1, 1] };
        if reload.reference(held, &mut [0; 512]).is_ok() {
            times.push((reload.call(), reloads(held, &reload)));
        }
    }
    times.push(("contents", contents));
    for (engine, decide) in
        [("decide", boc::ffi::decide as Engine), ("decide_in_place", boc::ffi::decide_in_place)]
    {
        times.push((engine, decisions(held, &call, decide)));
    }
    times
}

/// One of the two engines, as a C call.
type Engine = fn(&[u8], &[u32], &mut u32, &mut Spot) -> u32;

fn decisions(held: &[u8], call: &[u32; REQUEST_WORDS], decide: Engine) -> Times {
    Times::of::<u8>(
        0,
        |_| {
            let (number, decision) =
                through(|decision, spot| decide(black_box(held), black_box(call), decision, spot));
            (number, decision as usize)
        },
        |_| {
            let decided = reference::decide(black_box(held), black_box(call));
            answer(decided.map(|decision| decision.number() as usize))
        },
    )
}

fn reloads(held: &[u8], reload: &Reload) -> Times {
    Times::of(
        ROOM,
        |out| through(|bits, spot| reload.library(black_box(held), out, bits, spot)),
        |out| answer(reload.reference(black_box(held), out)),
    )
}

fn head(cells: &[&str]) {
    println!(
        "\n| {} | library | reference | ratio |\n|{}",
        cells.join(" | "),
        "---|".repeat(cells.len() + 3)
    );
}

fn main() {
    let rng = &mut Rng::new(2026, 0);
    println!("Nanoseconds per call on {}, and the ratio of library to reference.", std::env::consts::ARCH);
    println!("\nProfile A, and the longest parts, DEFINE and DEFINE EXTERNAL with eight affected users:");
    head(&["call", "PDU", "bits"]);
    read_and_write(rng);

    println!("\nOn the last entry of an archive:");
    head(&["call", "parts", "bodies", "entries"]);
    let mut growths = Vec::new();
    for (kind, name) in [(1, "identity"), (2, "number")] {
        for (size, body) in [(Size::Small, "smallest"), (Size::Full, "longest")] {
            let mut measured = Vec::new();
            for count in [1, 64, 512] {
                let archive = Archive::of_parts(rng, count, &[kind], size);
                let entries = archive.entries.len();
                let times = on_archive(&archive);
                for (call, times) in &times {
                    times.row(&format!("{call} | {name} | {body} | {entries}"));
                }
                measured.push((entries, times));
            }
            let ((few, first), (many, last)) = (&measured[0], &measured[2]);
            for ((call, first), (_, last)) in first.iter().zip(last) {
                let cells = format!("{call} | {name} | {body} | {few} to {many}");
                growths.push((cells, Times::growth((*few, *first), (*many, *last))));
            }
        }
    }

    println!("\nFor each entry more:");
    head(&["call", "parts", "bodies", "entries"]);
    growths.iter().for_each(|(cells, times)| times.row(cells));
}
