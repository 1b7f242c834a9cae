//! Compares the calls of the library with the reference: `calls [SEED]`.
//!
//! Each case lends both sides equal buffers of random content and compares the answers, every byte or word of every
//! buffer, margins before and after what was lent, and the numbers behind the last pointers: a length, a day or a
//! decision, and where a refused call stopped. It ends with how often each answer of each call was met, each refusal
//! of a PDU that has a place, each value of each code of each PDU and each reserved one, 7 for each damage to an
//! archive and for each fault in one, and an archive accepted with other bits of a day; 6, 8 and 9 for each reason
//! that capture can have, 9 in the place of each of its other answers, and the same PDU captured with a lower, the
//! same and a higher day; each index of archives of 0, 1, 64 and 512 entries, 9 for each wrong count of a key's words
//! and in the place of each other answer of entry; a reload of each part under each definition type, 9 and 12 for
//! each reason that either reload can have; each decision for a visitor from another network, and a visitor's call
//! that is decided otherwise with the home network for the visitor's own. One that was never met is a failure too.

#![forbid(unsafe_code)]

use std::process::ExitCode;

use differential::*;
use reference::layout::{KEY_WORDS, RECORD_WORDS};

mod calls;
mod lent;
mod values;

use calls::{Calls, COUNTS, NO_KEYS};

/// A kind of cases, how many there are, and what one does.
type Kind = (&'static str, u64, fn(&mut Calls, &mut Rng));

/// How many records of each PDU type are tried with each value of each element.
const SAMPLES: u64 = 30;

const KINDS: [Kind; 11] = [
    ("PDUs", 400_000, pdus),
    ("records", 300_000, records),
    ("empty archives", 5_000, empties),
    ("small archives", 100_000, small_archives),
    ("large archives", 2_000, large_archives),
    ("histories", 600, histories),
    ("days", 10_000, days),
    ("changed PDUs", 60, changed_pdus),
    ("changed elements", SAMPLES * FORMS.len() as u64, changed_elements),
    ("changed archives", 2, changed_archives),
    ("entries", 40 * COUNTS.len() as u64, entries),
];

fn pdus(calls: &mut Calls, rng: &mut Rng) {
    let mut pdu = Pdu::of(&record(rng));
    if !rng.one_in(4) {
        pdu.damage(rng);
    }
    let length = if rng.one_in(40) { rng.pick(&[0, 1, 514, 517, 519, 521, 600]) } else { RECORD_WORDS };
    let _ = calls.read(rng, &pdu, length);
}

fn records(calls: &mut Calls, rng: &mut Rng) {
    let mut words = record(rng);
    let needed = Pdu::of(&words).bytes.len();
    if rng.one_in(2) {
        damage_record(rng, &mut words);
    }
    let room = room(rng, needed);
    let mut given = words.to_vec();
    if rng.one_in(20) {
        given.resize(rng.pick(&[0, 1, 514, 517, 519, 521]), 0);
    }
    let _ = calls.write(rng, &given, room);
}

fn empties(calls: &mut Calls, rng: &mut Rng) {
    let home = if rng.one_in(4) { rng.bits(32) } else { network(rng) + rng.bits(1) };
    let room = rng.below(12);
    calls.empty(rng, home, room);
}

fn small_archives(calls: &mut Calls, rng: &mut Rng) {
    let count = rng.below(9);
    let size = rng.pick(&[Size::Small, Size::Any, Size::Any, Size::Full]);
    let archive = Archive::random(rng, count, size);
    calls.all(rng, &archive, 3);
}

fn large_archives(calls: &mut Calls, rng: &mut Rng) {
    let (archive, damage) = match rng.below(6) {
        0 => (Archive::random(rng, 64, Size::Any), None),
        1 => (Archive::random(rng, MAX_ENTRIES, Size::Full), None),
        // One entry too many; no room for one more byte; one byte too many; no room for another entry.
        2 => (Archive::random(rng, MAX_ENTRIES + 1, Size::Small), Some("513 entries")),
        3 => (Archive::of_length(rng, MAX_BYTES), None),
        4 => (Archive::of_length(rng, MAX_BYTES + 1), Some("65,537 bytes")),
        _ => (Archive::random(rng, MAX_ENTRIES, Size::Small), None),
    };
    calls.damage = damage;
    calls.all(rng, &archive, 5);
    // The limits of 512 entries and 65,536 bytes, met from below: an entry that is captured into the archive
    // without it, or once more in its own place.
    let mut below = archive.clone();
    let index = rng.below(archive.entries.len());
    if rng.one_in(2) {
        below.entries.remove(index);
    }
    calls.damage = damage;
    let day = offered_day(rng);
    calls.capture(rng, &below.bytes(), &archive.entries[index].pdu, day, AMPLE);
}

/// Captures from an empty archive on, each into what the last accepted one gave.
fn histories(calls: &mut Calls, rng: &mut Rng) {
    let home = network(rng);
    let mut held = Archive { home, entries: Vec::new() }.bytes();
    let users: Vec<[u32; 2]> = (0..rng.between(1, 40)).map(|_| [network(rng), ssi(rng)]).collect();
    for _ in 0..rng.between(1, 100) {
        let user = rng.pick(&users);
        let pdu = offered(rng, home, user);
        let room = if rng.one_in(10) { rng.below(held.len()) } else { AMPLE };
        let day = offered_day(rng);
        if let Some(new) = calls.capture(rng, &held, &pdu, day, room) {
            held = new;
        }
    }
    for user in users {
        for part in [1, 2] {
            calls.restore_any_room(rng, &held, user, part);
            let definition = definition(rng);
            for external in [false, true] {
                let part = if external { 2 } else { part };
                calls.reload_any_room(rng, &held, &Reload { external, user, part, definition });
            }
        }
        let words = request(rng, user);
        calls.decide(rng, &held, &words);
    }
    calls.contents_any_room(rng, &held);
}

/// An entry's PDU captured again, with another day, with the same, and with one that is none.
fn days(calls: &mut Calls, rng: &mut Rng) {
    let count = rng.between(1, 6);
    let archive = Archive::random(rng, count, Size::Any);
    let index = rng.below(count);
    for day in [day(rng), archive.entries[index].day] {
        calls.recapture(rng, &archive, index, day);
    }
    for day in NO_DAYS {
        let kept = calls.capture(rng, &archive.bytes(), &archive.entries[index].pdu, day, AMPLE);
        assert_eq!(kept, None, "{:?}", calls.case);
    }
}

/// A PDU cut at each of its bits, and with each of its bits flipped, read and captured: the longest of each
/// type, the longest parts for one user, and any PDUs.
fn changed_pdus(calls: &mut Calls, rng: &mut Rng) {
    let (home, user) = (1, [1, 5]);
    let words = match calls.case.2 {
        form @ 0..9 => record_of(rng, FORMS[form as usize].number, Size::Full),
        9 => longest_part(rng, 1),
        10 => part(rng, home, user, 1, Size::Full),
        11 => part(rng, home, user, 2, Size::Full),
        _ => record(rng),
    };
    let pdu = Pdu::of(&words);
    let held = Archive::random(rng, 3, Size::Small).bytes();
    let room = held.len() + LINE + pdu.bytes.len();
    let day = u32::from(day(rng));
    let cut = (0..=pdu.bits).map(|bits| pdu.cut(bits));
    let flipped = (0..pdu.bits).map(|place| pdu.flipped(place));
    for (change, pdu) in cut.chain(flipped).enumerate() {
        calls.change = change;
        let _ = calls.read(rng, &pdu, RECORD_WORDS);
        calls.capture(rng, &held, &pdu, day, room);
    }
}

/// A PDU of each type, the longest and any, with each value of each of its elements.
fn changed_elements(calls: &mut Calls, rng: &mut Rng) {
    let (_, _, case) = calls.case;
    let size = if case < FORMS.len() as u64 { Size::Full } else { Size::Any };
    let words = record_of(rng, FORMS[case as usize % FORMS.len()].number, size);
    calls.each_value(rng, &words);
}

/// An archive of 512 entries cut at each of its bytes, and with bits flipped: with the smallest bodies each
/// bit, in every call; with 65,536 bytes each bit before the bodies and each seventh of theirs, in its
/// listing.
fn changed_archives(calls: &mut Calls, rng: &mut Rng) {
    let (_, _, case) = calls.case;
    let archive = match case {
        0 => Archive::random(rng, MAX_ENTRIES, Size::Small),
        _ => Archive::of_length(rng, MAX_BYTES),
    };
    assert_eq!(archive.entries.len(), MAX_ENTRIES);
    let whole = archive.bytes();
    let last = archive.entries.last().expect("it has entries");
    let words = request(rng, last.user);
    let [as_define, as_external] = [(false, last.part), (true, 2)].map(|(external, part)| Reload {
        external,
        user: last.user,
        part,
        definition: [1, 1, 1],
    });
    let mut try_calls = |calls: &mut Calls, bytes: &[u8], damage: &'static str| {
        calls.change += 1;
        calls.damage = Some(damage);
        // With other bits of a day it is listed whole.
        calls.contents(rng, bytes, if damage == DAYS_BITS { boc::CONTENTS_BYTES } else { 100 });
        if case == 0 {
            calls.capture(rng, bytes, &last.pdu, last.day.into(), whole.len());
            let _ = calls.restore(rng, bytes, last.user, last.part, 100);
            calls.reload(rng, bytes, &as_define, 100);
            calls.reload(rng, bytes, &as_external, 100);
            calls.decide(rng, bytes, &words);
            let index = calls.change % MAX_ENTRIES;
            let _ = calls.entry(rng, bytes, index, KEY_WORDS);
        }
    };
    for length in 0..whole.len() {
        try_calls(calls, &whole[..length], "end cut");
    }
    let mut flipped = whole.clone();
    for bit in 0..8 * whole.len() {
        let damage = archive.region(bit / 8);
        if case == 0 || damage != "body's bits" || bit % 7 == 0 {
            flipped[bit / 8] ^= 0x80 >> (bit % 8);
            try_calls(calls, &flipped, damage);
            flipped[bit / 8] = whole[bit / 8];
        }
    }
}

/// An archive of each count: each index and those beyond the last; the same of the damaged archive, and with
/// counts of words that are no key's.
fn entries(calls: &mut Calls, rng: &mut Rng) {
    let count = COUNTS[calls.case.2 as usize % COUNTS.len()];
    let archive = Archive::random(rng, count, if count == MAX_ENTRIES { Size::Small } else { Size::Any });
    calls.each_entry(rng, &archive);
    let (damage, damaged) = archive.damaged(rng);
    calls.damage = Some(damage);
    for index in (0..count).chain(beyond(count)) {
        calls.change = index;
        let _ = calls.entry(rng, &damaged, index, KEY_WORDS);
    }
    for key_words in NO_KEYS {
        for index in [0, count, usize::MAX] {
            let _ = calls.entry(rng, &archive.bytes(), index, key_words);
            let _ = calls.entry(rng, &damaged, index, key_words);
        }
    }
}

fn main() -> ExitCode {
    let Some(seed) = seed() else {
        eprintln!("usage: calls [SEED]");
        return ExitCode::from(2);
    };
    println!("seed {seed}");
    let mut calls = Calls::new();
    for (number, (kind, cases, run)) in (0..).zip(KINDS) {
        for case in 0..cases {
            calls.case = (seed, kind, case);
            calls.change = 0;
            calls.damage = None;
            run(&mut calls, &mut Rng::new(seed, case << 4 | number));
        }
    }
    if calls.met.report() {
        ExitCode::SUCCESS
    } else {
        ExitCode::FAILURE
    }
}
