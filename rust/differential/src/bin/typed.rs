//! Compares the structs and enums of the crate `boc` with the reference: `typed [SEED]`.
//!
//! Each case is seeded as words, on which the reference answers, and is said in that crate's types by the
//! tables of `differential::typed`. It ends with how often each value crossed in an accepted call, and how
//! often each refusal was met, and each way to stop; one that was never met is a failure too.

#![forbid(unsafe_code)]

use std::collections::BTreeSet;
use std::fmt::Debug;
use std::process::ExitCode;

use differential::typed::*;
use differential::*;
use reference::layout::{
    record as at, request as asked, DIGITS, KEY_WORDS, NUMBER_WORDS, RECORD_WORDS, SERVICES,
};

/// A kind of cases, how many there are, and what one does.
type Kind = (&'static str, u64, fn(&mut Cases, &mut Rng));

const KINDS: [Kind; 4] = [
    ("reading", 30_000, reads),
    ("writing", 30_000, writes),
    ("archives", 30_000, archives),
    ("entries", 10 * COUNTS.len() as u64, each_entry),
];

/// How many entries the archives have of which every index is asked for.
const COUNTS: [usize; 4] = [0, 1, 64, MAX_ENTRIES];

/// The elements of records that are codes, and the numbers that each can have.
fn elements() -> [(&'static str, Vec<u32>); 12] {
    [
        ("PDU type", numbers(PDU_TYPES)),
        ("interrogation type", numbers(INTERROGATION_TYPES)),
        ("result", numbers(OUTCOMES)),
        ("delivery status", numbers(DELIVERY_STATUSES)),
        ("service", numbers(SERVICE_CODES)),
        ("digit", numbers(DIGIT_CODES)),
        ("delivery", numbers(BITS)),
        ("acknowledgement", numbers(BITS)),
        ("definition type", numbers(DEFINITION_TYPES)),
        ("definition result", numbers(DEFINITION_RESULTS)),
        ("distribution result", numbers(DISTRIBUTION_RESULTS)),
        ("rejection cause", numbers(REJECTION_CAUSES)),
    ]
}

fn numbers<T>(table: &Table<T>) -> Vec<u32> {
    table.iter().map(|(number, _)| *number).collect()
}

/// The codes that the PDU of a legal record carries.
fn carried(words: &Record) -> BTreeSet<(&'static str, u32)> {
    let mut codes = BTreeSet::from([
        ("PDU type", words[at::PDU_TYPE]),
        ("interrogation type", words[at::INTERROGATION_TYPE]),
    ]);
    let form = Form::of(words[at::PDU_TYPE]).expect("it is a PDU type");
    codes.extend(form.codes.iter().map(|code| (code.name(), words[code.word])));
    let services = &words[at::FIRST_SERVICE..][..SERVICES];
    codes.extend(services[..words[at::SERVICE_COUNT] as usize].iter().map(|word| ("service", *word)));
    for list in [at::RESTRICTED_NUMBERS, at::EXCEPTED_NUMBERS] {
        for entry in words[list + 1..].chunks(NUMBER_WORDS).take(words[list] as usize) {
            codes.extend(entry[1..][..entry[0] as usize].iter().map(|digit| ("digit", *digit)));
        }
    }
    codes
}

/// The codes of a definition.
fn defined(definition: &[u32]) -> [(&'static str, u32); 3] {
    [("delivery", definition[0]), ("acknowledgement", definition[1]), ("definition type", definition[2])]
}

/// The cases, which compare and count.
struct Cases {
    /// The kind and the number of the case.
    case: (&'static str, u64),
    met: Met,
}

/// All that has to be met.
fn expected() -> Met {
    let mut met = Met::default();
    for call in ["read", "write"] {
        for (element, numbers) in elements() {
            met.expect(&format!("{call}, {element}"), numbers);
        }
    }
    met.expect("capture, day", DAYS);
    met.expect("restore, day", DAYS);
    met.expect("entry, day", DAYS);
    met.expect("entry, part", numbers(PARTS));
    met.expect("entries, so many", COUNTS);
    met.expect("restore, part", numbers(PARTS));
    met.expect("reload, part", numbers(PARTS));
    for call in ["reload", "reload_external"] {
        met.expect(&format!("{call}, delivery"), numbers(BITS));
        met.expect(&format!("{call}, acknowledgement"), numbers(BITS));
        met.expect(&format!("{call}, definition type"), numbers(DEFINITION_TYPES));
    }
    met.expect("decide, service", [1, 2, 3]);
    met.expect("decide, destination", [1, 2]);
    met.expect("decide, digit", numbers(DIGIT_CODES));
    met.expect("decide, group given", [0, 1]);
    met.expect("decide, decision", numbers(DECISIONS));
    met.expect("any call, refusal", numbers(REFUSALS));
    met.expect("any call, stopped", STOPPED);
    met
}

/// The first day and the last, which have to cross both ways.
const DAYS: [u16; 2] = [0, u16::MAX];

/// Where a refused call stopped.
const STOPPED: [&str; 4] = ["nowhere", "at a bit", "at an entry", "at an entry's bit"];

fn stopped(entry: Option<usize>, place: Option<usize>) -> &'static str {
    STOPPED[2 * usize::from(entry.is_some()) + usize::from(place.is_some())]
}

impl Cases {
    /// What the crate answers where the reference answers so.
    fn expected<N>(&mut self, answer: Result<N, reference::Refused>) -> Result<N, boc::Refused> {
        answer.map_err(|reference::Refused { why, entry, place }| {
            let number = why.number();
            self.met.meet("any call, refusal", number);
            self.met.meet("any call, stopped", stopped(entry, place));
            let why = value(REFUSALS, number).expect("it is a refusal");
            assert_eq!(why.number(), number, "{:?}", self.case);
            boc::Refused { why, entry, place }
        })
    }

    /// Compares a call that is lent a buffer; its answer, if it is accepted.
    fn compare<N: PartialEq + Debug>(
        &mut self,
        rng: &mut Rng,
        needed: usize,
        library: impl FnOnce(&mut [u8]) -> Result<N, boc::Refused>,
        reference: impl FnOnce(&mut [u8]) -> Result<N, reference::Refused>,
    ) -> Option<N> {
        let mut ours = vec![0; room(rng, needed)];
        rng.fill(&mut ours);
        let mut theirs = ours.clone();
        let expected = self.expected(reference(&mut theirs));
        assert_eq!(library(&mut ours), expected, "{:?}", self.case);
        assert_eq!(ours, theirs, "{:?}", self.case);
        expected.ok()
    }
}

fn reads(cases: &mut Cases, rng: &mut Rng) {
    let mut pdu = Pdu::of(&record(rng));
    if rng.one_in(2) {
        pdu.damage(rng);
    }
    let mut words = [0; RECORD_WORDS];
    let answer = reference::read(&pdu.bytes, pdu.bits, &mut words);
    let expected = cases.expected(answer).map(|()| typed_record(&words).expect("a legal record can be said"));
    assert_eq!(boc::read(&pdu.bytes, pdu.bits), expected, "{:?}", cases.case);
    if let Ok(record) = expected {
        assert_eq!(boc::Record::from_words(&words), Some(record), "{:?}", cases.case);
        carried(&words)
            .iter()
            .for_each(|(element, number)| cases.met.meet(&format!("read, {element}"), number));
    }
}

fn writes(cases: &mut Cases, rng: &mut Rng) {
    let mut words = record(rng);
    let needed = Pdu::of(&words).bytes.len();
    if rng.one_in(2) {
        damage_record(rng, &mut words);
    }
    let Some(record) = typed_record(&words) else {
        return;
    };
    assert_eq!(record.to_words(), words, "{:?}", cases.case);
    let written = cases.compare(
        rng,
        needed,
        |out| Ok(boc::write(&record, out)?),
        |out| Ok(reference::write(&words, out)?),
    );
    if written.is_some() {
        carried(&words)
            .iter()
            .for_each(|(element, number)| cases.met.meet(&format!("write, {element}"), number));
    }
}

fn archives(cases: &mut Cases, rng: &mut Rng) {
    let home = if rng.one_in(20) { rng.bits(32) } else { network(rng) };
    cases.compare(rng, 5, |out| Ok(boc::empty(home, out)?), |out| Ok(reference::empty(home, out)?));

    let count = rng.below(6);
    let archive = Archive::random(rng, count, Size::Any);
    let held = if rng.one_in(6) { archive.damaged(rng).1 } else { archive.bytes() };
    let lines = 26 + 45 * count;
    cases.compare(rng, lines, |out| boc::contents(&held, out), |out| reference::contents(&held, out));

    let user = archive.user(rng);
    let Pdu { bytes, bits } = offered(rng, archive.home, user);
    let day = day(rng);
    let captured = cases.compare(
        rng,
        held.len() + LINE + bytes.len(),
        |out| boc::capture(&held, &bytes, bits, day, out),
        |out| reference::capture(&held, &bytes, bits, day.into(), out),
    );
    if captured.is_some() && DAYS.contains(&day) {
        cases.met.meet("capture, day", day);
    }

    let [network, ssi] = archive.user(rng);
    let (number, part) = rng.pick(PARTS);
    let restored = cases.compare(
        rng,
        boc::PDU_BYTES,
        |out| {
            let restored = boc::restore(&held, boc::Party { network, ssi }, part, out);
            restored.map(|boc::Restored { bits, day }| (bits, day))
        },
        |out| {
            let restored = reference::restore(&held, network, ssi, number, out);
            restored.map(|reference::Restored { bits, day }| (bits, day))
        },
    );
    if let Some((_, day)) = restored {
        cases.met.meet("restore, part", number);
        if DAYS.contains(&day) {
            cases.met.meet("restore, day", day);
        }
    }
    for external in [false, true] {
        let reload = Reload::random(rng, &archive, external);
        reloads(cases, rng, &held, &reload);
    }
    let user = archive.user(rng);
    decides(cases, rng, &held, user);
    let index = rng.below(count + 2);
    let _ = entry(cases, &held, index);
}

/// The entry at an index.
fn entry(cases: &mut Cases, held: &[u8], index: usize) -> Result<boc::Entry, boc::Refused> {
    let mut key = [0; KEY_WORDS];
    let rest = cases.expected(reference::entry(held, index, &mut key));
    let [network, ssi, part] = key;
    let expected = rest.map(|reference::Restored { bits, day }| {
        cases.met.meet("entry, part", part);
        if DAYS.contains(&day) {
            cases.met.meet("entry, day", day);
        }
        let part = value(PARTS, part).expect("it is a part");
        boc::Entry { user: boc::Party { network, ssi }, part, bits, day }
    });
    assert_eq!(boc::entry(held, index), expected, "{:?}", cases.case);
    expected
}

/// Each index of an archive, and those beyond its last; of the damaged archive too. All entries in their order
/// are those.
fn each_entry(cases: &mut Cases, rng: &mut Rng) {
    let count = COUNTS[cases.case.1 as usize % COUNTS.len()];
    let archive = Archive::random(rng, count, if count == MAX_ENTRIES { Size::Small } else { Size::Any });
    for held in [archive.bytes(), archive.damaged(rng).1] {
        let found: Result<Vec<_>, _> = (0..count).map(|index| entry(cases, &held, index)).collect();
        // An archive without entries is refused at none of them.
        let found = found.and_then(|found| match entry(cases, &held, count) {
            Err(refused) if refused.why == boc::Refusal::Archive => Err(refused),
            _ => Ok(found),
        });
        for index in beyond(count) {
            let _ = entry(cases, &held, index);
        }
        assert_eq!(boc::entries(&held).map(Iterator::collect), found, "{:?}", cases.case);
        if let Ok(entries) = found {
            cases.met.meet("entries, so many", entries.len());
        }
    }
}

fn reloads(cases: &mut Cases, rng: &mut Rng, held: &[u8], reload: &Reload) {
    let Reload { external, user: [network, ssi], part: number, definition: words } = *reload;
    let (Some(part), Some(definition)) = (value(PARTS, number), typed_definition(&words)) else {
        return;
    };
    let user = boc::Party { network, ssi };
    let reloaded = cases.compare(
        rng,
        boc::PDU_BYTES,
        |out| {
            if external {
                boc::reload_external(held, user, definition, out)
            } else {
                boc::reload(held, user, part, definition, out)
            }
        },
        |out| reload.reference(held, out),
    );
    if reloaded.is_some() {
        if !external {
            cases.met.meet("reload, part", number);
        }
        for (element, number) in defined(&words) {
            cases.met.meet(&format!("{}, {element}", reload.call()), number);
        }
    }
}

fn decides(cases: &mut Cases, rng: &mut Rng, held: &[u8], user: [u32; 2]) {
    let mut words = request(rng, user);
    if rng.one_in(6) {
        damage_request(rng, &mut words);
    }
    let Some(request) = typed_request(&words) else {
        return;
    };
    assert_eq!(request.to_words(), words, "{:?}", cases.case);
    let number = reference::decide(held, &words).map(|decision| decision.number());
    let expected = cases.expected(number);
    let decided = expected.map(|number| value(DECISIONS, number).expect("it is a decision"));
    assert_eq!(boc::decide(held, &request), decided, "{:?}", cases.case);
    assert_eq!(boc::decide_in_place(held, &request), decided, "{:?}", cases.case);
    if let (Ok(number), Ok(decision)) = (expected, decided) {
        assert_eq!(decision.cause(), value(REJECTION_CAUSES, number), "{:?}", cases.case);
        cases.met.meet("decide, decision", number);
        cases.met.meet("decide, service", words[asked::SERVICE]);
        cases.met.meet("decide, destination", words[asked::KIND]);
        cases.met.meet("decide, group given", words[asked::GROUP_GIVEN]);
        let digits = &words[asked::FIRST_DIGIT..][..DIGITS];
        for digit in &digits[..words[asked::LENGTH] as usize] {
            cases.met.meet("decide, digit", *digit);
        }
    }
}

fn main() -> ExitCode {
    let Some(seed) = seed() else {
        eprintln!("usage: typed [SEED]");
        return ExitCode::from(2);
    };
    println!("seed {seed}");
    let mut cases = Cases { case: ("", 0), met: expected() };
    for (number, (kind, count, run)) in (0..).zip(KINDS) {
        for case in 0..count {
            cases.case = (kind, case);
            run(&mut cases, &mut Rng::new(seed, case << 3 | number));
        }
    }
    if cases.met.report() {
        ExitCode::SUCCESS
    } else {
        ExitCode::FAILURE
    }
}
