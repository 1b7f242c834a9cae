//! The calls, each on both sides.

use std::cmp::Ordering;
use std::fmt::Debug;

use boc::ffi::{Spot, NOWHERE};
use differential::*;
use reference::layout::{record, request as at, KEY_WORDS, REQUEST_WORDS};
use reference::{Refusal, Refused, Restored};

use crate::lent::{bytes, words, Lent, MARGIN};

/// The calls, and the answers that each can give: 0 or a refusal number.
const CALLS: &[(&str, &[u32])] = &[
    ("read", &[0, 1, 2, 3, 4, 5, 9]),
    ("write", &[0, 3, 4, 8, 9]),
    ("empty", &[0, 8, 9]),
    ("capture", &[0, 1, 2, 3, 4, 5, 6, 7, 8, 9]),
    ("entry", &[0, 7, 9, 11]),
    ("restore", &[0, 7, 8, 9, 11]),
    ("reload", &[0, 7, 8, 9, 11, 12]),
    ("reload_external", &[0, 7, 8, 9, 11, 12]),
    ("decide", &[0, 7, 9]),
    ("decide_in_place", &[0, 7, 9]),
    ("contents", &[0, 7, 8]),
];

/// The refusals of a PDU that have a place.
const PLACED: [u32; 4] = [2, 3, 4, 5];

/// One of the two engines that decide.
type Engine = fn(&[u8], &[u32], &mut u32, &mut Spot) -> u32;

/// What a visitor's own network tells apart from the home network.
const TELLS: [&str; 2] = ["destination", "group"];

/// What a day that is captured may be beside the day that the same part had.
const BESIDE: [&str; 3] = ["lower", "the same", "higher"];

/// Counts of words that are not those of a key.
pub const NO_KEYS: [usize; 6] = [0, 1, 2, 4, 34, 520];

/// How many entries the archives have of which every index is asked for.
pub const COUNTS: [usize; 4] = [0, 1, 64, MAX_ENTRIES];

/// What is behind the pointers to single numbers: a length, a length and a day, or a decision, and where a
/// refused call stopped.
#[derive(Clone, Copy, PartialEq, Debug)]
struct Behind<N> {
    number: N,
    spot: Spot,
}

impl Behind<usize> {
    fn random(rng: &mut Rng) -> Self {
        Behind { number: rng.draw() as usize, spot: random_spot(rng) }
    }

    /// For a call that has no pointers to an entry and a place.
    fn without_spot(rng: &mut Rng) -> Self {
        Behind { number: rng.draw() as usize, spot: Spot::NONE }
    }
}

fn random_spot(rng: &mut Rng) -> Spot {
    Spot { entry: rng.draw() as usize, place: rng.draw() as usize }
}

/// The calls, which compare and count.
pub struct Calls {
    /// Of which seed, kind and number the case is.
    pub case: (u64, &'static str, u64),
    /// Which change of the case it is, where it tries many.
    pub change: usize,
    /// How the archive of the case was damaged.
    pub damage: Option<&'static str>,
    /// What was met.
    pub met: Met,
    scratch: Vec<u8>,
}

impl Calls {
    /// Nothing met yet of all that has to be: each answer and decision, a visitor's too, each refusal of a
    /// PDU that has a place, each value of each code of each PDU and each reserved one, each definition type
    /// of a reload for each part, 7 for each damage and for each fault, 6, 8, 9 and 12 for each reason, 9 of
    /// capture in the place of each other answer, 9 of entry for each count of words and in the place of each
    /// other answer, each index of archives of so many entries, and an archive accepted with other bits of a
    /// day.
    pub fn new() -> Self {
        let mut met = Met::default();
        for (call, answers) in CALLS {
            met.expect(call, *answers);
        }
        met.expect("read, with a place", PLACED);
        met.expect("capture, with a place", PLACED);
        for call in ["read", "write"] {
            for form in &FORMS {
                met.expect(&format!("{call}, {}", form.name), form.values());
                met.expect(&format!("{call}, {}, 3", form.name), form.reserved());
            }
            met.expect(&format!("{call}, 3 for the PDU type"), reserved_types());
        }
        met.expect("decide, decision", 0..5);
        met.expect("decide, visitor's", 0..5);
        met.expect("decide, visitor's own network", TELLS);
        met.expect("capture, 6", all_unfit());
        met.expect("capture, 8", LACKS);
        met.expect("capture, 9", NO_DAYS);
        met.expect("capture, 9 in the place of", 0..9);
        met.expect("capture, the same PDU with a day", BESIDE);
        met.expect("entry, 9", NO_KEYS);
        met.expect("entry, 9 in the place of", [0, 7, 11]);
        met.expect("entry, each index of", COUNTS);
        for part in [1, 2] {
            met.expect(&format!("reload, part {part}"), DEFINITIONS);
        }
        met.expect("reload_external, part 2", DEFINITIONS);
        for (call, external) in [("reload", false), ("reload_external", true)] {
            met.expect(&format!("{call}, 9"), all_out_of_range(external));
            met.expect(&format!("{call}, 12"), losses(external));
        }
        for (call, answers) in CALLS {
            if answers.contains(&7) {
                met.expect(&format!("{call}, 7"), DAMAGES);
                met.expect(&format!("{call}, 7 by fault"), FAULTS);
                met.expect(&format!("{call}, accepted"), [DAYS_BITS]);
            }
        }
        Calls { case: (0, "", 0), change: 0, damage: None, met, scratch: vec![0; AMPLE] }
    }

    /// Compares one call. A refusal leaves the number that was `before` and writes where it stopped; an
    /// accepted call leaves that.
    fn compare<N, T>(
        &mut self,
        call: &str,
        library: (u32, Behind<N>),
        before: Behind<N>,
        expected: Result<N, Refused>,
        lent: &Lent<T>,
    ) where
        N: Copy + PartialEq + Debug,
        T: Copy + PartialEq + Debug,
    {
        let answer = match expected {
            Ok(number) => (0, Behind { number, ..before }),
            Err(Refused { why, entry, place }) => {
                let spot = Spot { entry: entry.unwrap_or(NOWHERE), place: place.unwrap_or(NOWHERE) };
                (why.number(), Behind { spot, ..before })
            }
        };
        let (seed, kind, case) = self.case;
        let change = self.change;
        let place = format_args!("{call}, change {change} of case {case} of {kind}, seed {seed}");
        assert!(library == answer, "{place}: answers {library:?}, not {answer:?}");
        if let Some(difference) = lent.difference() {
            panic!("{place}: {difference}");
        }
        self.met.meet(call, answer.0);
    }

    /// Counts a refusal of an archive or, with its place, one of a PDU; and what is accepted though bits of a
    /// day were changed.
    fn count<N>(&mut self, call: &str, archive: &[u8], answer: Result<N, Refused>) {
        let Err(refused) = answer else {
            if self.damage == Some(DAYS_BITS) {
                self.met.meet(&format!("{call}, accepted"), DAYS_BITS);
            }
            return;
        };
        if refused.why == Refusal::Archive {
            let damage =
                self.damage.unwrap_or_else(|| panic!("{:?}: the archive was not damaged", self.case));
            self.met.meet(&format!("{call}, 7"), damage);
            self.met.meet(&format!("{call}, 7 by fault"), fault(archive, refused));
        } else if refused.place.is_some() {
            self.met.meet(&format!("{call}, with a place"), refused.number());
        }
    }

    /// Counts a refusal where it has one reason alone.
    fn reason(&mut self, refusal: &str, reasons: &[impl ToString]) {
        match reasons {
            [] => panic!("{refusal} without a reason: {:?}", self.case),
            [reason] => self.met.meet(refusal, reason.to_string()),
            _ => {}
        }
    }

    /// Counts the codes of a record that was read or written.
    fn codes(&mut self, call: &str, words: &Record) {
        let form = Form::of(words[record::PDU_TYPE]).expect("it is a PDU type");
        for value in form.values_of(words) {
            self.met.meet(&format!("{call}, {}", form.name), value);
        }
    }

    pub fn read(&mut self, rng: &mut Rng, pdu: &Pdu, record_words: usize) -> Result<(), Refused> {
        let mut lent = words(rng, record_words);
        let before = Behind { number: (), spot: Spot { place: rng.draw() as usize, ..Spot::NONE } };
        let mut after = before;
        let library = boc::ffi::read(&pdu.bytes, pdu.bits, lent.library(), &mut after.spot.place);
        let expected = reference::read(&pdu.bytes, pdu.bits, lent.reference());
        self.compare("read", (library, after), before, expected, &lent);
        self.count("read", &[], expected);
        if expected.is_ok() {
            self.codes("read", lent.reference().first_chunk().expect("it is a record"));
        }
        expected
    }

    pub fn write(&mut self, rng: &mut Rng, record: &[u32], room: usize) -> Result<usize, Refusal> {
        let mut lent = bytes(rng, room);
        let before = Behind::without_spot(rng);
        let mut after = before;
        let library = boc::ffi::write(record, lent.library(), &mut after.number);
        let expected = reference::write(record, lent.reference());
        self.compare("write", (library, after), before, expected.map_err(Refused::from), &lent);
        if expected.is_ok() {
            self.codes("write", record.first_chunk().expect("it is a record"));
        }
        expected
    }

    pub fn empty(&mut self, rng: &mut Rng, home: u32, room: usize) {
        let mut lent = bytes(rng, room);
        let before = Behind::without_spot(rng);
        let mut after = before;
        let library = boc::ffi::empty(home, lent.library(), &mut after.number);
        let expected = reference::empty(home, lent.reference());
        self.compare("empty", (library, after), before, expected.map_err(Refused::from), &lent);
    }

    /// The new archive, if the PDU was captured.
    pub fn capture(
        &mut self,
        rng: &mut Rng,
        archive: &[u8],
        pdu: &Pdu,
        day: u32,
        room: usize,
    ) -> Option<Vec<u8>> {
        let mut lent = bytes(rng, room);
        let before = Behind::random(rng);
        let mut after = before;
        let library = boc::ffi::capture(
            archive,
            &pdu.bytes,
            pdu.bits,
            day,
            lent.library(),
            &mut after.number,
            &mut after.spot,
        );
        let expected = reference::capture(archive, &pdu.bytes, pdu.bits, day, lent.reference());
        self.compare("capture", (library, after), before, expected, &lent);
        self.count("capture", archive, expected);
        if expected == Err(Refusal::Unfit.into()) {
            self.met.meet("capture, 6", unfit(pdu));
        }
        if expected == Err(Refusal::Room.into()) {
            self.reason("capture, 8", &lacking(archive, pdu, room));
        }
        if expected == Err(Refusal::Range.into()) {
            self.met.meet("capture, 9", day);
            let other = reference::capture(archive, &pdu.bytes, pdu.bits, 0, &mut vec![0; room]);
            self.met.meet("capture, 9 in the place of", other.map_or_else(Refused::number, |_| 0));
        }
        Some(lent.library()[..expected.ok()?].to_vec())
    }

    fn capture_any_room(&mut self, rng: &mut Rng, archive: &[u8], pdu: &Pdu, day: u32) {
        let needed = reference::capture(archive, &pdu.bytes, pdu.bits, day, &mut self.scratch);
        let room = room(rng, needed.unwrap_or(archive.len() + LINE + pdu.bytes.len()));
        self.capture(rng, archive, pdu, day, room);
    }

    /// The PDU of an entry captured once more, with this day: only the two bytes of its day change, and it is
    /// restored with that.
    pub fn recapture(&mut self, rng: &mut Rng, archive: &Archive, index: usize, day: u16) {
        let Entry { user, part, day: before, ref pdu } = archive.entries[index];
        let mut expected = archive.bytes();
        let new = self.capture(rng, &expected, pdu, day.into(), expected.len());
        expected[HEADER + LINE * index + 9..][..2].copy_from_slice(&day.to_be_bytes());
        assert!(new.as_ref() == Some(&expected), "{:?}: more than a day has changed", self.case);
        let restored = self.restore(rng, &expected, user, part, pdu.bytes.len());
        assert_eq!(restored, Ok(Restored { bits: pdu.bits, day }), "{:?}", self.case);
        let beside = match day.cmp(&before) {
            Ordering::Less => BESIDE[0],
            Ordering::Equal => BESIDE[1],
            Ordering::Greater => BESIDE[2],
        };
        self.met.meet("capture, the same PDU with a day", beside);
    }

    /// The entry at an index: its key, and its length in bits and day.
    pub fn entry(
        &mut self,
        rng: &mut Rng,
        archive: &[u8],
        index: usize,
        key_words: usize,
    ) -> Result<([u32; KEY_WORDS], Restored), Refused> {
        let mut lent = words(rng, key_words);
        let before = Behind { number: (rng.draw() as usize, rng.bits(32)), spot: random_spot(rng) };
        let mut after = before;
        let (bits, day) = &mut after.number;
        let library = boc::ffi::entry(archive, index, lent.library(), bits, day, &mut after.spot);
        let expected = reference::entry(archive, index, lent.reference());
        let numbers = expected.map(|Restored { bits, day }| (bits, day.into()));
        self.compare("entry", (library, after), before, numbers, &lent);
        self.count("entry", archive, expected);
        if expected == Err(Refusal::Range.into()) {
            self.met.meet("entry, 9", key_words);
            let other = reference::entry(archive, index, &mut [0; KEY_WORDS]);
            self.met.meet("entry, 9 in the place of", other.map_or_else(Refused::number, |_| 0));
        }
        let restored = expected?;
        Ok((*lent.library().first_chunk().expect("it is a key"), restored))
    }

    /// Each entry of a legal archive by its index, and restored by its key; and none beyond the last.
    pub fn each_entry(&mut self, rng: &mut Rng, archive: &Archive) {
        let bytes = archive.bytes();
        for (index, Entry { user, part, day, pdu }) in archive.entries.iter().enumerate() {
            let [network, ssi] = *user;
            let rest = Restored { bits: pdu.bits, day: *day };
            let found = self.entry(rng, &bytes, index, KEY_WORDS);
            assert_eq!(found, Ok(([network, ssi, *part], rest)), "{:?}", self.case);
            let restored = self.restore(rng, &bytes, *user, *part, pdu.bytes.len());
            assert_eq!(restored, Ok(rest), "{:?}", self.case);
        }
        let count = archive.entries.len();
        for index in beyond(count) {
            let found = self.entry(rng, &bytes, index, KEY_WORDS);
            assert_eq!(found, Err(Refusal::NotHeld.into()), "{:?}", self.case);
        }
        self.met.meet("entry, each index of", count);
    }

    pub fn restore_any_room(&mut self, rng: &mut Rng, archive: &[u8], user: [u32; 2], part: u32) {
        let needed = reference::restore(archive, user[0], user[1], part, &mut self.scratch);
        let room = room(rng, needed.map_or(20, |restored| restored.bits.div_ceil(8)));
        let _ = self.restore(rng, archive, user, part, room);
    }

    pub fn restore(
        &mut self,
        rng: &mut Rng,
        archive: &[u8],
        [network, ssi]: [u32; 2],
        part: u32,
        room: usize,
    ) -> Result<Restored, Refused> {
        let mut lent = bytes(rng, room);
        let before = Behind { number: (rng.draw() as usize, rng.bits(32)), spot: random_spot(rng) };
        let mut after = before;
        let (bits, day) = &mut after.number;
        let library =
            boc::ffi::restore(archive, network, ssi, part, lent.library(), bits, day, &mut after.spot);
        let expected = reference::restore(archive, network, ssi, part, lent.reference());
        let numbers = expected.map(|Restored { bits, day }| (bits, day.into()));
        self.compare("restore", (library, after), before, numbers, &lent);
        self.count("restore", archive, expected);
        expected
    }

    pub fn reload_any_room(&mut self, rng: &mut Rng, archive: &[u8], reload: &Reload) {
        let needed = reload.reference(archive, &mut self.scratch);
        let room = room(rng, needed.map_or(20, |bits| bits.div_ceil(8)));
        self.reload(rng, archive, reload, room);
    }

    /// The PDU is also held to the record of the part, since the reference copies bits.
    pub fn reload(&mut self, rng: &mut Rng, archive: &[u8], reload: &Reload, room: usize) {
        let call = reload.call();
        let mut lent = bytes(rng, room);
        let before = Behind::random(rng);
        let mut after = before;
        let library = reload.library(archive, lent.library(), &mut after.number, &mut after.spot);
        let expected = reload.reference(archive, lent.reference());
        self.compare(call, (library, after), before, expected, &lent);
        self.count(call, archive, expected);
        match expected.map_err(|refused| refused.why) {
            Ok(bits) => {
                let define = reload.define(archive);
                let written = &lent.reference()[..bits.div_ceil(8)];
                assert!((bits, written) == (define.bits, &define.bytes), "{:?}: another PDU", self.case);
                let [_, _, definition_type] = reload.definition;
                let definition = DEFINITIONS[definition_type as usize];
                self.met.meet(&format!("{call}, part {}", reload.part), definition);
            }
            Err(Refusal::Range) => self.reason(&format!("{call}, 9"), &reload.out_of_range()),
            Err(Refusal::Loss) => self.reason(&format!("{call}, 12"), &reload.lost(archive)),
            Err(_) => {}
        }
    }

    /// Both engines on the same request.
    pub fn decide(&mut self, rng: &mut Rng, archive: &[u8], request: &[u32]) {
        let before = Behind { number: rng.bits(32), spot: random_spot(rng) };
        let expected = reference::decide(archive, request).map(|decision| decision.number());
        let engines: [(&str, Engine); 2] =
            [("decide", boc::ffi::decide), ("decide_in_place", boc::ffi::decide_in_place)];
        for (call, engine) in engines {
            let mut after = before;
            let library = engine(archive, request, &mut after.number, &mut after.spot);
            let nothing = Lent::<u8>::new(vec![0; 2 * MARGIN]);
            self.compare(call, (library, after), before, expected, &nothing);
            self.count(call, archive, expected);
        }
        if let Ok(decision) = expected {
            self.met.meet("decide, decision", decision);
            self.visitor(archive, request, decision);
        }
    }

    /// Counts what was decided for a user of another network than the home network, and whether it turns where
    /// the request names the home network for the user's own.
    fn visitor(&mut self, archive: &[u8], request: &[u32], decision: u32) {
        let home = u32::from_be_bytes([0, archive[0], archive[1], archive[2]]);
        let own = request[at::USER_NETWORK];
        if own == home {
            return;
        }
        self.met.meet("decide, visitor's", decision);
        for (tell, place, given) in [
            (TELLS[0], at::NETWORK, request[at::KIND] == 1),
            (TELLS[1], at::GROUP_NETWORK, request[at::GROUP_GIVEN] == 1),
        ] {
            if given && request[place] == own {
                let mut other = request.to_vec();
                other[place] = home;
                if reference::decide(archive, &other).map(|decision| decision.number()) != Ok(decision) {
                    self.met.meet("decide, visitor's own network", tell);
                }
            }
        }
    }

    pub fn contents_any_room(&mut self, rng: &mut Rng, archive: &[u8]) {
        let needed = reference::contents(archive, &mut self.scratch);
        let room = room(rng, needed.unwrap_or(64));
        self.contents(rng, archive, room);
    }

    pub fn contents(&mut self, rng: &mut Rng, archive: &[u8], room: usize) {
        let mut lent = bytes(rng, room);
        let before = Behind::random(rng);
        let mut after = before;
        let library = boc::ffi::contents(archive, lent.library(), &mut after.number, &mut after.spot);
        let expected = reference::contents(archive, lent.reference());
        self.compare("contents", (library, after), before, expected, &lent);
        self.count("contents", archive, expected);
    }

    /// Every call that takes an archive, on this one; a legal one is damaged once in `times`.
    pub fn all(&mut self, rng: &mut Rng, archive: &Archive, times: usize) {
        let mut held = archive.bytes();
        if self.damage.is_none() && rng.one_in(times) {
            let (damage, bytes) = archive.damaged(rng);
            self.damage = Some(damage);
            held = bytes;
        }
        let bytes = held.as_slice();
        self.contents_any_room(rng, bytes);
        let user = archive.user(rng);
        let pdu = offered(rng, archive.home, user);
        let day = offered_day(rng);
        self.capture_any_room(rng, bytes, &pdu, day);
        let mut user = archive.user(rng);
        let mut part = rng.between(1, 2) as u32;
        match rng.below(20) {
            0 => user[rng.below(2)] = rng.pick(&[1 << 24, u32::MAX, 0x100_0001]),
            1 => part = rng.pick(&[0, 3, 4, 257, u32::MAX]),
            _ => {}
        }
        self.restore_any_room(rng, bytes, user, part);
        for external in [false, true] {
            let reload = Reload::random(rng, archive, external);
            self.reload_any_room(rng, bytes, &reload);
        }
        for _ in 0..2 {
            let user = archive.user(rng);
            let mut words = request(rng, user);
            if rng.one_in(6) {
                damage_request(rng, &mut words);
            }
            let length = if rng.one_in(50) { rng.below(REQUEST_WORDS) } else { REQUEST_WORDS };
            self.decide(rng, bytes, &words[..length]);
        }
        let count = archive.entries.len();
        let index = if rng.one_in(6) { rng.pick(&beyond(count)) } else { rng.below(count.max(1)) };
        let key_words = if rng.one_in(20) { rng.pick(&NO_KEYS) } else { KEY_WORDS };
        let _ = self.entry(rng, bytes, index, key_words);
    }
}
