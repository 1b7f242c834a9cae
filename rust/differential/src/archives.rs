//! Archives.

use std::collections::BTreeSet;

use reference::layout::{record as at, RECORD_WORDS};
use reference::Refused;

use crate::elements::{Form, FORMS};
use crate::{day, network, part, record, ssi, Pdu, Rng, Size};

/// Most bytes of an archive.
pub const MAX_BYTES: usize = 65_536;
/// Most entries of an archive.
pub const MAX_ENTRIES: usize = 512;
/// What [`Archive::damaged`] changes so that no archive may be left, and the two ways in which an archive has
/// too much.
pub const DAMAGES: [&str; 21] = [
    "home network's bits",
    "count's bits",
    "network's bits",
    "SSI's bits",
    "part's bits",
    "length's bits",
    "body's bits",
    "end cut",
    "bytes after the end",
    "order",
    "an entry twice",
    "a damaged PDU",
    "two damaged PDUs",
    "a damaged PDU and the order",
    "another PDU",
    "another part",
    "another user",
    "the other part's PDU",
    "another home network",
    "513 entries",
    "65,537 bytes",
];
/// What [`Archive::damaged`] may also change, which leaves an archive.
pub const DAYS_BITS: &str = "day's bits";
/// Bytes of the header: home network, entry count.
pub const HEADER: usize = 5;
/// Bytes of a line of the contents: network, SSI, part, bit length, day.
pub const LINE: usize = 11;

/// An entry: what its line of the contents says, and its body.
#[derive(Clone)]
pub struct Entry {
    /// The user's network and SSI.
    pub user: [u32; 2],
    /// 1 identity, 2 number.
    pub part: u32,
    /// The day.
    pub day: u16,
    /// The body.
    pub pdu: Pdu,
}

/// An archive as its parts, which need not be legal.
#[derive(Clone)]
pub struct Archive {
    /// The home network.
    pub home: u32,
    /// The entries.
    pub entries: Vec<Entry>,
}

impl Archive {
    /// A legal archive of `count` entries, or as many as it has room for.
    pub fn random(rng: &mut Rng, count: usize, size: Size) -> Self {
        Self::of_parts(rng, count, &[1, 2], size)
    }

    /// A legal archive of `count` entries of these parts, or as many as it has room for.
    pub fn of_parts(rng: &mut Rng, count: usize, parts: &[u32], size: Size) -> Self {
        let home = network(rng);
        let mut archive = Archive { home, entries: Vec::new() };
        let mut length = HEADER;
        for key in keys(rng, count, parts) {
            let entry = archive.entry(rng, key, size);
            length += LINE + entry.pdu.bytes.len();
            if length > MAX_BYTES {
                break;
            }
            archive.entries.push(entry);
        }
        archive
    }

    /// A legal archive of exactly `length` bytes, which is some thousand bytes or more.
    pub fn of_length(rng: &mut Rng, length: usize) -> Self {
        let mut archive = Self::random(rng, MAX_ENTRIES, Size::Any);
        loop {
            let missing = length as isize - archive.length() as isize;
            let last = archive.entries.last_mut().expect("an archive of this length has entries");
            let wanted = last.pdu.bytes.len() as isize + missing;
            if (20..120).contains(&wanted) {
                while last.pdu.bytes.len() as isize != wanted {
                    last.pdu = Pdu::of(&part(rng, archive.home, last.user, last.part, Size::Any));
                }
                return archive;
            }
            let size = if missing < 0 { Size::Small } else { Size::Full };
            let index = rng.below(archive.entries.len());
            let entry = &archive.entries[index];
            archive.entries[index] = archive.entry(rng, (entry.user, entry.part), size);
        }
    }

    fn entry(&self, rng: &mut Rng, (user, kind): ([u32; 2], u32), size: Size) -> Entry {
        Entry { user, part: kind, day: day(rng), pdu: Pdu::of(&part(rng, self.home, user, kind, size)) }
    }

    fn length(&self) -> usize {
        self.entries.iter().fold(HEADER, |length, entry| length + LINE + entry.pdu.bytes.len())
    }

    /// The user of some entry, or any user.
    pub fn user(&self, rng: &mut Rng) -> [u32; 2] {
        if self.entries.is_empty() || rng.one_in(6) {
            return [network(rng), ssi(rng)];
        }
        self.entries[rng.below(self.entries.len())].user
    }

    /// The bytes.
    pub fn bytes(&self) -> Vec<u8> {
        let mut bytes = self.home.to_be_bytes()[1..].to_vec();
        bytes.extend((self.entries.len() as u16).to_be_bytes());
        for Entry { user: [network, ssi], part, day, pdu } in &self.entries {
            bytes.extend(&network.to_be_bytes()[1..]);
            bytes.extend(&ssi.to_be_bytes()[1..]);
            bytes.push(*part as u8);
            bytes.extend((pdu.bits as u16).to_be_bytes());
            bytes.extend(day.to_be_bytes());
        }
        self.entries.iter().for_each(|entry| bytes.extend(&entry.pdu.bytes));
        bytes
    }

    /// What a byte of the archive is of, as [`DAMAGES`] or [`DAYS_BITS`] names it.
    pub fn region(&self, byte: usize) -> &'static str {
        let count = self.entries.len();
        match byte {
            0..3 => "home network's bits",
            3..HEADER => "count's bits",
            _ if byte >= HEADER + LINE * count => "body's bits",
            _ => match (byte - HEADER) % LINE {
                0..3 => "network's bits",
                3..6 => "SSI's bits",
                6 => "part's bits",
                7..9 => "length's bits",
                _ => DAYS_BITS,
            },
        }
    }

    /// The bytes after a change to an entry or to the bytes, most often to no archive, and what was changed.
    pub fn damaged(&self, rng: &mut Rng) -> (&'static str, Vec<u8>) {
        let count = self.entries.len();
        if count > 0 && rng.one_in(2) {
            let mut other = self.clone();
            return (other.damage_entry(rng), other.bytes());
        }
        let mut bytes = self.bytes();
        let (line, bodies) = (HEADER + LINE * rng.below(count.max(1)), HEADER + LINE * count);
        let regions = [
            0..3,
            3..HEADER,
            line..line + 3,
            line + 3..line + 6,
            line + 6..line + 7,
            line + 7..line + 9,
            line + 9..line + LINE,
            bodies..bytes.len(),
        ];
        match rng.below(8) {
            0 => {
                bytes.truncate(rng.below(bytes.len()));
                ("end cut", bytes)
            }
            1 => {
                bytes.extend((0..rng.between(1, 9)).map(|_| 0));
                ("bytes after the end", bytes)
            }
            _ => {
                let range = &regions[rng.below(if count > 0 { regions.len() } else { 2 })];
                let byte = rng.between(range.start, range.end - 1);
                bytes[byte] ^= 1 << rng.below(8);
                (self.region(byte), bytes)
            }
        }
    }

    fn damage_entry(&mut self, rng: &mut Rng) -> &'static str {
        let index = rng.below(self.entries.len());
        let other = rng.below(self.entries.len());
        let home = self.home;
        let entry = &mut self.entries[index];
        match rng.below(10) {
            0 => {
                self.entries.swap(index, other);
                "order"
            }
            1 => {
                self.entries.insert(index, self.entries[other].clone());
                "an entry twice"
            }
            2 if index != other => {
                entry.pdu.damage(rng);
                self.entries[other].pdu.damage(rng);
                "two damaged PDUs"
            }
            2 | 3 => {
                entry.pdu.damage(rng);
                "a damaged PDU"
            }
            4 => {
                entry.pdu.damage(rng);
                self.entries.swap(index, other);
                "a damaged PDU and the order"
            }
            5 => {
                entry.pdu = Pdu::of(&record(rng));
                "another PDU"
            }
            6 => {
                entry.part = rng.below(4) as u32;
                "another part"
            }
            7 => {
                entry.user = [network(rng), ssi(rng)];
                "another user"
            }
            8 => {
                entry.pdu = Pdu::of(&part(rng, home, entry.user, 3 - entry.part, Size::Small));
                "the other part's PDU"
            }
            // It moves every user that does not spell its network out.
            _ => {
                self.home = network(rng);
                "another home network"
            }
        }
    }
}

/// Indices at which an archive of so many entries has none: the next, one further, one of more than 16 bits, one
/// whose entry would stand in the archive if its place were reckoned with 64 bits, the greatest.
pub fn beyond(count: usize) -> [usize; 5] {
    [count, count + 1, 1 << 16, usize::MAX / LINE + 1, usize::MAX]
}

/// What may be at fault in an archive: its shape, or a body in one of these ways. Numbers are the refusals of
/// a body that bring a place.
pub const FAULTS: [&str; 10] = [
    "shape",
    "over 4,096 bits",
    "unused bits",
    "0 bits",
    "2",
    "3",
    "4",
    "5",
    "may not be held",
    "disagrees with its entry",
];

/// What is at fault in an archive that is refused so, looked up in the body of its entry.
///
/// A place that is not the one at which that body is refused by itself is a failure.
pub fn fault(archive: &[u8], refused: Refused) -> &'static str {
    let Some(index) = refused.entry else {
        assert_eq!(refused.place, None, "a place without an entry");
        return "shape";
    };
    let count = usize::from(u16::from_be_bytes([archive[3], archive[4]]));
    let (lines, mut bodies) = archive[HEADER..].split_at(LINE * count);
    let bits = |line: &[u8]| usize::from(u16::from_be_bytes([line[7], line[8]]));
    for line in lines.chunks(LINE).take(index) {
        bodies = &bodies[bits(line).div_ceil(8)..];
    }
    let bits = bits(&lines[LINE * index..]);
    let mut words = [0; RECORD_WORDS];
    let read = reference::read(&bodies[..bits.div_ceil(8)], bits, &mut words);
    assert_eq!(refused.place, read.err().and_then(|body| body.place), "the place in a body");
    match read.map_err(Refused::number) {
        Err(1) if bits > 4096 => "over 4,096 bits",
        Err(1) => "unused bits",
        Err(2) if bits == 0 => "0 bits",
        Err(2) => "2",
        Err(3) => "3",
        Err(4) => "4",
        Err(5) => "5",
        Err(other) => panic!("a body is refused with {other}"),
        Ok(()) if matches!(words[at::RESULT], 1 | 2) && words[at::AFFECTED] == 1 => {
            "disagrees with its entry"
        }
        Ok(()) => "may not be held",
    }
}

/// Why a legal PDU may be unfit for an archive: its type, or the result or the range type of its INTERROGATE
/// ACK.
pub fn all_unfit() -> Vec<&'static str> {
    let types = FORMS.iter().filter(|form| form.number != 12).map(|form| form.name);
    types.chain(["result", "range type"]).collect()
}

/// Why no archive holds this legal PDU.
pub fn unfit(pdu: &Pdu) -> &'static str {
    let mut words = [0; RECORD_WORDS];
    reference::read(&pdu.bytes, pdu.bits, &mut words).expect("the PDU is legal");
    match (words[at::PDU_TYPE], words[at::RESULT]) {
        (12, 1 | 2) => "range type",
        (12, _) => "result",
        (other, _) => Form::of(other).expect("it is a PDU type").name,
    }
}

/// Why capture may have no room.
pub const LACKS: [&str; 3] = ["512 held and a new key", "over 65,536 bytes", "short buffer"];

/// What capture has no room for, of a legal archive, a PDU that may be held, and a buffer of so many bytes.
pub fn lacking(archive: &[u8], pdu: &Pdu, room: usize) -> Vec<&'static str> {
    let mut words = [0; RECORD_WORDS];
    reference::read(&pdu.bytes, pdu.bits, &mut words).expect("the PDU is legal");
    let [ssi, present, extension] = [1, 2, 3].map(|place| words[at::AFFECTED + place]);
    let home = u32::from_be_bytes([0, archive[0], archive[1], archive[2]]);
    let network = if present == 1 { extension } else { home };
    let old = reference::restore(archive, network, ssi, words[at::RESULT], &mut [0; 512]);
    let count = usize::from(u16::from_be_bytes([archive[3], archive[4]]));
    let old_length = old.map_or(0, |old| LINE + old.bits.div_ceil(8));
    let length = archive.len() + pdu.bytes.len() + LINE - old_length;
    let lacks = [count == MAX_ENTRIES && old.is_err(), length > MAX_BYTES, length > room];
    LACKS.into_iter().zip(lacks).filter(|(_, lacks)| *lacks).map(|(lack, _)| lack).collect()
}

/// Different keys in their order.
fn keys(rng: &mut Rng, count: usize, parts: &[u32]) -> BTreeSet<([u32; 2], u32)> {
    let mut keys = BTreeSet::new();
    while keys.len() < count {
        let user = if count > 30 { [network(rng), rng.bits(24)] } else { [network(rng), ssi(rng)] };
        keys.insert((user, rng.pick(parts)));
    }
    keys
}
