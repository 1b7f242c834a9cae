//! The archive: check, empty, capture, its entries, restore.

use crate::bits::Cursor;
use crate::codes::{Rest, INTERROGATE_ACK};
use crate::layout::KEY_WORDS;
use crate::pdu::{frame, unused_bits_are_zero, walk, Head, Judge, MAX_BITS};
use crate::refusal::{Refusal, Refused};

/// Most bytes of an archive.
const MAX_BYTES: usize = 65_536;
/// Most entries of an archive.
const MAX_ENTRIES: usize = 512;
/// Bytes of the header: home network, entry count.
const HEADER: usize = 5;
/// Bytes of a line of the contents: network, SSI, part, bit length, day.
const LINE: usize = 11;
/// Networks and SSIs are below this.
pub const LIMIT: u32 = 1 << 24;
/// The parts that are held for a user.
pub const IDENTITY_PART: u32 = 1;
pub const NUMBER_PART: u32 = 2;

/// Network, SSI and part, as one number that orders as they do.
#[derive(Clone, Copy, PartialEq, Eq, PartialOrd, Ord)]
pub struct Key(u64);

impl Key {
    /// The key of a user and a part, or 9.
    pub fn asked(network: u32, ssi: u32, part: u32) -> Result<Self, Refusal> {
        if network >= LIMIT || ssi >= LIMIT || !matches!(part, IDENTITY_PART | NUMBER_PART) {
            return Err(Refusal::Range);
        }
        Ok(Key::new(network, ssi, part))
    }

    /// The key of a network, an SSI and a part that are in their ranges.
    #[inline(always)]
    pub fn new(network: u32, ssi: u32, part: u32) -> Self {
        Key(u64::from(network) << 32 | u64::from(ssi) << 8 | u64::from(part))
    }

    /// The key under which a PDU is held, if an archive may hold it.
    #[inline(always)]
    fn of(head: &Head, home: u32) -> Option<Self> {
        let part = match head.rest {
            Rest::Identities => IDENTITY_PART,
            Rest::Numbers => NUMBER_PART,
            Rest::End | Rest::Services => return None,
        };
        let fit = head.pdu_type == INTERROGATE_ACK && head.affected_code == 1;
        fit.then(|| Key::new(head.user.network(home), head.user.ssi, part))
    }

    pub fn network(self) -> u32 {
        (self.0 >> 32) as u32
    }

    pub fn ssi(self) -> u32 {
        (self.0 >> 8) as u32 & (LIMIT - 1)
    }

    pub fn part(self) -> u32 {
        self.0 as u32 & 0xff
    }
}

/// A line of the contents.
#[derive(Clone, Copy)]
pub struct Line {
    pub key: Key,
    pub bits: usize,
    pub day: u16,
}

impl Line {
    #[inline(always)]
    fn from_bytes(bytes: &[u8; LINE]) -> Self {
        let [a, b, c, d, e, f, g, bits_high, bits_low, day_high, day_low] = *bytes;
        Line {
            key: Key(u64::from_be_bytes([a, b, c, d, e, f, g, bits_high]) >> 8),
            bits: u16::from_be_bytes([bits_high, bits_low]).into(),
            day: u16::from_be_bytes([day_high, day_low]),
        }
    }

    fn to_bytes(self) -> [u8; LINE] {
        let [_, a, b, c, d, e, f, g] = self.key.0.to_be_bytes();
        let [bits_high, bits_low] = (self.bits as u16).to_be_bytes();
        let [day_high, day_low] = self.day.to_be_bytes();
        [a, b, c, d, e, f, g, bits_high, bits_low, day_high, day_low]
    }

    /// Bytes of the body.
    #[inline(always)]
    fn room(self) -> usize {
        self.bits.div_ceil(8)
    }
}

/// A checked archive.
pub struct Archive<'a> {
    bytes: &'a [u8],
    pub home: u32,
    lines: &'a [[u8; LINE]],
}

/// Where a key is held, or where it would be.
struct Place {
    index: usize,
    /// First byte of the body.
    body: usize,
    /// Its line, if the key is held.
    held: Option<Line>,
}

/// What a PDU that is held has besides its bytes and its key.
#[derive(Clone, Copy, Debug, PartialEq, Eq)]
pub struct Restored {
    /// Its length in bits.
    pub bits: usize,
    /// The day that was given when it was captured.
    pub day: u16,
}

impl<'a> Archive<'a> {
    /// Checks an archive, first its shape and then its bodies, or 7: with the first entry whose body is at
    /// fault, if its shape is right.
    pub fn check(bytes: &'a [u8]) -> Result<Self, Refused> {
        let archive = Self::shaped(bytes).ok_or(Refusal::Archive)?;
        let mut bodies = &bytes[archive.bodies()..];
        for (entry, line) in archive.lines().enumerate() {
            if let Err(place) = check_first_body(bodies, line, archive.home) {
                return Err(Refused { why: Refusal::Archive, entry: Some(entry), place });
            }
            bodies = &bodies[line.room()..];
        }
        Ok(archive)
    }

    /// The archive of these bytes, if all is right but for its bodies: header, keys, parts and length.
    fn shaped(bytes: &'a [u8]) -> Option<Self> {
        let ([a, b, c, high, low], rest) = bytes.split_first_chunk::<HEADER>()?;
        let home = u32::from_be_bytes([0, *a, *b, *c]);
        let count: usize = u16::from_be_bytes([*high, *low]).into();
        if bytes.len() > MAX_BYTES || count > MAX_ENTRIES {
            return None;
        }
        let (lines, _) = rest.get(..LINE * count)?.as_chunks::<LINE>();
        let archive = Archive { bytes, home, lines };
        let mut length = archive.bodies();
        // A key has a part of 1 or 2, so it is above 0.
        let mut last = Key(0);
        let mut rising = true;
        for line in archive.lines() {
            rising &= last < line.key && matches!(line.key.part(), IDENTITY_PART | NUMBER_PART);
            last = line.key;
            length += line.room();
        }
        (rising && length == bytes.len()).then_some(archive)
    }

    /// First byte of the bodies.
    fn bodies(&self) -> usize {
        HEADER + LINE * self.lines.len()
    }

    /// The lines of the contents.
    pub fn lines(&self) -> impl ExactSizeIterator<Item = Line> + use<'a> {
        self.lines.iter().map(Line::from_bytes)
    }

    fn find(&self, key: Key) -> Place {
        let mut body = self.bodies();
        for (index, line) in self.lines().enumerate() {
            if line.key >= key {
                return Place { index, body, held: (line.key == key).then_some(line) };
            }
            body += line.room();
        }
        Place { index: self.lines.len(), body, held: None }
    }

    /// The line and the bytes of the body held under a key.
    fn body(&self, key: Key) -> Option<(Line, &'a [u8])> {
        let place = self.find(key);
        let line = place.held?;
        Some((line, &self.bytes[place.body..][..line.room()]))
    }

    /// A cursor on the body held under a key.
    pub fn cursor(&self, key: Key) -> Option<Cursor<'a>> {
        let place = self.find(key);
        Some(Cursor::new(&self.bytes[place.body..], place.held?.bits))
    }
}

/// Checks the first of some bodies by its line; a body at fault has the place that its refusal has.
#[inline(always)]
fn check_first_body(bodies: &[u8], line: Line, home: u32) -> Result<(), Option<usize>> {
    if line.bits > MAX_BITS || !unused_bits_are_zero(&bodies[..line.room()], line.bits) {
        return Err(None);
    }
    let head = walk(Cursor::new(bodies, line.bits), &mut Judge).map_err(|stop| Some(stop.place))?;
    if Key::of(&head, home) != Some(line.key) {
        return Err(None);
    }
    Ok(())
}

/// Writes an archive without entries and returns its length in bytes. Refuses with 9, 8.
pub fn empty(home: u32, out: &mut [u8]) -> Result<usize, Refusal> {
    if home >= LIMIT {
        return Err(Refusal::Range);
    }
    let [_, a, b, c] = home.to_be_bytes();
    *out.first_chunk_mut::<HEADER>().ok_or(Refusal::Room)? = [a, b, c, 0, 0];
    Ok(HEADER)
}

/// Writes to `out` the archive that holds a PDU too, with its day, in place of one with the same key, and
/// returns its length in bytes. Refuses with 9, 7, the PDU's 1 to 5, 6, 8.
pub fn capture(archive: &[u8], pdu: &[u8], bits: usize, day: u32, out: &mut [u8]) -> Result<usize, Refused> {
    let day = u16::try_from(day).map_err(|_| Refusal::Range)?;
    let held = Archive::check(archive)?;
    let head = walk(frame(pdu, bits)?, &mut Judge)?;
    let key = Key::of(&head, held.home).ok_or(Refusal::Unfit)?;

    // The old line and body make room for the new ones.
    let Place { index, body, held: old } = held.find(key);
    let count = held.lines.len() + usize::from(old.is_none());
    let line = HEADER + LINE * index;
    let next_line = line + if old.is_some() { LINE } else { 0 };
    let next_body = body + old.map_or(0, Line::room);
    let length = archive.len() - (next_line - line) - (next_body - body) + LINE + pdu.len();
    if count > MAX_ENTRIES || length > MAX_BYTES || length > out.len() {
        return Err(Refusal::Room.into());
    }

    let mut rest = out;
    let mut append = |bytes: &[u8]| {
        let (place, after) = core::mem::take(&mut rest).split_at_mut(bytes.len());
        place.copy_from_slice(bytes);
        rest = after;
    };
    append(&archive[..3]);
    append(&(count as u16).to_be_bytes());
    append(&archive[HEADER..line]);
    append(&Line { key, bits, day }.to_bytes());
    append(&archive[next_line..body]);
    append(pdu);
    append(&archive[next_body..]);
    Ok(length)
}

/// Writes network, SSI and part of the entry at an index, from 0, to `key` and returns the length in bits and
/// the day of its PDU. Refuses with 9 for another count of words, 7, 11 for an index that is not below the
/// count of entries.
pub fn entry(archive: &[u8], index: usize, key: &mut [u32]) -> Result<Restored, Refused> {
    let words = <&mut [u32; KEY_WORDS]>::try_from(key).map_err(|_| Refusal::Range)?;
    let Line { key, bits, day } = Archive::check(archive)?.lines().nth(index).ok_or(Refusal::NotHeld)?;
    *words = [key.network(), key.ssi(), key.part()];
    Ok(Restored { bits, day })
}

/// Writes the PDU held for a user and part to `out` and returns its length in bits and its day.
/// Refuses with 9, 7, 11, 8.
pub fn restore(
    archive: &[u8],
    network: u32,
    ssi: u32,
    part: u32,
    out: &mut [u8],
) -> Result<Restored, Refused> {
    let key = Key::asked(network, ssi, part)?;
    let held = Archive::check(archive)?;
    let (Line { bits, day, .. }, body) = held.body(key).ok_or(Refusal::NotHeld)?;
    out.get_mut(..body.len()).ok_or(Refusal::Room)?.copy_from_slice(body);
    Ok(Restored { bits, day })
}
