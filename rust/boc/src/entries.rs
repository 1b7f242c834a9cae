//! The entries of an archive.

use core::iter::FusedIterator;

use crate::codes::Part;
use crate::refusal::{Refusal, Refused};
use crate::request::Party;
use crate::{answer, day_of, ffi};

/// Words of a key.
pub const KEY_WORDS: usize = 3;

/// An entry of an archive: whose PDU it holds and which, what [`restore`](crate::restore) takes and gives.
#[derive(Clone, Copy, Debug, PartialEq, Eq, Hash)]
pub struct Entry {
    /// The user.
    pub user: Party,
    /// The part.
    pub part: Part,
    /// The PDU's length in bits.
    pub bits: usize,
    /// The day that was given when it was captured.
    pub day: u16,
}

/// The entry at an index, from 0. Entries rise by network, then SSI, then part.
///
/// Refuses with [`Archive`](Refusal::Archive), then with [`NotHeld`](Refusal::NotHeld) for an index that is
/// not below the count of entries.
pub fn entry(archive: &[u8], index: usize) -> Result<Entry, Refused> {
    let mut key = [0; KEY_WORDS];
    let (bits, day) = answer(|(bits, day), spot| ffi::entry(archive, index, &mut key, bits, day, spot))?;
    let [network, ssi, part] = key;
    let part = Part::from_number(part).expect("what is held is a part");
    Ok(Entry { user: Party { network, ssi }, part, bits, day: day_of(day) })
}

/// All entries of an archive, in their order. Each is asked for by itself, which checks the archive again.
///
/// Refuses with [`Archive`](Refusal::Archive).
pub fn entries(archive: &[u8]) -> Result<Entries<'_>, Refused> {
    let first = match entry(archive, 0) {
        Ok(first) => Some(first),
        Err(Refused { why: Refusal::NotHeld, .. }) => None,
        Err(refused) => return Err(refused),
    };
    Ok(Entries { archive, next: first, index: 0 })
}

/// The entries of an archive from an index on: see [`entries`].
#[derive(Clone, Debug)]
pub struct Entries<'a> {
    /// An archive: only an index is refused.
    archive: &'a [u8],
    /// The entry at `index`, if there is one.
    next: Option<Entry>,
    index: usize,
}

impl Iterator for Entries<'_> {
    type Item = Entry;

    fn next(&mut self) -> Option<Entry> {
        let this = self.next?;
        self.index += 1;
        self.next = entry(self.archive, self.index).ok();
        Some(this)
    }
}

impl FusedIterator for Entries<'_> {}
