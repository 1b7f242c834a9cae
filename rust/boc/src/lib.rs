//! Barring of outgoing calls (BOC, EN 300 392-12-18) from Rust: the proved library `libboc.a` behind slices,
//! plain structs and enums.
//!
//! It reads and writes the nine BOC PDUs, keeps INTERROGATE ACKs in an archive, restores them bit for bit,
//! reloads them as DEFINEs or DEFINE EXTERNALs, and decides calls from them. Every call answers with a value
//! or a [`Refusal`]; one that reads tells in [`Refused`] where it stopped, too. A refused call changes no byte
//! of what it was lent, and an accepted one leaves the bytes after what it wrote. Nothing is allocated.
//!
//! A PDU is a number of bits, most significant first, in exactly the bytes that hold them, with zero bits
//! after them. An archive is exactly the slice that was written: the first N bytes of the buffer, where N is
//! what [`empty`] or [`capture`] gave. A day is a number that the caller gives with a PDU and gets back with
//! it; what it counts from is the caller's business, days since 1970-01-01 are recommended.
//!
//! ```
//! use boc::*;
//!
//! // Speech to 100 to 199 is barred for user 5 of the home network, except to 150.
//! let record = Record {
//!     affected: List::of([Identity::without_extension(5)]),
//!     result: Outcome::Identities,
//!     services: Services::of([Service::Speech]),
//!     restricted: List::range(Identity::without_extension(100), Identity::without_extension(199)),
//!     exceptions: List::of([Identity::without_extension(150)]),
//!     ..Record::default()
//! };
//! let mut pdu = [0; PDU_BYTES];
//! let bits = write(&record, &mut pdu)?;
//! let pdu = &pdu[..bits.div_ceil(8)];
//! assert_eq!(read(pdu, bits), Ok(record));
//!
//! let (mut old, mut new) = ([0; 64], [0; 64]);
//! let length = empty(1, &mut old)?;
//! let day = 300;
//! let length = capture(&old[..length], pdu, bits, day, &mut new)?;
//! let archive = &new[..length];
//!
//! let user = Party { network: 1, ssi: 5 };
//! let call = |ssi| Request {
//!     user,
//!     service: Service::Speech,
//!     destination: Destination::Identity(Party { network: 1, ssi }),
//!     group: None,
//! };
//! assert_eq!(decide(archive, &call(100))?, Decision::RestrictedDestination);
//! assert_eq!(decide_in_place(archive, &call(150))?, Decision::Allowed);
//!
//! let mut back = [0; PDU_BYTES];
//! assert_eq!(restore(archive, user, Part::Identity, &mut back), Ok(Restored { bits, day }));
//! assert_eq!(&back[..pdu.len()], pdu);
//!
//! // All that is held, by its entries.
//! for Entry { user, part, bits, day } in entries(archive)? {
//!     assert_eq!(restore(archive, user, part, &mut back), Ok(Restored { bits, day }));
//! }
//!
//! let definition = Definition { definition_type: DefinitionType::Replacement, ..Definition::default() };
//! let define_bits = reload(archive, user, Part::Identity, definition, &mut back)?;
//! let define = read(&back[..define_bits.div_ceil(8)], define_bits)?;
//! assert_eq!((define.pdu_type, define.restricted), (PduType::Define, record.restricted));
//!
//! let refused = restore(archive, user, Part::Number, &mut back).unwrap_err();
//! assert_eq!(refused.why, Refusal::NotHeld);
//! let refused = read(pdu, bits + 1).unwrap_err();
//! assert_eq!((refused.why, refused.place), (Refusal::Left, Some(bits)));
//! # Ok::<(), Refused>(())
//! ```
//!
//! Building needs `libboc.a` for the target's processor, in the folder that `BOC_LIB_DIR` names.

#![no_std]
#![deny(unsafe_code)]
#![warn(missing_docs)]

mod codes;
mod entries;
pub mod ffi;
mod record;
mod refusal;
mod request;
mod terminal;
mod words;

pub use codes::{
    Decision, DefinitionResult, DefinitionType, DeliveryStatus, DistributionResult, InterrogationType,
    Outcome, Part, PduType, RejectionCause, Service,
};
pub use entries::{entries, entry, Entries, Entry, KEY_WORDS};
pub use record::{Definition, Identities, Identity, List, Number, Numbers, Record, Services, RECORD_WORDS};
pub use refusal::{Refusal, Refused};
pub use request::{Destination, Party, Request, REQUEST_WORDS};
pub use terminal::{Profile, Terminal, TABLE_BYTES, TABLE_TEXT_BYTES};

use ffi::Spot;

/// Bytes of the longest PDU that is read or written.
pub const PDU_BYTES: usize = 307;
/// Bytes of the longest archive.
pub const ARCHIVE_BYTES: usize = 65_536;
/// No listing is longer than this many bytes: 26, and 45 for each of 512 entries.
pub const CONTENTS_BYTES: usize = 26 + 45 * 512;

/// What [`restore`] answers of the PDU that it wrote.
#[derive(Clone, Copy, Debug, PartialEq, Eq, Hash)]
pub struct Restored {
    /// Its length in bits.
    pub bits: usize,
    /// The day that was given when it was captured.
    pub day: u16,
}

/// The record of the PDU of `bits` bits.
///
/// Refuses with [`Frame`](Refusal::Frame); then, element by element, with [`Short`](Refusal::Short),
/// [`Value`](Refusal::Value) and [`Ends`](Refusal::Ends); then with [`Left`](Refusal::Left). All but the first
/// bring the place.
pub fn read(pdu: &[u8], bits: usize) -> Result<Record, Refused> {
    let mut words = [0; RECORD_WORDS];
    let mut spot = Spot::NONE;
    Refused::check(ffi::read(pdu, bits, &mut words, &mut spot.place), spot)?;
    Ok(Record::from_words(&words).expect("what is read is a record"))
}

/// Writes a record's PDU to the front of `out`; answers its length in bits.
///
/// Refuses with [`Value`](Refusal::Value) for anything that must be zero and is not; then, element by
/// element, with [`Value`](Refusal::Value) and [`Ends`](Refusal::Ends); then with [`Room`](Refusal::Room).
pub fn write(record: &Record, out: &mut [u8]) -> Result<usize, Refusal> {
    let mut bits = 0;
    Refusal::check(ffi::write(&record.to_words(), out, &mut bits)).map(|()| bits)
}

/// Writes the archive of a home network that holds nothing to the front of `out`; answers its length in
/// bytes.
///
/// Refuses with [`Range`](Refusal::Range), then with [`Room`](Refusal::Room).
pub fn empty(home: u32, out: &mut [u8]) -> Result<usize, Refusal> {
    let mut length = 0;
    Refusal::check(ffi::empty(home, out, &mut length)).map(|()| length)
}

/// Writes to the front of `out` the archive that holds the PDU of `bits` bits too, under this day, in place of
/// one for the same user and part, whatever day that has; answers its length in bytes.
///
/// Refuses with [`Archive`](Refusal::Archive), then as [`read`] does, then with [`Unfit`](Refusal::Unfit),
/// then with [`Room`](Refusal::Room).
pub fn capture(archive: &[u8], pdu: &[u8], bits: usize, day: u16, out: &mut [u8]) -> Result<usize, Refused> {
    answer(|length, spot| ffi::capture(archive, pdu, bits, day.into(), out, length, spot))
}

/// Writes the PDU held for a user and part to the front of `out`; answers its length in bits and its day.
///
/// Refuses with [`Range`](Refusal::Range), [`Archive`](Refusal::Archive), [`NotHeld`](Refusal::NotHeld) and
/// [`Room`](Refusal::Room), in this order.
pub fn restore(archive: &[u8], user: Party, part: Part, out: &mut [u8]) -> Result<Restored, Refused> {
    let Party { network, ssi } = user;
    let (bits, day) =
        answer(|(bits, day), spot| ffi::restore(archive, network, ssi, part.number(), out, bits, day, spot))?;
    Ok(Restored { bits, day: day_of(day) })
}

/// Writes the part held for a user to the front of `out` as a DEFINE, with the affected user, the services
/// and the lists as they are held; answers its length in bits.
///
/// Refuses with [`Range`](Refusal::Range), [`Archive`](Refusal::Archive), [`NotHeld`](Refusal::NotHeld),
/// [`Loss`](Refusal::Loss) and [`Room`](Refusal::Room), in this order. [`Loss`](Refusal::Loss) is for a list
/// of numbers that is not empty, which no DEFINE has, and for any list that is not empty under a removal.
pub fn reload(
    archive: &[u8],
    user: Party,
    part: Part,
    definition: Definition,
    out: &mut [u8],
) -> Result<usize, Refused> {
    let Party { network, ssi } = user;
    let (part, [definition_type, delivery, acknowledgement]) = (part.number(), definition.numbers());
    answer(|bits, spot| {
        ffi::reload(archive, network, ssi, part, definition_type, delivery, acknowledgement, out, bits, spot)
    })
}

/// Writes the number part held for a user to the front of `out` as a DEFINE EXTERNAL, with the affected user,
/// the services and the lists as they are held; answers its length in bits.
///
/// Refuses with [`Range`](Refusal::Range), [`Archive`](Refusal::Archive), [`NotHeld`](Refusal::NotHeld),
/// [`Loss`](Refusal::Loss) and [`Room`](Refusal::Room), in this order. [`Loss`](Refusal::Loss) is for any list
/// that is not empty under a removal.
pub fn reload_external(
    archive: &[u8],
    user: Party,
    definition: Definition,
    out: &mut [u8],
) -> Result<usize, Refused> {
    let Party { network, ssi } = user;
    let [definition_type, delivery, acknowledgement] = definition.numbers();
    answer(|bits, spot| {
        ffi::reload_external(
            archive,
            network,
            ssi,
            definition_type,
            delivery,
            acknowledgement,
            out,
            bits,
            spot,
        )
    })
}

/// Decides a call by the part that the archive holds for its user.
///
/// Refuses with [`Range`](Refusal::Range), then with [`Archive`](Refusal::Archive).
pub fn decide(archive: &[u8], request: &Request) -> Result<Decision, Refused> {
    decided(answer(|decision, spot| ffi::decide(archive, &request.to_words(), decision, spot)))
}

/// The same as [`decide`] for every archive and call, without unpacking the part: it needs less stack, and
/// less time.
pub fn decide_in_place(archive: &[u8], request: &Request) -> Result<Decision, Refused> {
    decided(answer(|decision, spot| ffi::decide_in_place(archive, &request.to_words(), decision, spot)))
}

fn decided(number: Result<u32, Refused>) -> Result<Decision, Refused> {
    Ok(Decision::from_number(number?).expect("what is decided is a decision"))
}

/// Writes the listing of an archive to the front of `out` as text; answers its length in bytes.
///
/// Refuses with [`Archive`](Refusal::Archive), then with [`Room`](Refusal::Room).
pub fn contents(archive: &[u8], out: &mut [u8]) -> Result<usize, Refused> {
    answer(|length, spot| ffi::contents(archive, out, length, spot))
}

/// A day as a call gives it.
fn day_of(word: u32) -> u16 {
    u16::try_from(word).expect("a day that is held has 16 bits")
}

/// The number, or the numbers, that a call on an archive answers, or its refusal.
fn answer<N: Default>(call: impl FnOnce(&mut N, &mut Spot) -> u32) -> Result<N, Refused> {
    let (mut numbers, mut spot) = (N::default(), Spot::NONE);
    Refused::check(call(&mut numbers, &mut spot), spot).map(|()| numbers)
}
