//! Seeded inputs for comparing the library with the reference: PDUs, records, archives, days, reloads and
//! requests, legal and damaged. All values come from small sets as often as from whole ranges, so that keys
//! meet and lists match.

#![forbid(unsafe_code)]

mod archives;
mod days;
mod definitions;
mod elements;
mod met;
mod pdus;
mod reloads;
mod requests;
mod rng;
pub mod typed;

pub use archives::{
    all_unfit, beyond, fault, lacking, unfit, Archive, Entry, DAMAGES, DAYS_BITS, FAULTS, HEADER, LACKS,
    LINE, MAX_BYTES, MAX_ENTRIES,
};
pub use days::{day, offered_day, NO_DAYS};
pub use definitions::{definition, Definition, DEFINITIONS};
pub use elements::{elements, joined, reserved_types, Code, Element, Form, FORMS};
pub use met::Met;
pub use pdus::{damage_record, longest_part, offered, part, record, record_of, Pdu, Record, Size};
pub use reloads::{all_out_of_range, losses, Reload};
pub use requests::{damage_request, request, Request};
pub use rng::Rng;

/// More bytes than any result needs.
pub const AMPLE: usize = 70_000;
/// The seed unless another is given.
pub const SEED: u64 = 2026;

/// The seed that the command's first word gives, if it is a number or there is none.
pub fn seed() -> Option<u64> {
    std::env::args().nth(1).map_or(Some(SEED), |word| word.parse().ok())
}

/// A length at, below or above the needed one.
pub fn room(rng: &mut Rng, needed: usize) -> usize {
    match rng.below(8) {
        0 => needed.saturating_sub(1),
        1 => rng.below(needed + 1),
        2 => needed,
        3 => AMPLE.min(needed + rng.below(4 * needed + 1)),
        4 => 0,
        _ => needed + rng.below(40),
    }
}

/// A network: one of a few, or any.
pub fn network(rng: &mut Rng) -> u32 {
    few_or_any(rng, 3)
}

/// An SSI: one of a few, or any.
pub fn ssi(rng: &mut Rng) -> u32 {
    few_or_any(rng, 12)
}

fn few_or_any(rng: &mut Rng, few: usize) -> u32 {
    match rng.below(8) {
        0 => rng.bits(24),
        1 => rng.pick(&[0, 0xff_ffff]),
        _ => rng.below(few) as u32,
    }
}
