//! Days.

use crate::Rng;

/// Numbers that are no day: the first; others whose last 16 bits are one; the greatest.
pub const NO_DAYS: [u32; 4] = [65_536, 65_836, 1 << 31, u32::MAX];

/// A day: at an end, at a byte's limit, one of a few, or any.
pub fn day(rng: &mut Rng) -> u16 {
    match rng.below(4) {
        0 => rng.pick(&[0, 255, 256, u16::MAX]),
        1 => rng.between(299, 301) as u16,
        _ => rng.bits(16) as u16,
    }
}

/// What is given as a day: most often one.
pub fn offered_day(rng: &mut Rng) -> u32 {
    if rng.one_in(20) {
        rng.pick(&NO_DAYS)
    } else {
        day(rng).into()
    }
}
