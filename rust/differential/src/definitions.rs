//! What only definitions have: delivery, acknowledgement and definition type.

use crate::pdus::odd_word;
use crate::Rng;

/// The three elements in their order, as words.
pub type Definition = [u32; 3];

/// The definition types, by their numbers.
pub const DEFINITIONS: [&str; 3] = ["addition", "replacement", "removal"];

/// A legal definition for a switch.
pub fn definition(rng: &mut Rng) -> Definition {
    let [delivery, acknowledgement] = rng.pick(&[[0, 0], [1, 0], [1, 1]]);
    [delivery, acknowledgement, rng.below(3) as u32]
}

/// Changes a definition, most often to one that is refused.
pub fn damage_definition(rng: &mut Rng, definition: &mut [u32]) {
    match rng.below(4) {
        // An acknowledgement without delivery; the reserved definition type.
        0 => definition[..2].copy_from_slice(&[0, 1]),
        1 => definition[2] = 3,
        _ => definition[rng.below(3)] = odd_word(rng),
    }
}
