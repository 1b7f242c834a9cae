//! Runs of words: all zero, digits of a word each and of 4 bits each.

use crate::layout::DIGITS;

/// The words joined by or: zero exactly if each is.
#[inline(always)]
pub fn any(words: &[u32]) -> u32 {
    words.iter().fold(0, |all, word| all | word)
}

/// Is each word a digit, 0 to 12?
#[inline(always)]
pub fn are_digits(words: &[u32; DIGITS]) -> bool {
    words.iter().fold(true, |legal, word| legal & (*word <= 12))
}

/// 24 digits as a number of 96 bits.
#[inline(always)]
pub fn pack(digits: &[u32; DIGITS]) -> u128 {
    let (eights, _) = digits.as_chunks::<8>();
    eights.iter().fold(0, |packed, eight| {
        let word = (0..8).fold(0, |word, i| word | eight[i] << (28 - 4 * i));
        packed << 32 | u128::from(word)
    })
}

/// Eight digits of 4 bits, each in a word of its own.
#[inline(always)]
pub fn spread(digits: u32) -> [u32; 8] {
    core::array::from_fn(|i| digits >> (28 - 4 * i) & 0xf)
}
