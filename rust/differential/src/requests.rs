//! Requests.

use reference::layout::{request as at, DIGITS, REQUEST_WORDS};

use crate::pdus::{number, odd_word};
use crate::{network, ssi, Rng};

/// The words of a request.
pub type Request = [u32; REQUEST_WORDS];

/// A request of a user.
pub fn request(rng: &mut Rng, user: [u32; 2]) -> Request {
    let mut words = [0; REQUEST_WORDS];
    words[at::USER_NETWORK..][..2].copy_from_slice(&user);
    words[at::SERVICE] = rng.between(1, 3) as u32;
    if rng.one_in(2) {
        words[at::KIND] = 1;
        words[at::NETWORK..][..2].copy_from_slice(&[network(rng), ssi(rng)]);
    } else {
        words[at::KIND] = 2;
        words[at::LENGTH] = number(rng, &mut words[at::FIRST_DIGIT..][..DIGITS]) as u32;
    }
    if rng.one_in(2) {
        words[at::GROUP_GIVEN..].copy_from_slice(&[1, network(rng), ssi(rng)]);
    }
    words
}

/// Changes a request, most often to one that is refused.
pub fn damage_request(rng: &mut Rng, words: &mut Request) {
    let heads = [at::SERVICE, at::KIND, at::LENGTH, at::GROUP_GIVEN, at::USER_NETWORK, at::GROUP_SSI];
    let place = if rng.one_in(2) { rng.pick(&heads) } else { rng.below(REQUEST_WORDS) };
    words[place] = odd_word(rng);
}
