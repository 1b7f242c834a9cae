//! The buffers that are lent to both sides.

use std::fmt::Debug;

use differential::Rng;

/// Places on each side of what is lent that no call may touch.
pub const MARGIN: usize = 8;

/// Equal buffers of random content for the two sides.
pub struct Lent<T> {
    library: Vec<T>,
    reference: Vec<T>,
    length: usize,
}

impl<T: Copy + PartialEq + Debug> Lent<T> {
    pub fn new(content: Vec<T>) -> Self {
        Lent { length: content.len() - 2 * MARGIN, reference: content.clone(), library: content }
    }

    pub fn library(&mut self) -> &mut [T] {
        &mut self.library[MARGIN..][..self.length]
    }

    pub fn reference(&mut self) -> &mut [T] {
        &mut self.reference[MARGIN..][..self.length]
    }

    /// The first place that differs, with both contents.
    pub fn difference(&self) -> Option<String> {
        let place = self.library.iter().zip(&self.reference).position(|(a, b)| a != b)?;
        let (a, b) = (self.library[place], self.reference[place]);
        Some(format!("place {} of {}: {a:?}, not {b:?}", place as isize - MARGIN as isize, self.length))
    }
}

pub fn bytes(rng: &mut Rng, length: usize) -> Lent<u8> {
    let mut content = vec![0; length + 2 * MARGIN];
    rng.fill(&mut content);
    Lent::new(content)
}

pub fn words(rng: &mut Rng, length: usize) -> Lent<u32> {
    Lent::new((0..length + 2 * MARGIN).map(|_| rng.bits(32)).collect())
}
