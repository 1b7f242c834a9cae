//! What crosses the boundary as words of 32 bits, in their order.

/// Words that are filled from the first to the last.
pub struct Sink<'a>(core::slice::IterMut<'a, u32>);

impl<'a> Sink<'a> {
    pub fn new(words: &'a mut [u32]) -> Self {
        Sink(words.iter_mut())
    }

    pub fn put(&mut self, word: u32) {
        *self.0.next().expect("the layout has a place for each word") = word;
    }
}

/// Words that are taken from the first to the last.
pub struct Source<'a>(core::slice::Iter<'a, u32>);

impl<'a> Source<'a> {
    pub fn new(words: &'a [u32]) -> Self {
        Source(words.iter())
    }

    pub fn take(&mut self) -> u32 {
        *self.0.next().expect("the layout has a word for each place")
    }
}

/// What crosses both ways. From words that no value has, `take` gives some value.
pub trait Crossing: Default {
    fn put(&self, sink: &mut Sink<'_>);
    fn take(source: &mut Source<'_>) -> Self;
}
