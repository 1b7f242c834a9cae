//! Bit cursors, most significant bit first. A step loads 8 or 16 bytes and shifts.

use crate::refusal::{Refusal, Stop};

/// A place in a run of bits, and where the run ends.
///
/// The slice may be longer than the run: bytes after its end may be loaded, but no bit of them is taken.
#[derive(Clone, Copy)]
pub struct Cursor<'a> {
    bytes: &'a [u8],
    at: usize,
    end: usize,
}

impl<'a> Cursor<'a> {
    /// A cursor at the first of the `bits` bits that the slice begins with.
    pub fn new(bytes: &'a [u8], bits: usize) -> Self {
        Cursor { bytes, at: 0, end: bits }
    }

    /// Stops `ahead` bits after the cursor.
    #[inline(always)]
    pub fn stop(&self, ahead: usize, why: Refusal) -> Stop {
        Stop { why, place: self.at + ahead }
    }

    /// Bits between the cursor and the end.
    #[inline(always)]
    pub fn left(&self) -> usize {
        self.end - self.at
    }

    /// The next 57 bits or more, left-aligned; those after the end are arbitrary.
    #[inline(always)]
    pub fn window(&self) -> u64 {
        load(self.bytes, self.at >> 3) << (self.at & 7)
    }

    /// The next 121 bits or more, left-aligned; those after the end are arbitrary.
    #[inline(always)]
    pub fn wide_window(&self) -> u128 {
        load_wide(self.bytes, self.at >> 3) << (self.at & 7)
    }

    /// The bits from `from` on, up to `to`, of those that are left.
    pub fn between(&self, from: usize, to: usize) -> Self {
        Cursor { at: self.at + from, end: self.at + to, ..*self }
    }

    /// Moves on by `width` bits that are left.
    #[inline(always)]
    pub fn skip(&mut self, width: usize) {
        self.at += width;
    }

    /// The next element of `width` bits, 1 to 32: 2 if it is not there whole, or why its value is refused.
    #[inline(always)]
    pub fn take(&mut self, width: usize, refuse: impl FnOnce(u32) -> Option<Refusal>) -> Result<u32, Stop> {
        let (window, place) = (self.window(), self.at);
        if self.left() < width {
            return Err(Stop { why: Refusal::Short, place });
        }
        self.skip(width);
        let value = (window >> (64 - width)) as u32;
        if let Some(why) = refuse(value) {
            return Err(Stop { why, place });
        }
        Ok(value)
    }
}

/// The 8 bytes from `from` on as a number; bytes after the slice count as zero.
#[inline(always)]
fn load(bytes: &[u8], from: usize) -> u64 {
    match bytes.get(from..).and_then(|rest| rest.first_chunk()) {
        Some(chunk) => u64::from_be_bytes(*chunk),
        None => load_at_end(bytes, from),
    }
}

/// `load` where fewer than 8 bytes are left.
#[inline(never)]
fn load_at_end(bytes: &[u8], from: usize) -> u64 {
    if let Some(last) = bytes.last_chunk() {
        let passed = from + 8 - bytes.len();
        return if passed < 8 { u64::from_be_bytes(*last) << (8 * passed) } else { 0 };
    }
    let rest = bytes.get(from..).unwrap_or(&[]);
    (0..8).fold(0, |word, i| word << 8 | u64::from(rest.get(i).copied().unwrap_or(0)))
}

/// The 16 bytes from `from` on as a number; bytes after the slice count as zero.
#[inline(always)]
fn load_wide(bytes: &[u8], from: usize) -> u128 {
    match bytes.get(from..).and_then(|rest| rest.first_chunk()) {
        Some(chunk) => u128::from_be_bytes(*chunk),
        None => load_wide_at_end(bytes, from),
    }
}

/// `load_wide` where fewer than 16 bytes are left.
#[inline(never)]
fn load_wide_at_end(bytes: &[u8], from: usize) -> u128 {
    if let Some(last) = bytes.last_chunk() {
        let passed = from + 16 - bytes.len();
        return if passed < 16 { u128::from_be_bytes(*last) << (8 * passed) } else { 0 };
    }
    u128::from(load(bytes, from)) << 64 | u128::from(load(bytes, from + 8))
}

/// Bits gathered into an array of `N` bytes, which has 8 bytes more than the bits need.
pub struct Sheet<const N: usize> {
    bytes: [u8; N],
    /// The bits of the last, unfinished byte, left-aligned.
    open: u64,
    at: usize,
}

impl<const N: usize> Sheet<N> {
    /// An empty sheet.
    pub fn new() -> Self {
        Sheet { bytes: [0; N], open: 0, at: 0 }
    }

    /// Bits put so far.
    pub fn bits(&self) -> usize {
        self.at
    }

    /// The bytes that hold the bits put so far; unused bits are zero.
    pub fn bytes(&self) -> &[u8] {
        &self.bytes[..self.at.div_ceil(8)]
    }

    /// Puts an element of `width` bits, 1 to 56, that `value` fits.
    #[inline(always)]
    pub fn put(&mut self, value: u64, width: usize) {
        let first = self.at >> 3;
        let held = (self.at & 7) + width;
        let word = self.open | value << (64 - held);
        self.bytes[first..first + 8].copy_from_slice(&word.to_be_bytes());
        self.open = word << (held & !7);
        self.at += width;
    }

    /// Puts all bits that a cursor has left.
    pub fn copy(&mut self, mut from: Cursor<'_>) {
        while from.left() > 0 {
            let width = from.left().min(56);
            self.put(from.window() >> (64 - width), width);
            from.skip(width);
        }
    }
}
