//! The answers to lines about the PDU given last, and to one that gives it.

use reference::layout::RECORD_WORDS;

use crate::line::{hex, number, put, rest, told, Words, FULL};

/// Bytes that a record is written to unless its case says otherwise.
const ROOM: usize = 512;
/// The bytes of the longest PDU that is tried, and zeros after it.
const BYTES: usize = 520;

/// The PDU given last, and its record.
pub struct Last {
    bits: usize,
    bytes: [u8; BYTES],
    words: [u32; RECORD_WORDS],
}

impl Last {
    /// No PDU, and the record of zeros.
    pub fn nothing() -> Self {
        Last { bits: 0, bytes: [0; BYTES], words: [0; RECORD_WORDS] }
    }

    /// Reads the PDU of a line, and writes its record.
    pub fn replace(&mut self, line: &str) -> String {
        let words = &mut Words::of(line);
        *self = Last { bits: words.length(), ..Last::nothing() };
        let bytes = words.bytes();
        let count = bytes.len().min(BYTES);
        self.bytes[..count].copy_from_slice(&bytes[..count]);
        match reference::read(&self.bytes[..count], self.bits, &mut self.words) {
            Ok(()) => format!("read{}{}", nonzero(&self.words), written(&self.words, ROOM)),
            Err(refused) => told(refused),
        }
    }

    /// The answers to a line about what differs from the PDU or its record.
    pub fn differ(&self, line: &str) -> String {
        let words = &mut Words::after_first(line);
        match line.chars().next() {
            Some('t') => every(words, |i, _, _| self.with_element(i as usize, i, 8 - i % 8, 0)),
            Some('f') => every(words, |i, at, width| self.with_element(self.bits, at, width, i)),
            Some('a') => every(words, |i, width, value| self.with_element(self.bits, i, width, value)),
            Some('s') => every(words, |i, value, _| self.with_word(i, value)),
            Some('w') => self.write(words),
            _ => String::new(),
        }
    }

    /// The record with some words changed, written.
    fn write(&self, words: &mut Words) -> String {
        let room = words.length();
        let mut changed = self.words;
        while !words.is_empty() {
            let place = words.length();
            changed[place] = words.number();
        }
        written(&changed, room)
    }

    /// The answer to the first `bits` bits of the PDU with an element in its place.
    fn with_element(&self, bits: usize, at: u32, width: u32, value: u32) -> u32 {
        let mut bytes = self.bytes;
        put(&mut bytes, at as usize, width as usize, value);
        number(reference::read(&bytes[..bits.div_ceil(8)], bits, &mut [0; RECORD_WORDS]))
    }

    /// The answer to the record with one word changed.
    fn with_word(&self, place: u32, value: u32) -> u32 {
        let mut words = self.words;
        words[place as usize] = value;
        number(reference::write(&words, &mut [0; ROOM]))
    }
}

/// The words that are not zero, with their places.
fn nonzero(words: &[u32]) -> String {
    let words = words.iter().enumerate().filter(|(_, word)| **word != 0);
    words.map(|(place, word)| format!(" {place}:{word}")).collect()
}

/// A record as a PDU in a buffer of `room` bytes.
fn written(words: &[u32], room: usize) -> String {
    let mut bytes = [FULL; ROOM];
    match reference::write(words, &mut bytes[..room.min(ROOM)]) {
        Ok(bits) => {
            let (pdu, after) = bytes.split_at(bits.div_ceil(8));
            format!("{} written {bits} {}", rest(after), hex(pdu))
        }
        Err(refusal) => format!("{} refused {}", rest(&bytes), refusal.number()),
    }
}

/// The answers of as many cases as the line says, each where it is another than the one before.
fn every(words: &mut Words, answer: impl Fn(u32, u32, u32) -> u32) -> String {
    let (count, first, second) = (words.number(), words.number(), words.number());
    let mut before = None;
    let mut pairs = String::new();
    for i in 0..count {
        let number = answer(i, first, second);
        if before.replace(number) != Some(number) {
            pairs += &format!(" {i}:{number}");
        }
    }
    pairs
}
