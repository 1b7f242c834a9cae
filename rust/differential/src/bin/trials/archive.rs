//! The answers to lines about the archive.

use reference::layout::REQUEST_WORDS;
use reference::{Decision, Refused, Restored};

use crate::line::{hex, put, rest, told, Words, FULL};

/// Bytes of a buffer.
const ROOM: usize = 70_000;
/// Where the SSI of a PDU's first user stands: behind SS type, PDU type and range type.
const SSI_PLACE: usize = 15;

/// What a PDU that is written from the archive has besides its bytes; only a restored one has a day.
struct Given {
    bits: usize,
    day: Option<u16>,
}

impl From<usize> for Given {
    fn from(bits: usize) -> Self {
        Given { bits, day: None }
    }
}

impl From<Restored> for Given {
    fn from(Restored { bits, day }: Restored) -> Self {
        Given { bits, day: Some(day) }
    }
}

/// A buffer, and the length of the archive in it.
pub struct Held {
    length: usize,
    bytes: Vec<u8>,
}

impl Held {
    /// No archive.
    pub fn nothing() -> Self {
        Held { length: 0, bytes: vec![FULL; ROOM] }
    }

    fn archive(&self) -> &[u8] {
        &self.bytes[..self.length.min(ROOM)]
    }

    /// The answer to a line.
    pub fn case(&mut self, line: &str) -> String {
        let words = &mut Words::after_first(line);
        match line.chars().next() {
            Some('e') => {
                let (home, room) = (words.number(), words.length());
                self.replace(room, |_, out| Ok(reference::empty(home, out)?))
            }
            Some('c') => {
                let (room, bits, day) = (words.length(), words.length(), words.number());
                self.capture(&words.bytes(), bits, day, room)
            }
            Some('m') => self.many(words),
            Some('o') => {
                let (at, bytes) = (words.length(), words.bytes());
                let count = bytes.len().min(ROOM - at);
                self.bytes[at..at + count].copy_from_slice(&bytes[..count]);
                format!("put {count}")
            }
            Some('l') => format!("was {}", std::mem::replace(&mut self.length, words.length())),
            Some('r') if line.starts_with("reload_external") => {
                let [network, ssi, definition, delivery, acknowledgement] = words.numbers();
                self.give(words.length(), |held, out| {
                    reference::reload_external(held, network, ssi, definition, delivery, acknowledgement, out)
                })
            }
            Some('r') if line.starts_with("reload") => {
                let [network, ssi, part, definition, delivery, acknowledgement] = words.numbers();
                self.give(words.length(), |held, out| {
                    reference::reload(held, network, ssi, part, definition, delivery, acknowledgement, out)
                })
            }
            Some('r') => {
                let [network, ssi, part] = words.numbers();
                self.give(words.length(), |held, out| reference::restore(held, network, ssi, part, out))
            }
            Some('v') => {
                let mut out = vec![FULL; ROOM];
                let listed = reference::contents(self.archive(), &mut out);
                written(listed, &out)
            }
            Some('d') => self.decide(words),
            Some('p') => {
                let (from, to) = (words.length(), words.length());
                hex(&self.bytes[from..to.min(ROOM)])
            }
            _ => String::new(),
        }
    }

    /// Another archive in place of the one that is held, unless it is refused.
    fn replace(&mut self, room: usize, call: impl Fn(&[u8], &mut [u8]) -> Result<usize, Refused>) -> String {
        let mut out = vec![FULL; ROOM];
        let answer = call(self.archive(), &mut out[..room.min(ROOM)]);
        let text = written(answer, &out);
        if let Ok(length) = answer {
            *self = Held { length, bytes: out };
        }
        text
    }

    fn capture(&mut self, pdu: &[u8], bits: usize, day: u32, room: usize) -> String {
        self.replace(room, |held, out| reference::capture(held, pdu, bits, day, out))
    }

    fn many(&mut self, words: &mut Words) -> String {
        let (from, to) = (words.number(), words.number());
        let (bits, day) = (words.length(), words.number());
        let mut pdu = words.bytes();
        (from..to)
            .map(|ssi| {
                put(&mut pdu, SSI_PLACE, 24, ssi);
                self.capture(&pdu, bits, day, ROOM) + "\n"
            })
            .collect()
    }

    /// A PDU that is written from the archive.
    fn give<G: Into<Given>>(
        &self,
        room: usize,
        call: impl Fn(&[u8], &mut [u8]) -> Result<G, Refused>,
    ) -> String {
        let mut out = vec![FULL; ROOM];
        match call(self.archive(), &mut out[..room.min(ROOM)]).map(Into::into) {
            Ok(Given { bits, day }) => {
                let day = day.map_or_else(String::new, |day| format!(" day {day}"));
                let (pdu, after) = out.split_at(bits.div_ceil(8));
                format!("bits {bits}{day} {}{}", hex(pdu), rest(after))
            }
            Err(refused) => told(refused) + rest(&out),
        }
    }

    fn decide(&self, words: &mut Words) -> String {
        let request: [u32; REQUEST_WORDS] = words.numbers();
        match reference::decide(self.archive(), &request) {
            Ok(Decision::Allowed) => "allowed".into(),
            Ok(Decision::NotHeld) => "not held".into(),
            Ok(barred) => format!("barred {}", barred.number()),
            Err(refused) => told(refused),
        }
    }
}

/// The length and the sum of what was written.
fn written(answer: Result<usize, Refused>, out: &[u8]) -> String {
    match answer {
        Ok(length) => format!("bytes {length} sum {}{}", sum(&out[..length]), rest(&out[length..])),
        Err(refused) => told(refused) + rest(out),
    }
}

fn sum(bytes: &[u8]) -> u64 {
    bytes.iter().fold(1, |total, byte| (total * 257 + u64::from(*byte)) % 16_777_213)
}
