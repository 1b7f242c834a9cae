//! Numbers and bytes of a line, the bits of a PDU, and what is printed of them.

use reference::Refused;

/// The byte that a lent buffer is full of.
pub const FULL: u8 = 0xa5;

/// The words of a line, after its first.
pub struct Words<'a>(std::str::Split<'a, [char; 2]>);

impl<'a> Words<'a> {
    /// The words after the first, which says what the line is about.
    pub fn after_first(line: &'a str) -> Self {
        let mut words = Words::of(line);
        words.next();
        words
    }

    /// All words.
    pub fn of(line: &'a str) -> Self {
        Words(line.split([' ', ',']))
    }

    /// The next word; nothing after the last.
    fn next(&mut self) -> &'a str {
        self.0.next().unwrap_or("")
    }

    /// The next word as a number, the largest of 32 bits for one above it; 0 after the last.
    pub fn number(&mut self) -> u32 {
        match self.next() {
            "" => 0,
            word => word.parse::<u64>().expect("it is a number").try_into().unwrap_or(u32::MAX),
        }
    }

    /// The next words as numbers.
    pub fn numbers<const N: usize>(&mut self) -> [u32; N] {
        [(); N].map(|()| self.number())
    }

    /// The next word as a length.
    pub fn length(&mut self) -> usize {
        self.number() as usize
    }

    /// The next word as bytes, two hexadecimal digits each.
    pub fn bytes(&mut self) -> Vec<u8> {
        let digits = self.next();
        let byte = |at| u8::from_str_radix(&digits[at..at + 2], 16).expect("it is a byte");
        (0..digits.len()).step_by(2).map(byte).collect()
    }

    /// Is there no further word?
    pub fn is_empty(&self) -> bool {
        self.0.clone().next().is_none()
    }
}

/// Puts the last `width` bits of a value at a bit place.
pub fn put(bytes: &mut [u8], at: usize, width: usize, value: u32) {
    for i in 0..width {
        let (place, bit) = ((at + i) / 8, 0x80 >> ((at + i) % 8));
        if value >> (width - 1 - i) & 1 == 1 {
            bytes[place] |= bit;
        } else {
            bytes[place] &= !bit;
        }
    }
}

/// Bytes in hexadecimal.
pub fn hex(bytes: &[u8]) -> String {
    bytes.iter().map(|byte| format!("{byte:02x}")).collect()
}

/// The refusal number of an answer, 0 for none.
pub fn number<T>(answer: Result<T, impl Into<Refused>>) -> u32 {
    answer.map_or_else(|refused| refused.into().number(), |_| 0)
}

/// A refusal: its number, then the entry and the bit place that it has.
pub fn told(refused: Refused) -> String {
    let stopped = |word, at: Option<usize>| at.map_or_else(String::new, |at| format!(" {word} {at}"));
    let (entry, bit) = (stopped("entry", refused.entry), stopped("bit", refused.place));
    format!("refused {}{entry}{bit}", refused.number())
}

/// Says so where a byte of a lent buffer is not as it was.
pub fn rest(bytes: &[u8]) -> &'static str {
    if bytes.iter().all(|byte| *byte == FULL) {
        ""
    } else {
        " changed"
    }
}
