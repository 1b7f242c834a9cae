//! Refusal numbers, and where a call stopped.

/// Why a call was refused; the discriminants are the scope's numbers.
#[derive(Clone, Copy, Debug, PartialEq, Eq)]
#[repr(u8)]
pub enum Refusal {
    /// Over 4,096 bits, wrong byte count, or a nonzero unused bit.
    Frame = 1,
    /// The PDU ends inside an element, or just before one that is due.
    Short = 2,
    /// An element's value is reserved or refused.
    Value = 3,
    /// Range ends disagree or are reversed.
    Ends = 4,
    /// Bits left after the last element.
    Left = 5,
    /// A legal PDU that no archive entry may hold.
    Unfit = 6,
    /// The archive breaks a rule.
    Archive = 7,
    /// A new key with 512 held, or the result exceeds 65,536 bytes or the lent buffer.
    Room = 8,
    /// A request, user, part, definition, home network, day or word count out of its range.
    Range = 9,
    /// Restore and reload: not held; entry: none has this index.
    NotHeld = 11,
    /// Reload: a held list that is not empty has no place in the PDU.
    Loss = 12,
    /// A terminal's line that is none.
    Syntax = 15,
    /// A terminal's line: a value out of its range.
    Field = 16,
    /// A terminal's line: a third field that its layer does not take, or a fourth.
    Surplus = 17,
}

impl Refusal {
    /// The scope's number: 1 to 9, 11, 12 or 15 to 17.
    pub const fn number(self) -> u32 {
        self as u32
    }
}

/// A refused call: why it was, and where it stopped.
#[derive(Clone, Copy, Debug, PartialEq, Eq)]
pub struct Refused {
    /// Why.
    pub why: Refusal,
    /// The first entry of the archive whose body is at fault, from 0; of an archive's refusal alone.
    pub entry: Option<usize>,
    /// The first bit of the element at fault, from 0, in the PDU or in that entry's body.
    pub place: Option<usize>,
}

impl Refused {
    /// The scope's number: 1 to 9, 11, 12 or 15 to 17.
    pub const fn number(self) -> u32 {
        self.why.number()
    }
}

/// A refusal that stopped nowhere.
impl From<Refusal> for Refused {
    fn from(why: Refusal) -> Self {
        Refused { why, entry: None, place: None }
    }
}

/// Why and at which bit, from 0, reading stopped.
pub struct Stop {
    pub why: Refusal,
    pub place: usize,
}

impl From<Stop> for Refused {
    fn from(Stop { why, place }: Stop) -> Self {
        Refused { why, entry: None, place: Some(place) }
    }
}
