//! Refusals, and where a call stopped.

use core::fmt;

use crate::ffi::{Spot, NOWHERE};

/// Why a call was refused; the discriminants are the library's numbers.
#[derive(Clone, Copy, Debug, PartialEq, Eq, Hash)]
#[repr(u32)]
pub enum Refusal {
    /// Over 4,096 bits, wrong byte count, or a nonzero unused bit.
    Frame = 1,
    /// The PDU ends inside an element, or just before one that is due.
    Short = 2,
    /// An element's value is reserved or refused; in writing also anything that must be zero and is not.
    Value = 3,
    /// Range ends disagree or are reversed.
    Ends = 4,
    /// Bits left after the last element.
    Left = 5,
    /// A legal PDU that no archive entry may hold.
    Unfit = 6,
    /// The archive breaks a rule.
    Archive = 7,
    /// A new key with 512 held, or the result exceeds 65,536 bytes or the lent buffer.
    Room = 8,
    /// A request, user, part, definition, home network, day, table or word count out of its range.
    Range = 9,
    /// Restore and reload: not held; entry: none has this index.
    NotHeld = 11,
    /// Reload: a held list that is not empty has no place in the PDU.
    Loss = 12,
    /// A terminal's line that is none.
    Syntax = 15,
    /// A terminal's line: a field's value is not one of its values.
    Field = 16,
    /// A terminal's line: a third field that its layer does not take, or a fourth.
    Surplus = 17,
}

impl Refusal {
    /// The library's number: 1 to 9, 11, 12 or 15 to 17.
    pub const fn number(self) -> u32 {
        self as u32
    }

    /// What a call that returned `number` answers: nothing for 0, otherwise its refusal.
    pub(crate) fn check(number: u32) -> Result<(), Refusal> {
        use Refusal::*;
        Err(match number {
            0 => return Ok(()),
            1 => Frame,
            2 => Short,
            3 => Value,
            4 => Ends,
            5 => Left,
            6 => Unfit,
            7 => Archive,
            8 => Room,
            9 => Range,
            11 => NotHeld,
            12 => Loss,
            15 => Syntax,
            16 => Field,
            17 => Surplus,
            _ => unreachable!("the library has no refusal {number}"),
        })
    }

    const fn words(self) -> &'static str {
        match self {
            Refusal::Frame => "over 4,096 bits, wrong byte count, or a nonzero unused bit",
            Refusal::Short => "the PDU ends inside an element, or just before one that is due",
            Refusal::Value => "an element's value is reserved or refused",
            Refusal::Ends => "range ends disagree or are reversed",
            Refusal::Left => "bits left after the last element",
            Refusal::Unfit => "a legal PDU that no archive entry may hold",
            Refusal::Archive => "the archive breaks a rule",
            Refusal::Room => "no room for the result",
            Refusal::Range => {
                "a request, user, part, definition, home network, day, table or word count out of its range"
            }
            Refusal::NotHeld => "not held",
            Refusal::Loss => "a held list that is not empty has no place in the PDU",
            Refusal::Syntax => "no line",
            Refusal::Field => "a field's value is not one of its values",
            Refusal::Surplus => "a third field that its layer does not take, or a fourth",
        }
    }
}

impl fmt::Display for Refusal {
    fn fmt(&self, f: &mut fmt::Formatter<'_>) -> fmt::Result {
        write!(f, "refused {}: {}", self.number(), self.words())
    }
}

impl core::error::Error for Refusal {}

/// A refused call that reads: why it was refused, and where it stopped.
#[derive(Clone, Copy, Debug, PartialEq, Eq, Hash)]
pub struct Refused {
    /// Why.
    pub why: Refusal,
    /// The first entry whose body is at fault, from 0. Only [`Archive`](Refusal::Archive) has one, where the
    /// archive's header, contents and length are right.
    pub entry: Option<usize>,
    /// The first bit, from 0, of the element at which reading stopped, in the PDU or in that entry's body.
    ///
    /// [`Short`](Refusal::Short): the element that is not there whole, which may be at the PDU's length.
    /// [`Value`](Refusal::Value): the element that is refused. [`Ends`](Refusal::Ends): the second end's SSI.
    /// [`Left`](Refusal::Left): the first bit left.
    pub place: Option<usize>,
}

impl Refused {
    /// What a call that returned `number` answers: nothing for 0, otherwise its refusal, and the spot that it
    /// wrote.
    pub(crate) fn check(number: u32, spot: Spot) -> Result<(), Refused> {
        let somewhere = |index: usize| (index != NOWHERE).then_some(index);
        Refusal::check(number).map_err(|why| Refused {
            why,
            entry: somewhere(spot.entry),
            place: somewhere(spot.place),
        })
    }
}

/// A refusal that stopped nowhere.
impl From<Refusal> for Refused {
    fn from(why: Refusal) -> Self {
        Refused { why, entry: None, place: None }
    }
}

impl fmt::Display for Refused {
    fn fmt(&self, f: &mut fmt::Formatter<'_>) -> fmt::Result {
        self.why.fmt(f)?;
        match (self.entry, self.place) {
            (None, None) => Ok(()),
            (None, Some(place)) => write!(f, ", at bit {place}"),
            (Some(entry), None) => write!(f, ", at entry {entry}"),
            (Some(entry), Some(place)) => write!(f, ", at entry {entry}, bit {place}"),
        }
    }
}

impl core::error::Error for Refused {}
