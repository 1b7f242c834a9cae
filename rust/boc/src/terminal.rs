//! A terminal's table of service profiles (EN 300 392-5, clause 6.14.4).

use crate::{ffi, Refusal};

/// Places of a table: CC 0 and 1, MM 10 to 14, SDS 20 to 24, the PIDs 0 to 255 of SDS-TL, Packet Data.
pub const TABLE_BYTES: usize = 269;
/// No text of a table is longer.
pub const TABLE_TEXT_BYTES: usize = 2_300;

/// Where a service is signalled: the profile of a place.
#[derive(Clone, Copy, Debug, PartialEq, Eq, Hash)]
#[repr(u8)]
pub enum Profile {
    /// The mobile termination only.
    MtOnly = 0,
    /// The terminal equipment only.
    TeOnly = 1,
    /// Both, the default.
    Both = 2,
    /// Neither.
    Neither = 3,
}

/// A table of profiles, which +CTSP lines set and ask for.
///
/// ```
/// use boc::{Refusal, Terminal, TABLE_TEXT_BYTES};
///
/// let mut terminal = Terminal::default();
/// let mut text = [0; TABLE_TEXT_BYTES];
/// assert_eq!(terminal.line(b"AT+CTSP=1,0\r", &mut []), Ok(0));
/// assert_eq!(terminal.line(b"AT+CTSP=1,4,30\r", &mut []), Err(Refusal::Surplus));
/// let length = terminal.line(b"AT+CTSP?\r", &mut text)?;
/// assert_eq!(&text[..length], b"+CTSP: 1,0,0\r\n1,0,1\r\n");
/// # Ok::<(), Refusal>(())
/// ```
#[derive(Clone, Copy, Debug, PartialEq, Eq)]
pub struct Terminal([u8; TABLE_BYTES]);

impl Default for Terminal {
    /// Every place at [`Both`](Profile::Both).
    fn default() -> Self {
        let mut table = [0; TABLE_BYTES];
        assert_eq!(ffi::terminal_reset(&mut table), 0, "a table of this length is reset");
        Terminal(table)
    }
}

impl Terminal {
    /// Takes a line that a terminal sent, with its CR: sets what it says, or writes the text of the table to
    /// the front of `out`. Answers the text's length in bytes, 0 for a set line.
    ///
    /// Refuses with [`Syntax`](Refusal::Syntax), [`Field`](Refusal::Field), [`Surplus`](Refusal::Surplus) and
    /// [`Room`](Refusal::Room), in this order.
    pub fn line(&mut self, line: &[u8], out: &mut [u8]) -> Result<usize, Refusal> {
        let mut length = 0;
        Refusal::check(ffi::terminal_line(line, &mut self.0, out, &mut length)).map(|()| length)
    }

    /// The profile of a place, by its byte in the table.
    pub fn profile(&self, place: usize) -> Option<Profile> {
        Some(match self.0.get(place)? {
            0 => Profile::MtOnly,
            1 => Profile::TeOnly,
            2 => Profile::Both,
            _ => Profile::Neither,
        })
    }

    /// The table as bytes, a profile's number each.
    pub const fn bytes(&self) -> &[u8; TABLE_BYTES] {
        &self.0
    }
}
