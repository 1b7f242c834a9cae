//! The listing of an archive.

use crate::archive::{Archive, Line};
use crate::decimal::decimal;
use crate::refusal::{Refusal, Refused};

/// Writes the listing of an archive to `out` and returns its length in bytes. Refuses with 7, 8.
///
/// The first line has the home network and the count; each other line has network, SSI, part, bit length and
/// day. Numbers are decimal, and each line ends in a line feed.
pub fn contents(archive: &[u8], out: &mut [u8]) -> Result<usize, Refused> {
    let archive = Archive::check(archive)?;
    let mut length = 0;
    list(&archive, |text| length += text.len());
    let mut rest = out.get_mut(..length).ok_or(Refusal::Room)?;
    list(&archive, |text| {
        let (place, after) = core::mem::take(&mut rest).split_at_mut(text.len());
        place.copy_from_slice(text);
        rest = after;
    });
    Ok(length)
}

/// Gives the listing piece by piece.
fn list(archive: &Archive<'_>, mut piece: impl FnMut(&[u8])) {
    let mut named = |name: &[u8], value: u32| {
        piece(name);
        piece(decimal(value, &mut [0; 10]));
    };
    let lines = archive.lines();
    named(b"home ", archive.home);
    named(b" entries ", lines.len() as u32);
    for Line { key, bits, day } in lines {
        named(b"\n", key.network());
        named(b" ", key.ssi());
        named(b" part ", key.part());
        named(b" bits ", bits as u32);
        named(b" day ", day.into());
    }
    piece(b"\n");
}
