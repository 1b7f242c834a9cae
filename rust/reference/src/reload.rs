//! A held part as a DEFINE or a DEFINE EXTERNAL.
//!
//! Either has the elements of the part, but for the PDU type and for what stands between the affected user
//! and the services. An empty list of numbers has the bits of an empty list of identities. So the bits are
//! copied.

use crate::archive::{Archive, Key, NUMBER_PART};
use crate::bits::Sheet;
use crate::codes::{DEFINE, DEFINE_EXTERNAL, REMOVAL, SS_TYPE};
use crate::pdu::{walk, List, Visitor};
use crate::refusal::{Refusal, Refused};
use crate::write::SHEET_BYTES;

/// Bits of SS type and PDU type.
const TYPES: usize = 6 + 5;
/// Bits of a range type.
const RANGE_TYPE: usize = 4;
/// Bits of interrogation result and delivery status.
const RESULT_AND_STATUS: usize = 3 + 2;

/// The visitor that looks which lists of a part have entries.
#[derive(Default)]
struct Entries {
    identities: bool,
    numbers: bool,
}

impl Visitor for Entries {
    #[inline(always)]
    fn range_type(&mut self, list: List, code: u32) {
        match list {
            List::Affected => {}
            List::Groups | List::Restricted | List::Exceptions => self.identities |= code != 0,
            List::RestrictedNumbers | List::ExceptedNumbers => self.numbers |= code != 0,
        }
    }
}

/// Delivery and acknowledgement, which only a delivery has, and the definition type.
struct Definition {
    delivery: u32,
    acknowledgement: u32,
    definition_type: u32,
}

impl Definition {
    /// These, or 9.
    fn asked(definition_type: u32, delivery: u32, acknowledgement: u32) -> Result<Self, Refusal> {
        if definition_type > REMOVAL || delivery > 1 || acknowledgement > delivery {
            return Err(Refusal::Range);
        }
        Ok(Definition { delivery, acknowledgement, definition_type })
    }
}

/// Writes the part held for a user to `out` as a DEFINE and returns its length in bits.
/// Refuses with 9, 7, 11, 12, 8.
#[allow(clippy::too_many_arguments, reason = "those of its C twin")]
pub fn reload(
    archive: &[u8],
    network: u32,
    ssi: u32,
    part: u32,
    definition_type: u32,
    delivery: u32,
    acknowledgement: u32,
    out: &mut [u8],
) -> Result<usize, Refused> {
    let key = Key::asked(network, ssi, part)?;
    let definition = Definition::asked(definition_type, delivery, acknowledgement)?;
    put_back(archive, key, DEFINE, definition, out)
}

/// Writes the number part held for a user to `out` as a DEFINE EXTERNAL and returns its length in bits.
/// Refuses with 9, 7, 11, 12, 8.
pub fn reload_external(
    archive: &[u8],
    network: u32,
    ssi: u32,
    definition_type: u32,
    delivery: u32,
    acknowledgement: u32,
    out: &mut [u8],
) -> Result<usize, Refused> {
    let key = Key::asked(network, ssi, NUMBER_PART)?;
    let definition = Definition::asked(definition_type, delivery, acknowledgement)?;
    put_back(archive, key, DEFINE_EXTERNAL, definition, out)
}

/// Writes the part held under a key as a PDU of this type. Refuses with 7, 11, 12, 8.
fn put_back(
    archive: &[u8],
    key: Key,
    pdu_type: u32,
    definition: Definition,
    out: &mut [u8],
) -> Result<usize, Refused> {
    let held = Archive::check(archive)?;
    let body = held.cursor(key).ok_or(Refusal::NotHeld)?;
    let mut entries = Entries::default();
    let head = walk(body, &mut entries)?;
    let Definition { delivery, acknowledgement, definition_type } = definition;
    let removal = definition_type == REMOVAL;
    // A removal has no lists, and a DEFINE none of numbers.
    if removal && entries.identities || (removal || pdu_type == DEFINE) && entries.numbers {
        return Err(Refusal::Loss.into());
    }

    let user_end = TYPES + RANGE_TYPE + head.user.width();
    // A removal leaves out the three lists.
    let end = body.left() - if removal { 3 * RANGE_TYPE } else { 0 };
    let mut sheet = Sheet::<SHEET_BYTES>::new();
    sheet.put((SS_TYPE << 5 | pdu_type).into(), TYPES);
    sheet.copy(body.between(TYPES, user_end));
    sheet.put((delivery << 3 | acknowledgement << 2 | definition_type).into(), 4);
    sheet.copy(body.between(user_end + RESULT_AND_STATUS, end));
    let bytes = sheet.bytes();
    out.get_mut(..bytes.len()).ok_or(Refusal::Room)?.copy_from_slice(bytes);
    Ok(sheet.bits())
}
