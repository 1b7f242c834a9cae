//! The codes of the elements, and which elements a PDU has: tables 10 to 18, 23 and 27 to 38.

use crate::layout::record;

/// SS type of BOC: the site sheet's stand-in.
pub const SS_TYPE: u32 = 18;
/// PDU types (table 23).
pub const DEFINE: u32 = 5;
pub const DEFINE_ACK: u32 = 6;
pub const DEFINE_EXTERNAL: u32 = 7;
pub const DEFINE_USER: u32 = 8;
pub const DEFINE_USER_ACK: u32 = 9;
pub const DEFINE_EXTERNAL_USER: u32 = 10;
pub const INTERROGATE: u32 = 11;
pub const INTERROGATE_ACK: u32 = 12;
pub const CALL_BARRED: u32 = 13;
/// Definition types (table 28).
const ADDITION: u32 = 0;
const REPLACEMENT: u32 = 1;
pub const REMOVAL: u32 = 2;
/// Interrogation results that accept (table 35).
const IDENTITIES_PROVIDED: u32 = 1;
const NUMBERS_PROVIDED: u32 = 2;
/// Range type of a first and a last entry.
pub const RANGE: u32 = 9;

/// Is this the type of a PDU that is read and written?
#[inline(always)]
pub fn is_pdu_type(code: u32) -> bool {
    matches!(code, DEFINE..=CALL_BARRED)
}

/// Has a PDU of this type affected users?
#[inline(always)]
pub fn has_users(pdu_type: u32) -> bool {
    !matches!(pdu_type, DEFINE_USER | DEFINE_USER_ACK | DEFINE_EXTERNAL_USER | CALL_BARRED)
}

/// An element of up to three bits that is a code.
#[derive(Clone, Copy)]
pub struct Element {
    /// Where it stands in a record.
    pub place: usize,
    /// Its bits.
    pub width: usize,
    /// A bit for each legal code.
    codes: u32,
}

impl Element {
    const fn new(place: usize, width: usize, codes: &[u32]) -> Self {
        let (mut set, mut i) = (0, 0);
        while i < codes.len() {
            set |= 1 << codes[i];
            i += 1;
        }
        Element { place, width, codes: set }
    }

    /// Is this one of its codes? A value that is wider than the element is none.
    #[inline(always)]
    pub fn has(self, value: u32) -> bool {
        value < 8 && self.codes >> value & 1 == 1
    }
}

const INTERROGATION_TYPE: Element = Element::new(record::INTERROGATION_TYPE, 2, &[1, 2, 3]);
const RESULT: Element = Element::new(record::RESULT, 3, &[0, 1, 2, 3, 4, 6, 7]);
const DELIVERY_STATUS: Element = Element::new(record::DELIVERY_STATUS, 2, &[0, 1, 2, 3]);
pub const SERVICE_COUNT: Element = Element::new(record::SERVICE_COUNT, 3, &[1, 2, 3, 4, 5, 6, 7]);
const DELIVERY: Element = Element::new(record::DELIVERY, 1, &[0, 1]);
const ACKNOWLEDGEMENT: Element = Element::new(record::ACKNOWLEDGEMENT, 1, &[0, 1]);
const NO_ACKNOWLEDGEMENT: Element = Element::new(record::ACKNOWLEDGEMENT, 1, &[0]);
const DEFINITION_TYPE: Element = Element::new(record::DEFINITION_TYPE, 2, &[ADDITION, REPLACEMENT, REMOVAL]);
const DEFINITION_RESULT: Element = Element::new(record::DEFINITION_RESULT, 3, &[0, 1, 2, 3, 4, 6, 7]);
const DISTRIBUTION_RESULT: Element = Element::new(record::DISTRIBUTION_RESULT, 3, &[0, 1, 6, 7]);
const REJECTION_CAUSE: Element = Element::new(record::REJECTION_CAUSE, 2, &[0, 1, 2]);

/// What follows the elements that are codes.
#[derive(Clone, Copy, PartialEq, Eq)]
pub enum Rest {
    /// Nothing.
    End,
    /// Services.
    Services,
    /// Services, groups, restricted identities, exceptions to them.
    Identities,
    /// Services, groups, restricted external numbers, exceptions to them.
    Numbers,
}

/// Gives the elements of a PDU that are codes, from its affected users on, in their order to `each`, which
/// answers their values; what follows them.
#[inline(always)]
pub fn codes<E>(pdu_type: u32, mut each: impl FnMut(Element) -> Result<u32, E>) -> Result<Rest, E> {
    let only = match pdu_type {
        DEFINE | DEFINE_EXTERNAL => {
            // Only a delivery is acknowledged.
            let acknowledgement = if each(DELIVERY)? == 0 { NO_ACKNOWLEDGEMENT } else { ACKNOWLEDGEMENT };
            each(acknowledgement)?;
            return Ok(rest_of_definition(pdu_type, each(DEFINITION_TYPE)?));
        }
        DEFINE_USER | DEFINE_EXTERNAL_USER => {
            each(ACKNOWLEDGEMENT)?;
            return Ok(rest_of_definition(pdu_type, each(DEFINITION_TYPE)?));
        }
        INTERROGATE_ACK => {
            let result = each(RESULT)?;
            each(DELIVERY_STATUS)?;
            return Ok(match result {
                IDENTITIES_PROVIDED => Rest::Identities,
                NUMBERS_PROVIDED => Rest::Numbers,
                _ => Rest::Services,
            });
        }
        DEFINE_ACK => DEFINITION_RESULT,
        DEFINE_USER_ACK => DISTRIBUTION_RESULT,
        INTERROGATE => INTERROGATION_TYPE,
        _ => REJECTION_CAUSE,
    };
    each(only)?;
    Ok(Rest::End)
}

/// The entries of a DEFINE EXTERNAL USER are identities, as table 15 has them.
#[inline(always)]
fn rest_of_definition(pdu_type: u32, definition_type: u32) -> Rest {
    match definition_type {
        ADDITION | REPLACEMENT if pdu_type == DEFINE_EXTERNAL => Rest::Numbers,
        ADDITION | REPLACEMENT => Rest::Identities,
        _ => Rest::Services,
    }
}
