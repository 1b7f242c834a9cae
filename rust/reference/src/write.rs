//! Records and writing.

use core::convert::Infallible;

use crate::bits::Sheet;
use crate::codes::{codes, has_users, is_pdu_type, Element, Rest, RANGE, SERVICE_COUNT, SS_TYPE};
use crate::layout::{
    record, DIGITS, IDENTITIES_WORDS, IDENTITY_WORDS, NUMBERS_WORDS, NUMBER_WORDS, PLACES, RECORD_WORDS,
    SERVICES,
};
use crate::pdu::List;
use crate::refusal::Refusal;
use crate::words::{any, are_digits, pack};

/// Bytes of the longest PDU, and room for the sheet's last step.
pub const SHEET_BYTES: usize = 2456_usize.div_ceil(8) + 8;

type Record = [u32; RECORD_WORDS];

/// Writes a record's PDU to `out` and returns its length in bits.
///
/// Refuses with 9 (word count), 3 (PDU type, or a value that must be zero), then element by element 3
/// and 4, and 8 last.
pub fn write(record: &[u32], out: &mut [u8]) -> Result<usize, Refusal> {
    let record: &Record = record.try_into().map_err(|_| Refusal::Range)?;
    if !is_pdu_type(record[record::PDU_TYPE]) || !unused_is_zero(record) {
        return Err(Refusal::Value);
    }
    let mut sheet = Sheet::new();
    put_pdu(&mut sheet, record)?;
    let bytes = sheet.bytes();
    out.get_mut(..bytes.len()).ok_or(Refusal::Room)?.copy_from_slice(bytes);
    Ok(sheet.bits())
}

/// Does the record hold as zero all that its PDU does not carry or use?
fn unused_is_zero(record: &Record) -> bool {
    let pdu_type = record[record::PDU_TYPE];
    let users = if has_users(pdu_type) {
        unused_of_identities(record, List::Affected)
    } else {
        any(&record[record::AFFECTED..record::INTERROGATION_TYPE])
    };
    // The sum of all codes, less those that the PDU carries.
    let sum = |words: &[u32]| words.iter().map(|word| u64::from(*word)).sum::<u64>();
    let mut others =
        sum(&record[record::INTERROGATION_TYPE..record::SERVICE_COUNT]) + sum(&record[record::DELIVERY..]);
    let Ok(rest) = codes(
        pdu_type,
        #[inline(always)]
        |element| {
            let word = record[element.place];
            others -= u64::from(word);
            Ok::<_, Infallible>(word)
        },
    );
    let rest = match rest {
        Rest::End => any(&record[record::SERVICE_COUNT..record::DELIVERY]),
        Rest::Services => unused_of_services(record) | any(&record[record::GROUPS..record::DELIVERY]),
        Rest::Identities => {
            unused_of_services(record)
                | unused_of_identities(record, List::Groups)
                | unused_of_identities(record, List::Restricted)
                | unused_of_identities(record, List::Exceptions)
                | any(&record[record::RESTRICTED_NUMBERS..record::DELIVERY])
        }
        Rest::Numbers => {
            unused_of_services(record)
                | unused_of_identities(record, List::Groups)
                | any(&record[record::RESTRICTED..record::RESTRICTED_NUMBERS])
                | unused_of_numbers(record, List::RestrictedNumbers)
                | unused_of_numbers(record, List::ExceptedNumbers)
        }
    };
    others == 0 && users | rest == 0
}

/// The unused places of carried services, joined by or.
#[inline(always)]
fn unused_of_services(record: &Record) -> u32 {
    let services = &record[record::FIRST_SERVICE..][..SERVICES];
    any(&services[(record[record::SERVICE_COUNT] as usize).min(SERVICES)..])
}

/// Entries that follow a range type, of whatever list; a code without a meaning has none.
#[inline(always)]
fn entries(code: u32) -> usize {
    match code {
        0..=8 => code as usize,
        RANGE => 2,
        _ => 0,
    }
}

/// The words of a carried list that must be zero, joined by or.
#[inline(always)]
fn unused_of_identities(record: &Record, list: List) -> u32 {
    let words = &record[list as usize..][..IDENTITIES_WORDS];
    let (used, unused) = words[1..].split_at(IDENTITY_WORDS * entries(words[0]));
    let (used, _) = used.as_chunks::<IDENTITY_WORDS>();
    used.iter()
        .fold(any(unused), |all, [_, present, extension]| all | if *present == 1 { 0 } else { *extension })
}

/// The words of a carried list that must be zero, joined by or.
#[inline(always)]
fn unused_of_numbers(record: &Record, list: List) -> u32 {
    let words = &record[list as usize..][..NUMBERS_WORDS];
    let (used, unused) = words[1..].split_at((NUMBER_WORDS * entries(words[0])).min(NUMBER_WORDS * PLACES));
    let (used, _) = used.as_chunks::<NUMBER_WORDS>();
    used.iter()
        .fold(any(unused), |all, [length, digits @ ..]| all | any(&digits[(*length as usize).min(DIGITS)..]))
}

/// Puts a record whose unused places are zero, element by element: 3 or 4.
#[inline(always)]
fn put_pdu(sheet: &mut Sheet<SHEET_BYTES>, record: &Record) -> Result<(), Refusal> {
    let pdu_type = record[record::PDU_TYPE];
    sheet.put(SS_TYPE.into(), 6);
    sheet.put(pdu_type.into(), 5);
    if has_users(pdu_type) {
        put_identities(sheet, record, List::Affected)?;
    }
    let rest = codes(
        pdu_type,
        #[inline(always)]
        |element| put_code(sheet, record, element),
    )?;
    if rest != Rest::End {
        put_services(sheet, record)?;
    }
    match rest {
        Rest::End | Rest::Services => Ok(()),
        Rest::Identities => {
            put_identities(sheet, record, List::Groups)?;
            put_identities(sheet, record, List::Restricted)?;
            put_identities(sheet, record, List::Exceptions)
        }
        Rest::Numbers => {
            put_identities(sheet, record, List::Groups)?;
            put_numbers(sheet, record, List::RestrictedNumbers)?;
            put_numbers(sheet, record, List::ExceptedNumbers)
        }
    }
}

/// Puts an element that is a code, or 3.
#[inline(always)]
fn put_code(sheet: &mut Sheet<SHEET_BYTES>, record: &Record, element: Element) -> Result<u32, Refusal> {
    let value = record[element.place];
    put(sheet, value, element.width, |value| element.has(value))?;
    Ok(value)
}

/// Puts the number of services and the services: 3.
#[inline(always)]
fn put_services(sheet: &mut Sheet<SHEET_BYTES>, record: &Record) -> Result<(), Refusal> {
    let count = put_code(sheet, record, SERVICE_COUNT)? as usize;
    for service in &record[record::FIRST_SERVICE..][..count] {
        put(sheet, *service, 3, |code| code <= 3)?;
    }
    Ok(())
}

/// Puts one element, or 3.
#[inline(always)]
fn put(
    sheet: &mut Sheet<SHEET_BYTES>,
    value: u32,
    width: usize,
    legal: impl Fn(u32) -> bool,
) -> Result<(), Refusal> {
    if !legal(value) {
        return Err(Refusal::Value);
    }
    sheet.put(value.into(), width);
    Ok(())
}

/// Puts a range type and its identity entries: 3 or 4.
#[inline(always)]
fn put_identities(sheet: &mut Sheet<SHEET_BYTES>, record: &Record, list: List) -> Result<(), Refusal> {
    let words = &record[list as usize..][..IDENTITIES_WORDS];
    let code = words[0];
    put(sheet, code, 4, |code| code <= RANGE && (code > 0 || list != List::Affected))?;
    let (places, _) = words[1..].as_chunks::<IDENTITY_WORDS>();
    for [ssi, present, extension] in &places[..entries(code)] {
        if (ssi | extension) >> 24 != 0 || *present > 1 {
            return Err(Refusal::Value);
        }
        let head = u64::from(ssi << 1 | present);
        if *present == 1 {
            sheet.put(head << 24 | u64::from(*extension), 49);
        } else {
            sheet.put(head, 25);
        }
    }
    if code == RANGE {
        let ([first_ssi, first @ ..], [last_ssi, last @ ..]) = (&places[0], &places[1]);
        if first != last || first_ssi > last_ssi {
            return Err(Refusal::Ends);
        }
    }
    Ok(())
}

/// Puts a range type and its external numbers: 3.
#[inline(always)]
fn put_numbers(sheet: &mut Sheet<SHEET_BYTES>, record: &Record, list: List) -> Result<(), Refusal> {
    let words = &record[list as usize..][..NUMBERS_WORDS];
    let code = words[0];
    put(sheet, code, 4, |code| code <= 8)?;
    let (places, _) = words[1..].as_chunks::<NUMBER_WORDS>();
    for [length, digits @ ..] in &places[..entries(code)] {
        if !matches!(length, 1..=24) || !are_digits(digits) {
            return Err(Refusal::Value);
        }
        // The digits after the length are zero: 12 digits at a time, cut off where the number ends.
        let packed = pack(digits);
        let high = u64::from(*length) << 48 | (packed >> 48) as u64;
        let low = packed as u64 & 0xffff_ffff_ffff;
        let width = 4 * *length as usize;
        if width <= 48 {
            sheet.put(high >> (48 - width), 5 + width);
        } else {
            sheet.put(high, 53);
            sheet.put(low >> (96 - width), width - 48);
        }
    }
    Ok(())
}
