//! The PDUs: their grammar in one walk, and reading.
//!
//! The walk judges every element and tells a visitor what it met. The reader's visitor fills a record, the
//! archive check's does nothing, the decision's compares, the reload's looks which lists have entries.

use crate::bits::Cursor;
use crate::codes::{codes, has_users, is_pdu_type, Element, Rest, RANGE, SERVICE_COUNT, SS_TYPE};
use crate::layout::{record, DIGITS, IDENTITY_WORDS, NUMBER_WORDS, RECORD_WORDS};
use crate::refusal::{Refusal, Refused, Stop};
use crate::words::spread;

/// Most bits of a PDU.
pub const MAX_BITS: usize = 4096;

/// The lists; the discriminant is the place of the list's range type in a record.
#[derive(Clone, Copy, PartialEq, Eq)]
#[repr(usize)]
pub enum List {
    Affected = record::AFFECTED,
    Groups = record::GROUPS,
    Restricted = record::RESTRICTED,
    Exceptions = record::EXCEPTIONS,
    RestrictedNumbers = record::RESTRICTED_NUMBERS,
    ExceptedNumbers = record::EXCEPTED_NUMBERS,
}

/// An identity entry; the extension is zero unless present.
#[derive(Clone, Copy, PartialEq, Eq)]
pub struct Identity {
    pub ssi: u32,
    pub present: bool,
    pub extension: u32,
}

impl Identity {
    /// The entry of zeros.
    const ZERO: Identity = Identity { ssi: 0, present: false, extension: 0 };

    /// The network that the entry means, where a missing extension means `missing`.
    #[inline(always)]
    pub fn network(self, missing: u32) -> u32 {
        if self.present {
            self.extension
        } else {
            missing
        }
    }

    /// Its bits: SSI, extension present, and the extension if it is.
    #[inline(always)]
    pub fn width(self) -> usize {
        if self.present {
            49
        } else {
            25
        }
    }
}

/// An external number: its length, and its digits of 4 bits each, left-aligned with zeros after them.
#[derive(Clone, Copy, PartialEq, Eq)]
pub struct Number {
    pub length: u32,
    pub digits: u128,
}

/// What a walk tells of the elements that it met. Places count from 0.
pub trait Visitor {
    /// An element outside the lists, by its place in the record.
    #[inline(always)]
    fn element(&mut self, _place: usize, _value: u32) {}
    /// A service.
    #[inline(always)]
    fn service(&mut self, _place: usize, _value: u32) {}
    /// A list's range type.
    #[inline(always)]
    fn range_type(&mut self, _list: List, _code: u32) {}
    /// A single entry of a list of identities.
    #[inline(always)]
    fn single(&mut self, _list: List, _place: usize, _entry: Identity) {}
    /// A range of identities.
    #[inline(always)]
    fn range(&mut self, _list: List, _first: Identity, _last: Identity) {}
    /// An external number.
    #[inline(always)]
    fn number(&mut self, _list: List, _place: usize, _entry: Number) {}
}

/// The visitor that only lets the walk judge.
pub struct Judge;

impl Visitor for Judge {}

/// What decides whether and under which key an archive holds a PDU.
pub struct Head {
    pub pdu_type: u32,
    /// What follows the elements that are codes.
    pub rest: Rest,
    /// The range type of the affected users, zero where there are none.
    pub affected_code: u32,
    /// The first affected user.
    pub user: Identity,
}

/// A cursor on the PDU, or 1.
pub fn frame(pdu: &[u8], bits: usize) -> Result<Cursor<'_>, Refusal> {
    if bits > MAX_BITS || pdu.len() != bits.div_ceil(8) || !unused_bits_are_zero(pdu, bits) {
        return Err(Refusal::Frame);
    }
    Ok(Cursor::new(pdu, bits))
}

/// Are the bits after `bits` in the last of its bytes zero?
#[inline(always)]
pub fn unused_bits_are_zero(pdu: &[u8], bits: usize) -> bool {
    match pdu.last() {
        Some(last) if !bits.is_multiple_of(8) => last << (bits % 8) == 0,
        _ => true,
    }
}

/// 3 unless the value of an element is legal.
#[inline(always)]
fn unless(legal: bool) -> Option<Refusal> {
    (!legal).then_some(Refusal::Value)
}

/// Walks a PDU from its first element to its last: where it stops with 2, 3, 4 or 5, or its head.
#[inline(always)]
pub fn walk<V: Visitor>(cursor: Cursor<'_>, visitor: &mut V) -> Result<Head, Stop> {
    // A refused PDU is walked again to say where, so that no place is kept on the way through a legal one.
    elements(cursor, visitor).map_err(|_| first_stop(cursor))
}

#[cold]
#[inline(never)]
fn first_stop(cursor: Cursor<'_>) -> Stop {
    elements(cursor, &mut Judge).err().expect("it is refused")
}

/// The elements of a PDU.
#[inline(always)]
fn elements<V: Visitor>(mut cursor: Cursor<'_>, visitor: &mut V) -> Result<Head, Stop> {
    let cursor = &mut cursor;
    cursor.take(6, |ss_type| unless(ss_type == SS_TYPE))?;
    let pdu_type = cursor.take(5, |pdu_type| unless(is_pdu_type(pdu_type)))?;
    visitor.element(record::PDU_TYPE, pdu_type);
    let (affected_code, user) =
        if has_users(pdu_type) { identities(cursor, visitor, List::Affected)? } else { (0, Identity::ZERO) };
    let rest = codes(
        pdu_type,
        #[inline(always)]
        |element| code(cursor, visitor, element),
    )?;
    if rest != Rest::End {
        services(cursor, visitor)?;
    }
    match rest {
        Rest::End | Rest::Services => {}
        Rest::Identities => {
            identities(cursor, visitor, List::Groups)?;
            identities(cursor, visitor, List::Restricted)?;
            identities(cursor, visitor, List::Exceptions)?;
        }
        Rest::Numbers => {
            identities(cursor, visitor, List::Groups)?;
            numbers(cursor, visitor, List::RestrictedNumbers)?;
            numbers(cursor, visitor, List::ExceptedNumbers)?;
        }
    }
    if cursor.left() != 0 {
        return Err(cursor.stop(0, Refusal::Left));
    }
    Ok(Head { pdu_type, rest, affected_code, user })
}

/// An element that is a code.
#[inline(always)]
fn code<V: Visitor>(cursor: &mut Cursor<'_>, visitor: &mut V, element: Element) -> Result<u32, Stop> {
    let value = cursor.take(element.width, |value| unless(element.has(value)))?;
    visitor.element(element.place, value);
    Ok(value)
}

/// The number of services and the services.
#[inline(always)]
fn services<V: Visitor>(cursor: &mut Cursor<'_>, visitor: &mut V) -> Result<(), Stop> {
    let count = code(cursor, visitor, SERVICE_COUNT)? as usize;
    let window = cursor.window();
    // Services of 4 to 7 have their first bit set.
    let refused = window & (0o4444444 << 43) & !(u64::MAX >> (3 * count));
    if refused != 0 || cursor.left() < 3 * count {
        return Err(stop_among(cursor, 3, refused.leading_zeros() as usize / 3));
    }
    for place in 0..count {
        visitor.service(place, (window >> (61 - 3 * place)) as u32 & 3);
    }
    cursor.skip(3 * count);
    Ok(())
}

/// Where a run of elements of `width` bits stops: at the first that is refused, or at the first that is not
/// there whole.
#[inline(always)]
fn stop_among(cursor: &Cursor<'_>, width: usize, first_refused: usize) -> Stop {
    let whole = cursor.left() / width;
    if first_refused < whole {
        cursor.stop(width * first_refused, Refusal::Value)
    } else {
        cursor.stop(width * whole, Refusal::Short)
    }
}

/// A range type and its identity entries: the code, and the first entry if there is one.
#[inline(always)]
fn identities<V: Visitor>(
    cursor: &mut Cursor<'_>,
    visitor: &mut V,
    list: List,
) -> Result<(u32, Identity), Stop> {
    let range_type = *cursor;
    let code = cursor.take(4, |_| None)?;
    let mut first = Identity::ZERO;
    match code {
        0 if list != List::Affected => {}
        1..=8 => {
            for place in 0..code as usize {
                let entry = identity(cursor)?;
                if place == 0 {
                    first = entry;
                }
                visitor.single(list, place, entry);
            }
        }
        RANGE => {
            first = identity(cursor)?;
            let second_end = *cursor;
            let last = identity(cursor)?;
            if first.present != last.present || first.extension != last.extension || first.ssi > last.ssi {
                return Err(second_end.stop(0, Refusal::Ends));
            }
            visitor.range(list, first, last);
        }
        _ => return Err(range_type.stop(0, Refusal::Value)),
    }
    visitor.range_type(list, code);
    Ok((code, first))
}

/// An identity entry: no value of its elements is refused, so only its end is looked at.
#[inline(always)]
fn identity(cursor: &mut Cursor<'_>) -> Result<Identity, Stop> {
    let window = cursor.window();
    let ssi = (window >> 40) as u32;
    let present = window & 1 << 39 != 0;
    let width = if present { 49 } else { 25 };
    if cursor.left() < width {
        return Err(stop_in_identity(cursor));
    }
    cursor.skip(width);
    Ok(Identity { ssi, present, extension: if present { (window >> 15) as u32 & 0xff_ffff } else { 0 } })
}

/// Where an identity entry that is not there whole stops: at its SSI, its present bit or its extension.
#[inline(always)]
fn stop_in_identity(cursor: &Cursor<'_>) -> Stop {
    let whole = match cursor.left() {
        ..24 => 0,
        24 => 24,
        _ => 25,
    };
    cursor.stop(whole, Refusal::Short)
}

/// A range type and its external numbers.
#[inline(always)]
fn numbers<V: Visitor>(cursor: &mut Cursor<'_>, visitor: &mut V, list: List) -> Result<(), Stop> {
    let code = cursor.take(4, |code| unless(code <= 8))?;
    visitor.range_type(list, code);
    for place in 0..code as usize {
        let entry = number(cursor)?;
        visitor.number(list, place, entry);
    }
    Ok(())
}

/// An external number: its length, then each digit.
#[inline(always)]
fn number(cursor: &mut Cursor<'_>) -> Result<Number, Stop> {
    let length = cursor.take(5, |length| unless((1..=DIGITS as u32).contains(&length)))?;
    let window = cursor.wide_window();
    let first_refused = first_refused_digit(window);
    let width = 4 * length as usize;
    if first_refused < length as usize || cursor.left() < width {
        return Err(stop_among(cursor, 4, first_refused));
    }
    cursor.skip(width);
    Ok(Number { length, digits: window & !(u128::MAX >> width) })
}

/// The place of the first digit of 13 to 15; 32 if there is none.
#[inline(always)]
fn first_refused_digit(digits: u128) -> usize {
    // Marks the first bit of each digit that has both upper bits and a lower one.
    let refused = |word: u64| word & word << 1 & (word << 2 | word << 3) & 0x8888_8888_8888_8888;
    let (high, low) = (refused((digits >> 64) as u64), refused(digits as u64));
    let place = if high != 0 { high.leading_zeros() } else { 64 + low.leading_zeros() };
    place as usize / 4
}

/// The visitor that fills a record of zeros.
struct Fill([u32; RECORD_WORDS]);

impl Fill {
    #[inline(always)]
    fn identity(&mut self, list: List, place: usize, entry: Identity) {
        let at = list as usize + 1 + IDENTITY_WORDS * place;
        self.0[at..at + IDENTITY_WORDS].copy_from_slice(&[entry.ssi, entry.present.into(), entry.extension]);
    }
}

impl Visitor for Fill {
    #[inline(always)]
    fn element(&mut self, place: usize, value: u32) {
        self.0[place] = value;
    }

    #[inline(always)]
    fn service(&mut self, place: usize, value: u32) {
        self.0[record::FIRST_SERVICE + place] = value;
    }

    #[inline(always)]
    fn range_type(&mut self, list: List, code: u32) {
        self.0[list as usize] = code;
    }

    #[inline(always)]
    fn single(&mut self, list: List, place: usize, entry: Identity) {
        self.identity(list, place, entry);
    }

    #[inline(always)]
    fn range(&mut self, list: List, first: Identity, last: Identity) {
        self.identity(list, 0, first);
        self.identity(list, 1, last);
    }

    #[inline(always)]
    fn number(&mut self, list: List, place: usize, entry: Number) {
        let at = list as usize + 1 + NUMBER_WORDS * place;
        let words = &mut self.0[at..at + NUMBER_WORDS];
        words[0] = entry.length;
        let (eights, _) = words[1..].as_chunks_mut::<8>();
        for (i, eight) in eights.iter_mut().enumerate() {
            *eight = spread((entry.digits >> (96 - 32 * i)) as u32);
        }
    }
}

/// Reads a PDU of `bits` bits into a record of [`RECORD_WORDS`] words.
///
/// Refuses with 9 (word count), 1, then element by element 2, 3 and 4, and 5 last. All but 9 and 1 bring the
/// place.
pub fn read(pdu: &[u8], bits: usize, record: &mut [u32]) -> Result<(), Refused> {
    let record: &mut [u32; RECORD_WORDS] = record.try_into().map_err(|_| Refusal::Range)?;
    let cursor = frame(pdu, bits)?;
    let mut filled = Fill([0; RECORD_WORDS]);
    walk(cursor, &mut filled)?;
    *record = filled.0;
    Ok(())
}
