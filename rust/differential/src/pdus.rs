//! Records and PDUs.

use reference::layout::{record as at, DIGITS, IDENTITY_WORDS, NUMBER_WORDS, PLACES, RECORD_WORDS, SERVICES};

use crate::definitions::{damage_definition, definition};
use crate::elements::{Element, Form};
use crate::{network, ssi, Rng};

/// The words of a record.
pub type Record = [u32; RECORD_WORDS];

/// How many entries the lists of a record have.
#[derive(Clone, Copy, PartialEq, Eq)]
pub enum Size {
    /// As few as a part can have.
    Small,
    /// Any.
    Any,
    /// As many as fit, and each as long as can be.
    Full,
}

/// A PDU: its bytes and its bits.
#[derive(Clone, PartialEq, Eq)]
pub struct Pdu {
    /// The bytes.
    pub bytes: Vec<u8>,
    /// How many bits they hold.
    pub bits: usize,
}

impl Pdu {
    /// The PDU of a legal record.
    pub fn of(record: &Record) -> Self {
        let mut bytes = vec![0; 512];
        let bits = reference::write(record, &mut bytes).expect("the record is legal");
        bytes.truncate(bits.div_ceil(8));
        Pdu { bytes, bits }
    }

    /// As many bytes as the bits need, and zero bits after them.
    fn frame(&mut self) {
        self.bytes.resize(self.bits.div_ceil(8), 0);
        if let (Some(last), 1..) = (self.bytes.last_mut(), self.bits % 8) {
            *last &= 0xff << (8 - self.bits % 8);
        }
    }

    /// The PDU without its bits from a place on.
    pub fn cut(&self, bits: usize) -> Self {
        let mut pdu = Pdu { bits, ..self.clone() };
        pdu.frame();
        pdu
    }

    /// The PDU with the other bit at a place.
    pub fn flipped(&self, place: usize) -> Self {
        let mut pdu = self.clone();
        pdu.bytes[place / 8] ^= 0x80 >> (place % 8);
        pdu
    }

    /// The PDU with another value of an element.
    pub fn with(&self, element: &Element, value: u32) -> Self {
        let mut pdu = self.clone();
        pdu.put(element.place, element.width(), value);
        pdu
    }

    /// Puts the last `width` bits of a value at a place.
    pub(crate) fn put(&mut self, place: usize, width: usize, value: u32) {
        for i in 0..width {
            let (byte, bit) = ((place + i) / 8, 0x80 >> ((place + i) % 8));
            self.bytes[byte] &= !bit;
            if value >> (width - 1 - i) & 1 == 1 {
                self.bytes[byte] |= bit;
            }
        }
    }

    /// The value of an element, if it is there.
    fn value(&self, place: usize, width: usize) -> Option<u32> {
        (place..place + width).try_fold(0, |value, place| {
            let byte = self.bytes.get(place / 8)?;
            Some(value << 1 | u32::from(byte >> (7 - place % 8) & 1))
        })
    }

    /// Where the codes begin: behind the PDU type, or behind the affected users, if they are there.
    fn codes_begin(&self) -> Option<usize> {
        if !Form::of(self.value(6, 5)?)?.users {
            return Some(11);
        }
        let code = self.value(11, 4)?;
        let count = if code == 9 { 2 } else { code };
        (0..count).try_fold(15, |place, _| Some(place + 25 + 24 * self.value(place + 24, 1)? as usize))
    }

    fn flip(&mut self, rng: &mut Rng) {
        if self.bits > 0 {
            *self = self.flipped(rng.below(self.bits));
        }
    }

    /// Changes the PDU, most often to one that is refused.
    pub fn damage(&mut self, rng: &mut Rng) {
        match rng.below(12) {
            0..=3 => (0..rng.between(1, 3)).for_each(|_| self.flip(rng)),
            4 | 5 => {
                self.bits = rng.below(self.bits + 1);
                self.frame();
                if rng.one_in(2) {
                    self.flip(rng);
                }
            }
            6 => {
                self.bits += rng.between(1, 20);
                self.frame();
                if rng.one_in(2) {
                    self.flip(rng);
                }
            }
            7 => self.bits = (self.bits + rng.below(18)).saturating_sub(9),
            8 => self.bytes.resize((self.bytes.len() + rng.below(4)).saturating_sub(2), 0),
            9 => {
                if let Some(last) = self.bytes.last_mut() {
                    *last |= 1 << rng.below(8);
                }
            }
            10 => {
                self.bits = rng.pick(&[0, 1, 10, 11, 12, 64, 4095, 4096, 4097, 4104]);
                self.bytes.resize(self.bits.div_ceil(8), 0);
                rng.fill(&mut self.bytes);
                if rng.one_in(2) {
                    self.frame();
                }
            }
            _ => match rng.below(4) {
                // Any PDU type behind the SS type.
                0 => {
                    self.bytes = vec![0x48 | rng.bits(2) as u8, (rng.bits(3) as u8) << 5, 0];
                    self.bits = rng.between(11, 17);
                    self.frame();
                }
                // A count that rounding up would overflow.
                1 => self.bits = usize::MAX - rng.below(9),
                // Any bits for the codes.
                2 => {
                    if let Some(begin) = self.codes_begin() {
                        (begin..self.bits.min(begin + 4)).filter(|_| rng.one_in(2)).for_each(|place| {
                            *self = self.flipped(place);
                        });
                    }
                }
                _ => rng.fill(&mut self.bytes),
            },
        }
    }
}

/// A legal record: of any PDU, often of one with lists, most often of an INTERROGATE ACK.
pub fn record(rng: &mut Rng) -> Record {
    let pdu_type = rng.pick(&[5, 5, 6, 7, 7, 8, 9, 10, 11, 12, 12, 12, 12, 12, 12, 13]);
    record_of(rng, pdu_type, Size::Any)
}

/// A legal record of a PDU type; at full size the longest, which of an INTERROGATE ACK is a number part.
pub fn record_of(rng: &mut Rng, pdu_type: u32, size: Size) -> Record {
    let mut words = [0; RECORD_WORDS];
    words[at::PDU_TYPE] = pdu_type;
    match pdu_type {
        5 | 7 => {
            let definition = if size == Size::Full { [1, 1, 1] } else { definition(rng) };
            words[at::DELIVERY..][..3].copy_from_slice(&definition);
        }
        6 => words[at::DEFINITION_RESULT] = rng.pick(&[0, 1, 2, 3, 4, 6, 7]),
        8 | 10 => {
            words[at::ACKNOWLEDGEMENT] = rng.bits(1);
            words[at::DEFINITION_TYPE] = if size == Size::Full { 1 } else { rng.below(3) as u32 };
        }
        9 => words[at::DISTRIBUTION_RESULT] = rng.pick(&[0, 1, 6, 7]),
        11 => words[at::INTERROGATION_TYPE] = rng.between(1, 3) as u32,
        12 => {
            let result = if size == Size::Full { 2 } else { rng.pick(&[0, 1, 1, 1, 2, 2, 2, 3, 4, 6, 7]) };
            acknowledge(rng, &mut words, result, size);
        }
        _ => words[at::REJECTION_CAUSE] = rng.below(3) as u32,
    }
    if matches!(pdu_type, 5 | 7 | 8 | 10) {
        services(rng, &mut words, size);
        match words[at::DEFINITION_TYPE] {
            2 => {}
            _ if pdu_type == 7 => number_lists(rng, &mut words, size),
            _ => identity_lists(rng, &mut words, size),
        }
    }
    if Form::of(pdu_type).is_some_and(|form| form.users) {
        let code = if size == Size::Full { 8 } else { rng.pick(&[1, 1, 1, 2, 3, 5, 8, 9]) };
        identities(rng, &mut words, at::AFFECTED, code, size);
    }
    words
}

/// A PDU that is offered for a user: most often fit, else unfit or damaged.
pub fn offered(rng: &mut Rng, home: u32, user: [u32; 2]) -> Pdu {
    let kind = rng.between(1, 2) as u32;
    let mut pdu = match rng.below(8) {
        0 => Pdu::of(&record(rng)),
        1 => Pdu::of(&part(rng, home, user, kind, Size::Small)),
        2 => Pdu::of(&part(rng, home, user, kind, Size::Full)),
        _ => Pdu::of(&part(rng, home, user, kind, Size::Any)),
    };
    if rng.one_in(4) {
        pdu.damage(rng);
    }
    pdu
}

/// The record of a part of a user, with the network spelt out unless it is the home network.
pub fn part(rng: &mut Rng, home: u32, user: [u32; 2], part: u32, size: Size) -> Record {
    let mut words = [0; RECORD_WORDS];
    acknowledge(rng, &mut words, part, size);
    let [network, ssi] = user;
    let entry =
        if network == home && size != Size::Full && rng.one_in(2) { [ssi, 0, 0] } else { [ssi, 1, network] };
    words[at::AFFECTED] = 1;
    words[at::AFFECTED + 1..][..IDENTITY_WORDS].copy_from_slice(&entry);
    words
}

/// The record of the longest part of a kind that a PDU can be: eight affected users, every list full.
pub fn longest_part(rng: &mut Rng, kind: u32) -> Record {
    let mut words = part(rng, 1, [2, 5], kind, Size::Full);
    identities(rng, &mut words, at::AFFECTED, 8, Size::Full);
    words
}

/// An INTERROGATE ACK but for its affected users.
fn acknowledge(rng: &mut Rng, words: &mut Record, result: u32, size: Size) {
    words[at::PDU_TYPE] = 12;
    words[at::RESULT] = result;
    words[at::DELIVERY_STATUS] = rng.bits(2);
    services(rng, words, size);
    if result == 1 {
        identity_lists(rng, words, size);
    }
    if result == 2 {
        number_lists(rng, words, size);
    }
}

fn services(rng: &mut Rng, words: &mut Record, size: Size) {
    let count = match size {
        Size::Small => 1,
        Size::Any => rng.between(1, SERVICES),
        Size::Full => SERVICES,
    };
    words[at::SERVICE_COUNT] = count as u32;
    words[at::FIRST_SERVICE..][..count].fill_with(|| rng.bits(2));
}

/// Closed user groups, restricted identities and exceptions to them.
fn identity_lists(rng: &mut Rng, words: &mut Record, size: Size) {
    for list in [at::GROUPS, at::RESTRICTED, at::EXCEPTIONS] {
        let code = code(rng, size, 9);
        identities(rng, words, list, code, size);
    }
}

/// Closed user groups, restricted external numbers and exceptions to them.
fn number_lists(rng: &mut Rng, words: &mut Record, size: Size) {
    let groups = code(rng, size, 9);
    identities(rng, words, at::GROUPS, groups, size);
    for list in [at::RESTRICTED_NUMBERS, at::EXCEPTED_NUMBERS] {
        let code = code(rng, size, 8);
        numbers(rng, words, list, code, size);
    }
}

/// A range type: often that of an empty list, where any may be.
fn code(rng: &mut Rng, size: Size, most: usize) -> u32 {
    match size {
        Size::Small => 0,
        Size::Any if rng.one_in(4) => 0,
        Size::Any => rng.below(most + 1) as u32,
        Size::Full => 8,
    }
}

fn identities(rng: &mut Rng, words: &mut Record, list: usize, code: u32, size: Size) {
    words[list] = code;
    let count = if code == 9 { 2 } else { code as usize };
    let (places, _) = words[list + 1..][..PLACES * IDENTITY_WORDS].as_chunks_mut::<IDENTITY_WORDS>();
    for entry in &mut places[..count] {
        let present = size == Size::Full || rng.one_in(2);
        *entry = [ssi(rng), present.into(), if present { network(rng) } else { 0 }];
    }
    if code == 9 {
        let (first, last) = (places[0][0], places[1][0]);
        places[1] = places[0];
        (places[0][0], places[1][0]) = (first.min(last), first.max(last));
    }
}

fn numbers(rng: &mut Rng, words: &mut Record, list: usize, code: u32, size: Size) {
    words[list] = code;
    let (places, _) = words[list + 1..][..PLACES * NUMBER_WORDS].as_chunks_mut::<NUMBER_WORDS>();
    for [length, digits @ ..] in &mut places[..code as usize] {
        let count = if size == Size::Full {
            digits.fill_with(|| rng.below(13) as u32);
            DIGITS
        } else {
            number(rng, digits)
        };
        *length = count as u32;
    }
}

/// Fills the digits of a number, often a short one of few digits; its length.
pub fn number(rng: &mut Rng, digits: &mut [u32]) -> usize {
    let (length, different) =
        if rng.one_in(2) { (rng.between(1, 2), 2) } else { (rng.between(1, DIGITS), 13) };
    digits[..length].fill_with(|| rng.below(different) as u32);
    length
}

/// A word at or beside a limit of some element.
pub fn odd_word(rng: &mut Rng) -> u32 {
    let limits =
        [0, 1, 2, 3, 4, 5, 7, 8, 9, 10, 11, 12, 13, 15, 16, 24, 25, 31, 32, 255, 256, 257, 0xff_ffff];
    match rng.below(6) {
        0 => rng.bits(32),
        1 => rng.pick(&[1 << 24, 1 << 31, u32::MAX, 1 << 16, 0x100_0001, 0x1_000c]),
        2 => rng.bits(24),
        _ => rng.pick(&limits),
    }
}

/// Changes a record, most often to one that is refused.
pub fn damage_record(rng: &mut Rng, words: &mut Record) {
    let lists = [at::AFFECTED, at::GROUPS, at::RESTRICTED, at::EXCEPTIONS];
    for _ in 0..rng.between(1, 3) {
        match rng.below(9) {
            0 => words[rng.below(RECORD_WORDS)] = odd_word(rng),
            1 => words[rng.below(at::RESTRICTED_NUMBERS)] = odd_word(rng),
            2 => {
                // A range whose ends may be reversed or disagree.
                let list = rng.pick(&lists);
                words[list..][..1 + PLACES * IDENTITY_WORDS].fill(0);
                words[list] = 9;
                for end in 0..2 {
                    let present = rng.pick(&[0, 0, 1]);
                    let entry = [ssi(rng), present, present * rng.bits(1)];
                    words[list + 1 + end * IDENTITY_WORDS..][..IDENTITY_WORDS].copy_from_slice(&entry);
                }
            }
            3 => words[rng.pick(&lists)] = odd_word(rng),
            4 => {
                let list = rng.pick(&[at::RESTRICTED_NUMBERS, at::EXCEPTED_NUMBERS]);
                words[list + 1 + NUMBER_WORDS * rng.below(PLACES)] = odd_word(rng);
            }
            5 => words[rng.between(at::INTERROGATION_TYPE, at::GROUPS)] = odd_word(rng),
            6 => words[at::PDU_TYPE] = rng.between(4, 14) as u32,
            7 => words[rng.between(at::DELIVERY, RECORD_WORDS - 1)] = odd_word(rng),
            _ => damage_definition(rng, &mut words[at::DELIVERY..][..3]),
        }
    }
}
