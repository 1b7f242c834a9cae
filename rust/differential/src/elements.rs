//! The nine PDUs by their elements: which each has, and which values are reserved.

use reference::layout::{record as at, IDENTITY_WORDS, NUMBER_WORDS};

use crate::{Pdu, Record};

/// An element of a kind: its name, its width, and which values are legal.
#[derive(Clone, Copy)]
struct Kind {
    name: &'static str,
    width: usize,
    legal: fn(u32) -> bool,
}

impl Kind {
    const fn new(name: &'static str, width: usize, legal: fn(u32) -> bool) -> Self {
        Kind { name, width, legal }
    }

    fn reserved(self) -> impl Iterator<Item = u32> {
        (0..1 << self.width).filter(move |value| !(self.legal)(*value))
    }
}

const SS_TYPE: Kind = Kind::new("SS type", 6, |value| value == 18);
const PDU_TYPE: Kind = Kind::new("PDU type", 5, |value| matches!(value, 5..=13));
const USERS: Kind = Kind::new("range type of affected users", 4, |value| matches!(value, 1..=9));
const GROUPS: Kind = Kind::new("range type of groups", 4, |value| value <= 9);
const RESTRICTED: Kind = Kind::new("range type of restricted identities", 4, |value| value <= 9);
const EXCEPTIONS: Kind = Kind::new("range type of excepted identities", 4, |value| value <= 9);
const RESTRICTED_NUMBERS: Kind = Kind::new("range type of restricted numbers", 4, |value| value <= 8);
const EXCEPTED_NUMBERS: Kind = Kind::new("range type of excepted numbers", 4, |value| value <= 8);
const SSI: Kind = Kind::new("SSI", 24, |_| true);
const EXTENSION_PRESENT: Kind = Kind::new("extension present", 1, |_| true);
const EXTENSION: Kind = Kind::new("extension", 24, |_| true);
const LENGTH: Kind = Kind::new("length", 5, |value| matches!(value, 1..=24));
const DIGIT: Kind = Kind::new("digit", 4, |value| value <= 12);
const SERVICE_COUNT: Kind = Kind::new("number of services", 3, |value| value != 0);
const SERVICE: Kind = Kind::new("service", 3, |value| value <= 3);
/// Only a delivery is acknowledged.
const NO_ACKNOWLEDGEMENT: Kind = Kind::new("acknowledgement", 1, |value| value == 0);

/// An element that is a code, and its place in a record.
#[derive(Clone, Copy)]
pub struct Code {
    kind: Kind,
    /// Its place in a record.
    pub word: usize,
}

impl Code {
    const fn new(name: &'static str, word: usize, width: usize, legal: fn(u32) -> bool) -> Self {
        Code { kind: Kind::new(name, width, legal), word }
    }

    /// Its name.
    pub fn name(self) -> &'static str {
        self.kind.name
    }
}

const INTERROGATION_TYPE: Code =
    Code::new("interrogation type", at::INTERROGATION_TYPE, 2, |value| value != 0);
const RESULT: Code = Code::new("result", at::RESULT, 3, |value| value != 5);
const DELIVERY_STATUS: Code = Code::new("delivery status", at::DELIVERY_STATUS, 2, |_| true);
const DELIVERY: Code = Code::new("delivery", at::DELIVERY, 1, |_| true);
const ACKNOWLEDGEMENT: Code = Code::new("acknowledgement", at::ACKNOWLEDGEMENT, 1, |_| true);
const DEFINITION_TYPE: Code = Code::new("definition type", at::DEFINITION_TYPE, 2, |value| value != 3);
const DEFINITION_RESULT: Code = Code::new("definition result", at::DEFINITION_RESULT, 3, |value| value != 5);
const DISTRIBUTION_RESULT: Code =
    Code::new("distribution result", at::DISTRIBUTION_RESULT, 3, |value| !matches!(value, 2..=5));
const REJECTION_CAUSE: Code = Code::new("rejection cause", at::REJECTION_CAUSE, 2, |value| value != 3);

/// Which lists a PDU may have.
#[derive(Clone, Copy, PartialEq, Eq)]
enum Lists {
    /// None; a PDU type that may have none has no services either.
    None,
    /// Of identities.
    Identities,
    /// Of external numbers.
    Numbers,
    /// Of either, by its result.
    Either,
}

/// A PDU type.
pub struct Form {
    /// Its number.
    pub number: u32,
    /// Its name.
    pub name: &'static str,
    /// Whether it has affected users.
    pub users: bool,
    /// Its codes in their order.
    pub codes: &'static [Code],
    lists: Lists,
}

/// What a definition has that is sent to the switch, and one that is sent to a user.
const TO_SWITCH: &[Code] = &[DELIVERY, ACKNOWLEDGEMENT, DEFINITION_TYPE];
const TO_USER: &[Code] = &[ACKNOWLEDGEMENT, DEFINITION_TYPE];

/// The PDU types, tables 10 to 18.
pub const FORMS: [Form; 9] = [
    Form { number: 5, name: "DEFINE", users: true, codes: TO_SWITCH, lists: Lists::Identities },
    Form { number: 6, name: "DEFINE ACK", users: true, codes: &[DEFINITION_RESULT], lists: Lists::None },
    Form { number: 7, name: "DEFINE EXTERNAL", users: true, codes: TO_SWITCH, lists: Lists::Numbers },
    Form { number: 8, name: "DEFINE USER", users: false, codes: TO_USER, lists: Lists::Identities },
    Form {
        number: 9,
        name: "DEFINE USER ACK",
        users: false,
        codes: &[DISTRIBUTION_RESULT],
        lists: Lists::None,
    },
    Form { number: 10, name: "DEFINE EXTERNAL USER", users: false, codes: TO_USER, lists: Lists::Identities },
    Form { number: 11, name: "INTERROGATE", users: true, codes: &[INTERROGATION_TYPE], lists: Lists::None },
    Form {
        number: 12,
        name: "INTERROGATE ACK",
        users: true,
        codes: &[RESULT, DELIVERY_STATUS],
        lists: Lists::Either,
    },
    Form { number: 13, name: "CALL BARRED", users: false, codes: &[REJECTION_CAUSE], lists: Lists::None },
];

impl Form {
    /// The form of a PDU type, if it is one.
    pub fn of(pdu_type: u32) -> Option<&'static Form> {
        FORMS.iter().find(|form| form.number == pdu_type)
    }

    /// Each code with each value that it can have, in words.
    pub fn values(&self) -> Vec<String> {
        let values = |code: &Code| {
            let kind = code.kind;
            (0..1 << kind.width)
                .filter(move |value| (kind.legal)(*value))
                .map(move |value| said(kind.name, value))
        };
        self.codes.iter().flat_map(values).collect()
    }

    /// The codes of a legal record, in words.
    pub fn values_of(&self, words: &Record) -> Vec<String> {
        self.codes.iter().map(|code| said(code.name(), words[code.word])).collect()
    }

    /// Each reserved value of each element behind the PDU type, in words.
    pub fn reserved(&self) -> Vec<String> {
        let mut kinds: Vec<Kind> = self.codes.iter().map(|code| code.kind).collect();
        if self.users {
            kinds.push(USERS);
        }
        if self.has_delivery() {
            kinds.push(NO_ACKNOWLEDGEMENT);
        }
        if self.lists != Lists::None {
            kinds.extend([SERVICE_COUNT, SERVICE, GROUPS]);
        }
        if matches!(self.lists, Lists::Identities | Lists::Either) {
            kinds.extend([RESTRICTED, EXCEPTIONS]);
        }
        if matches!(self.lists, Lists::Numbers | Lists::Either) {
            kinds.extend([RESTRICTED_NUMBERS, EXCEPTED_NUMBERS, LENGTH, DIGIT]);
        }
        kinds.into_iter().flat_map(|kind| kind.reserved().map(move |value| said(kind.name, value))).collect()
    }

    fn has_delivery(&self) -> bool {
        self.codes.iter().any(|code| code.word == at::DELIVERY)
    }
}

/// The PDU types that are refused.
pub fn reserved_types() -> impl Iterator<Item = u32> {
    PDU_TYPE.reserved()
}

fn said(name: &str, value: u32) -> String {
    format!("{name} {value}")
}

/// An element of a PDU.
#[derive(Clone, Copy)]
pub struct Element {
    kind: Kind,
    /// Its value.
    pub value: u32,
    /// Its place in the record; the SS type has none.
    pub word: Option<usize>,
    /// The place of its first bit.
    pub place: usize,
}

impl Element {
    /// Its bits.
    pub fn width(&self) -> usize {
        self.kind.width
    }

    /// Its values, if they are few.
    pub fn values(&self) -> std::ops::Range<u32> {
        0..if self.kind.width <= 6 { 1 << self.kind.width } else { 0 }
    }

    /// Is this value reserved?
    pub fn reserves(&self, value: u32) -> bool {
        !(self.kind.legal)(value)
    }

    /// The element with a value, in words.
    pub fn said(&self, value: u32) -> String {
        said(self.kind.name, value)
    }
}

/// The elements of a legal record's PDU, in their order.
pub fn elements(words: &Record) -> Vec<Element> {
    let form = Form::of(words[at::PDU_TYPE]).expect("it is a PDU type");
    let mut found = Found { words, elements: Vec::new(), end: 0 };
    found.add(SS_TYPE, None, 18);
    found.word(PDU_TYPE, at::PDU_TYPE);
    if form.users {
        found.identities(USERS, at::AFFECTED);
    }
    for code in form.codes {
        let refused = form.has_delivery() && code.word == at::ACKNOWLEDGEMENT && words[at::DELIVERY] == 0;
        found.word(if refused { NO_ACKNOWLEDGEMENT } else { code.kind }, code.word);
    }
    if form.lists == Lists::None {
        return found.elements;
    }
    found.word(SERVICE_COUNT, at::SERVICE_COUNT);
    for i in 0..words[at::SERVICE_COUNT] as usize {
        found.word(SERVICE, at::FIRST_SERVICE + i);
    }
    let lists = match (form.lists, words[at::RESULT]) {
        (Lists::Either, 1) => Lists::Identities,
        (Lists::Either, 2) => Lists::Numbers,
        (Lists::Either, _) => Lists::None,
        _ if words[at::DEFINITION_TYPE] == 2 => Lists::None,
        (lists, _) => lists,
    };
    if lists != Lists::None {
        found.identities(GROUPS, at::GROUPS);
    }
    if lists == Lists::Identities {
        found.identities(RESTRICTED, at::RESTRICTED);
        found.identities(EXCEPTIONS, at::EXCEPTIONS);
    }
    if lists == Lists::Numbers {
        found.numbers(RESTRICTED_NUMBERS, at::RESTRICTED_NUMBERS);
        found.numbers(EXCEPTED_NUMBERS, at::EXCEPTED_NUMBERS);
    }
    found.elements
}

/// The elements found so far, and where they end.
struct Found<'a> {
    words: &'a Record,
    elements: Vec<Element>,
    end: usize,
}

impl Found<'_> {
    fn add(&mut self, kind: Kind, word: Option<usize>, value: u32) {
        self.elements.push(Element { kind, value, word, place: self.end });
        self.end += kind.width;
    }

    fn word(&mut self, kind: Kind, word: usize) {
        self.add(kind, Some(word), self.words[word]);
    }

    fn identities(&mut self, range_type: Kind, list: usize) {
        self.word(range_type, list);
        let count = if self.words[list] == 9 { 2 } else { self.words[list] as usize };
        for entry in (0..count).map(|i| list + 1 + IDENTITY_WORDS * i) {
            self.word(SSI, entry);
            self.word(EXTENSION_PRESENT, entry + 1);
            if self.words[entry + 1] == 1 {
                self.word(EXTENSION, entry + 2);
            }
        }
    }

    fn numbers(&mut self, range_type: Kind, list: usize) {
        self.word(range_type, list);
        for entry in (0..self.words[list] as usize).map(|i| list + 1 + NUMBER_WORDS * i) {
            self.word(LENGTH, entry);
            for digit in 1..=self.words[entry] as usize {
                self.word(DIGIT, entry + digit);
            }
        }
    }
}

/// The PDU of these elements.
pub fn joined(elements: &[Element]) -> Pdu {
    let bits = elements.iter().map(Element::width).sum();
    let mut pdu = Pdu { bytes: vec![0; usize::div_ceil(bits, 8)], bits };
    for element in elements {
        pdu.put(element.place, element.width(), element.value);
    }
    pdu
}
