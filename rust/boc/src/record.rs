//! The record of a PDU.

use core::fmt;
use core::str::FromStr;

use crate::codes::{
    DefinitionResult, DefinitionType, DeliveryStatus, DistributionResult, InterrogationType, Outcome,
    PduType, RejectionCause, Service,
};
use crate::words::{Crossing, Sink, Source};
use crate::Refusal;

/// Words of a record.
pub const RECORD_WORDS: usize = 520;
/// Places of a list.
const PLACES: usize = 8;
/// Service places of a record.
const SERVICES: usize = 7;
/// Digit places of an external number.
const DIGITS: usize = 24;
/// The range type of a first and a last entry.
const RANGE: u32 = 9;

/// The identity of a user or group in a PDU.
#[derive(Clone, Copy, Debug, Default, PartialEq, Eq, Hash)]
pub struct Identity {
    /// Below 16,777,216.
    pub ssi: u32,
    /// The network, below 16,777,216. Without it an affected user is of the home network, and a group, a
    /// restricted or an excepted identity is of the network of the record's affected user.
    pub extension: Option<u32>,
}

impl Identity {
    /// An identity without extension.
    pub const fn without_extension(ssi: u32) -> Self {
        Identity { ssi, extension: None }
    }
}

/// An external number, of 1 to 24 digits out of `0123456789*#+`.
///
/// ```
/// let number: boc::Number = "+112".parse()?;
/// assert_eq!(number.to_string(), "+112");
/// assert!("".parse::<boc::Number>().is_err());
/// # Ok::<(), boc::Refusal>(())
/// ```
#[derive(Clone, Copy, Default, PartialEq, Eq, Hash)]
pub struct Number {
    length: u8,
    digits: [u8; DIGITS],
}

/// The characters of the digits 0 to 12.
const CHARACTERS: &[u8; 13] = b"0123456789*#+";

impl FromStr for Number {
    type Err = Refusal;

    /// Refuses with [`Refusal::Value`].
    fn from_str(text: &str) -> Result<Self, Refusal> {
        let mut number = Number::default();
        if !(1..=DIGITS).contains(&text.len()) {
            return Err(Refusal::Value);
        }
        for (digit, character) in number.digits.iter_mut().zip(text.bytes()) {
            let code = CHARACTERS.iter().position(|c| *c == character).ok_or(Refusal::Value)?;
            *digit = code as u8;
        }
        number.length = text.len() as u8;
        Ok(number)
    }
}

impl fmt::Display for Number {
    fn fmt(&self, f: &mut fmt::Formatter<'_>) -> fmt::Result {
        for digit in &self.digits[..usize::from(self.length)] {
            fmt::Write::write_char(f, CHARACTERS[usize::from(*digit)].into())?;
        }
        Ok(())
    }
}

impl fmt::Debug for Number {
    fn fmt(&self, f: &mut fmt::Formatter<'_>) -> fmt::Result {
        write!(f, "Number({self})")
    }
}

/// A list of up to eight single entries, or a range.
#[derive(Clone, Copy, Default, PartialEq, Eq, Hash)]
pub struct List<T> {
    range_type: u32,
    places: [T; PLACES],
}

/// A list of identities.
pub type Identities = List<Identity>;
/// A list of external numbers.
pub type Numbers = List<Number>;

impl<T: Copy + Default> List<T> {
    /// A list of single entries, at most eight.
    pub fn of<const N: usize>(entries: [T; N]) -> Self {
        const { assert!(N <= PLACES) };
        let (range_type, places) = placed(&entries).expect("there is a place for each");
        List { range_type, places }
    }

    /// The entries: of a range the first and the last.
    pub fn entries(&self) -> &[T] {
        let count = if self.is_range() { 2 } else { self.range_type as usize };
        &self.places[..count.min(PLACES)]
    }

    /// Is this a range?
    pub fn is_range(&self) -> bool {
        self.range_type == RANGE
    }
}

/// A list of single entries, at most eight: more are refused with [`Refusal::Value`].
///
/// ```
/// use boc::{Identities, Identity, Refusal};
///
/// let friends = [7, 8].map(Identity::without_extension).to_vec();
/// assert_eq!(Identities::try_from(&friends[..])?.entries(), friends);
/// assert_eq!(Identities::try_from(&[friends[0]; 9][..]), Err(Refusal::Value));
/// # Ok::<(), Refusal>(())
/// ```
impl<T: Copy + Default> TryFrom<&[T]> for List<T> {
    type Error = Refusal;

    fn try_from(entries: &[T]) -> Result<Self, Refusal> {
        placed(entries).map(|(range_type, places)| List { range_type, places })
    }
}

/// How many values there are, and they in their places; refused if there are more than places.
fn placed<T: Copy + Default, const N: usize>(values: &[T]) -> Result<(u32, [T; N]), Refusal> {
    let mut places = [T::default(); N];
    places.get_mut(..values.len()).ok_or(Refusal::Value)?.copy_from_slice(values);
    Ok((values.len() as u32, places))
}

impl Identities {
    /// The identities from `first` to `last`, both included.
    pub fn range(first: Identity, last: Identity) -> Self {
        List { range_type: RANGE, ..List::of([first, last]) }
    }
}

impl<T: Copy + Default + fmt::Debug> fmt::Debug for List<T> {
    fn fmt(&self, f: &mut fmt::Formatter<'_>) -> fmt::Result {
        f.write_str(if self.is_range() { "range " } else { "" })?;
        self.entries().fmt(f)
    }
}

/// One to seven services; none in a PDU without them.
#[derive(Clone, Copy, Default, PartialEq, Eq, Hash)]
pub struct Services {
    count: u32,
    places: [Service; SERVICES],
}

impl Services {
    /// These services, at most seven.
    pub fn of<const N: usize>(services: [Service; N]) -> Self {
        const { assert!(N <= SERVICES) };
        let (count, places) = placed(&services).expect("there is a place for each");
        Services { count, places }
    }

    /// The services.
    pub fn as_slice(&self) -> &[Service] {
        &self.places[..(self.count as usize).min(SERVICES)]
    }
}

/// These services, at most seven: more are refused with [`Refusal::Value`].
impl TryFrom<&[Service]> for Services {
    type Error = Refusal;

    fn try_from(services: &[Service]) -> Result<Self, Refusal> {
        placed(services).map(|(count, places)| Services { count, places })
    }
}

impl fmt::Debug for Services {
    fn fmt(&self, f: &mut fmt::Formatter<'_>) -> fmt::Result {
        self.as_slice().fmt(f)
    }
}

/// What a DEFINE, DEFINE EXTERNAL, DEFINE USER or DEFINE EXTERNAL USER asks for, besides its users, services
/// and lists.
#[derive(Clone, Copy, Debug, Default, PartialEq, Eq, Hash)]
pub struct Definition {
    /// What becomes of an earlier definition.
    pub definition_type: DefinitionType,
    /// Is delivery to the affected users requested? Not of the PDUs that are themselves sent to a user.
    pub delivery: bool,
    /// Is acknowledgement from them requested? Of the PDUs that have delivery only with it; without it this is
    /// refused.
    pub acknowledgement: bool,
}

impl Definition {
    /// Its numbers in the order in which a reload takes them.
    pub(crate) fn numbers(self) -> [u32; 3] {
        [self.definition_type.number(), self.delivery.into(), self.acknowledgement.into()]
    }
}

/// The record of a PDU. What its PDU does not carry has its default.
///
/// A definition has lists unless it is a removal: a DEFINE EXTERNAL those of a number part, a DEFINE, DEFINE
/// USER or DEFINE EXTERNAL USER those of an identity part.
#[derive(Clone, Copy, Debug, Default, PartialEq, Eq, Hash)]
pub struct Record {
    /// Which of the PDUs it is.
    pub pdu_type: PduType,
    /// The users that are asked or told about. Empty exactly in a DEFINE USER, DEFINE USER ACK, DEFINE
    /// EXTERNAL USER or CALL BARRED, which have none.
    pub affected: Identities,
    /// Of an INTERROGATE.
    pub interrogation_type: InterrogationType,
    /// Of an INTERROGATE ACK.
    pub result: Outcome,
    /// Of an INTERROGATE ACK: whether the users have been told.
    pub delivery_status: DeliveryStatus,
    /// The barred services, of an INTERROGATE ACK or a definition.
    pub services: Services,
    /// Closed user groups, of either part.
    pub groups: Identities,
    /// Restricted identities, of an identity part.
    pub restricted: Identities,
    /// Exceptions to them.
    pub exceptions: Identities,
    /// Restricted external numbers, of a number part.
    pub restricted_numbers: Numbers,
    /// Exceptions to them.
    pub excepted_numbers: Numbers,
    /// Of a definition.
    pub definition: Definition,
    /// Of a DEFINE ACK.
    pub definition_result: DefinitionResult,
    /// Of a DEFINE USER ACK.
    pub distribution_result: DistributionResult,
    /// Of a CALL BARRED.
    pub rejection_cause: RejectionCause,
}

impl Record {
    /// The words in which the record crosses to the library.
    pub fn to_words(&self) -> [u32; RECORD_WORDS] {
        let mut words = [0; RECORD_WORDS];
        self.put(&mut Sink::new(&mut words));
        words
    }

    /// The record that has these words, if one has.
    pub fn from_words(words: &[u32; RECORD_WORDS]) -> Option<Self> {
        let record = Record::take(&mut Source::new(words));
        (record.to_words() == *words).then_some(record)
    }
}

impl Crossing for Identity {
    fn put(&self, sink: &mut Sink<'_>) {
        sink.put(self.ssi);
        sink.put(self.extension.is_some().into());
        sink.put(self.extension.unwrap_or(0));
    }

    fn take(source: &mut Source<'_>) -> Self {
        let (ssi, present, extension) = (source.take(), source.take(), source.take());
        Identity { ssi, extension: (present == 1).then_some(extension) }
    }
}

impl Crossing for Number {
    fn put(&self, sink: &mut Sink<'_>) {
        sink.put(self.length.into());
        for digit in self.digits {
            sink.put(digit.into());
        }
    }

    fn take(source: &mut Source<'_>) -> Self {
        let length = source.take().min(DIGITS as u32) as u8;
        let digits = core::array::from_fn(|_| source.take().min(12) as u8);
        Number { length, digits }
    }
}

impl<T: Crossing + Copy> Crossing for List<T> {
    fn put(&self, sink: &mut Sink<'_>) {
        sink.put(self.range_type);
        for entry in &self.places {
            entry.put(sink);
        }
    }

    fn take(source: &mut Source<'_>) -> Self {
        let range_type = source.take();
        List { range_type, places: core::array::from_fn(|_| T::take(source)) }
    }
}

impl Crossing for Services {
    fn put(&self, sink: &mut Sink<'_>) {
        sink.put(self.count);
        for service in self.places {
            sink.put(service.number());
        }
    }

    fn take(source: &mut Source<'_>) -> Self {
        let count = source.take();
        Services { count, places: core::array::from_fn(|_| code(source, Service::from_number)) }
    }
}

/// The code of the next word; the default for a number that no code has.
fn code<T: Default>(source: &mut Source<'_>, from_number: impl Fn(u32) -> Option<T>) -> T {
    from_number(source.take()).unwrap_or_default()
}

impl Crossing for Definition {
    fn put(&self, sink: &mut Sink<'_>) {
        sink.put(self.delivery.into());
        sink.put(self.acknowledgement.into());
        sink.put(self.definition_type.number());
    }

    fn take(source: &mut Source<'_>) -> Self {
        let (delivery, acknowledgement) = (source.take() == 1, source.take() == 1);
        Definition { definition_type: code(source, DefinitionType::from_number), delivery, acknowledgement }
    }
}

impl Crossing for Record {
    fn put(&self, sink: &mut Sink<'_>) {
        sink.put(self.pdu_type.number());
        self.affected.put(sink);
        sink.put(self.interrogation_type.number());
        sink.put(self.result.number());
        sink.put(self.delivery_status.number());
        self.services.put(sink);
        self.groups.put(sink);
        self.restricted.put(sink);
        self.exceptions.put(sink);
        self.restricted_numbers.put(sink);
        self.excepted_numbers.put(sink);
        self.definition.put(sink);
        sink.put(self.definition_result.number());
        sink.put(self.distribution_result.number());
        sink.put(self.rejection_cause.number());
    }

    fn take(source: &mut Source<'_>) -> Self {
        Record {
            pdu_type: code(source, PduType::from_number),
            affected: List::take(source),
            interrogation_type: code(source, InterrogationType::from_number),
            result: code(source, Outcome::from_number),
            delivery_status: code(source, DeliveryStatus::from_number),
            services: Services::take(source),
            groups: List::take(source),
            restricted: List::take(source),
            exceptions: List::take(source),
            restricted_numbers: List::take(source),
            excepted_numbers: List::take(source),
            definition: Definition::take(source),
            definition_result: code(source, DefinitionResult::from_number),
            distribution_result: code(source, DistributionResult::from_number),
            rejection_cause: code(source, RejectionCause::from_number),
        }
    }
}
