//! Records, requests and answers as the structs and enums of the crate `boc`, made from their numbers by the
//! tables below and not by that crate's own.

use boc::{
    Decision, Definition, DefinitionResult, DefinitionType, DeliveryStatus, Destination, DistributionResult,
    Identity, InterrogationType, List, Number, Outcome, Part, Party, PduType, Refusal, RejectionCause,
    Service, Services,
};
use reference::layout::{record as at, request, DIGITS, IDENTITY_WORDS, NUMBER_WORDS, PLACES, SERVICES};

use crate::{Record, Request};

/// Values, each with its number.
pub type Table<T> = [(u32, T)];

/// PDU types.
pub const PDU_TYPES: &Table<PduType> = &[
    (5, PduType::Define),
    (6, PduType::DefineAck),
    (7, PduType::DefineExternal),
    (8, PduType::DefineUser),
    (9, PduType::DefineUserAck),
    (10, PduType::DefineExternalUser),
    (11, PduType::Interrogate),
    (12, PduType::InterrogateAck),
    (13, PduType::CallBarred),
];
/// Interrogation types; 0 where there is none.
pub const INTERROGATION_TYPES: &Table<InterrogationType> = &[
    (0, InterrogationType::None),
    (1, InterrogationType::Identities),
    (2, InterrogationType::Numbers),
    (3, InterrogationType::Both),
];
/// Interrogation results.
pub const OUTCOMES: &Table<Outcome> = &[
    (0, Outcome::Failed),
    (1, Outcome::Identities),
    (2, Outcome::Numbers),
    (3, Outcome::NotAuthorized),
    (4, Outcome::UnknownUser),
    (6, Outcome::NotValid),
    (7, Outcome::Insufficient),
];
/// Delivery statuses.
pub const DELIVERY_STATUSES: &Table<DeliveryStatus> = &[
    (0, DeliveryStatus::NotRequested),
    (1, DeliveryStatus::Pending),
    (2, DeliveryStatus::Acknowledged),
    (3, DeliveryStatus::Unknown),
];
/// Definition types.
pub const DEFINITION_TYPES: &Table<DefinitionType> =
    &[(0, DefinitionType::Addition), (1, DefinitionType::Replacement), (2, DefinitionType::Removal)];
/// Definition results.
pub const DEFINITION_RESULTS: &Table<DefinitionResult> = &[
    (0, DefinitionResult::Failed),
    (1, DefinitionResult::Accepted),
    (2, DefinitionResult::Changed),
    (3, DefinitionResult::NotAuthorized),
    (4, DefinitionResult::UnknownIdentity),
    (6, DefinitionResult::NotValid),
    (7, DefinitionResult::Insufficient),
];
/// Distribution results.
pub const DISTRIBUTION_RESULTS: &Table<DistributionResult> = &[
    (0, DistributionResult::Failed),
    (1, DistributionResult::Received),
    (6, DistributionResult::NotValid),
    (7, DistributionResult::Insufficient),
];
/// Rejection causes.
pub const REJECTION_CAUSES: &Table<RejectionCause> = &[
    (0, RejectionCause::OutsideGroup),
    (1, RejectionCause::RestrictedService),
    (2, RejectionCause::RestrictedDestination),
];
/// Elements of one bit.
pub const BITS: &Table<bool> = &[(0, false), (1, true)];
/// Services.
pub const SERVICE_CODES: &Table<Service> =
    &[(0, Service::All), (1, Service::Speech), (2, Service::Data), (3, Service::ShortData)];
/// Characters of digits.
pub const DIGIT_CODES: &Table<char> = &[
    (0, '0'),
    (1, '1'),
    (2, '2'),
    (3, '3'),
    (4, '4'),
    (5, '5'),
    (6, '6'),
    (7, '7'),
    (8, '8'),
    (9, '9'),
    (10, '*'),
    (11, '#'),
    (12, '+'),
];
/// Parts of an archive.
pub const PARTS: &Table<Part> = &[(1, Part::Identity), (2, Part::Number)];
/// Decisions.
pub const DECISIONS: &Table<Decision> = &[
    (0, Decision::OutsideGroup),
    (1, Decision::RestrictedService),
    (2, Decision::RestrictedDestination),
    (3, Decision::Allowed),
    (4, Decision::NotHeld),
];
/// Refusals.
pub const REFUSALS: &Table<Refusal> = &[
    (1, Refusal::Frame),
    (2, Refusal::Short),
    (3, Refusal::Value),
    (4, Refusal::Ends),
    (5, Refusal::Left),
    (6, Refusal::Unfit),
    (7, Refusal::Archive),
    (8, Refusal::Room),
    (9, Refusal::Range),
    (11, Refusal::NotHeld),
    (12, Refusal::Loss),
];

/// The value of a number, if it has one.
pub fn value<T: Copy>(table: &Table<T>, number: u32) -> Option<T> {
    table.iter().find(|(n, _)| *n == number).map(|(_, value)| *value)
}

/// A list or the services of as many entries as there are.
macro_rules! of {
    ($type:ident, $entries:expr, $($count:literal)*) => {
        match $entries {
            $(entries if entries.len() == $count => $type::of::<$count>(entries.try_into().ok()?),)*
            _ => return None,
        }
    };
}

/// The record of these words, if the crate's structs can say it.
pub fn typed_record(words: &Record) -> Option<boc::Record> {
    Some(boc::Record {
        pdu_type: value(PDU_TYPES, words[at::PDU_TYPE])?,
        affected: identities(words, at::AFFECTED)?,
        interrogation_type: value(INTERROGATION_TYPES, words[at::INTERROGATION_TYPE])?,
        result: value(OUTCOMES, words[at::RESULT])?,
        delivery_status: value(DELIVERY_STATUSES, words[at::DELIVERY_STATUS])?,
        services: services(words)?,
        groups: identities(words, at::GROUPS)?,
        restricted: identities(words, at::RESTRICTED)?,
        exceptions: identities(words, at::EXCEPTIONS)?,
        restricted_numbers: numbers(words, at::RESTRICTED_NUMBERS)?,
        excepted_numbers: numbers(words, at::EXCEPTED_NUMBERS)?,
        definition: typed_definition(&words[at::DELIVERY..])?,
        definition_result: value(DEFINITION_RESULTS, words[at::DEFINITION_RESULT])?,
        distribution_result: value(DISTRIBUTION_RESULTS, words[at::DISTRIBUTION_RESULT])?,
        rejection_cause: value(REJECTION_CAUSES, words[at::REJECTION_CAUSE])?,
    })
}

/// The definition of these words, if the crate's struct can say it.
pub fn typed_definition(words: &[u32]) -> Option<Definition> {
    Some(Definition {
        delivery: value(BITS, words[0])?,
        acknowledgement: value(BITS, words[1])?,
        definition_type: value(DEFINITION_TYPES, words[2])?,
    })
}

fn services(words: &Record) -> Option<Services> {
    let (used, unused) =
        words[at::FIRST_SERVICE..][..SERVICES].split_at_checked(words[at::SERVICE_COUNT] as usize)?;
    let services: Vec<Service> =
        used.iter().map(|word| value(SERVICE_CODES, *word)).collect::<Option<_>>()?;
    are_zero(unused)?;
    let made = of!(Services, services.as_slice(), 0 1 2 3 4 5 6 7);
    assert_eq!(made.as_slice(), services);
    Some(made)
}

fn identities(words: &Record, list: usize) -> Option<List<Identity>> {
    let places = &words[list + 1..][..PLACES * IDENTITY_WORDS];
    let is_range = words[list] == 9;
    let count = if is_range { 2 } else { words[list] as usize };
    let (used, unused) = places.split_at_checked(count.checked_mul(IDENTITY_WORDS)?)?;
    let entries: Vec<Identity> = used.as_chunks().0.iter().map(identity).collect::<Option<_>>()?;
    are_zero(unused)?;
    let made = match entries[..] {
        [first, last] if is_range => List::range(first, last),
        _ => of!(List, entries.as_slice(), 0 1 2 3 4 5 6 7 8),
    };
    assert_eq!((made.is_range(), made.entries()), (is_range, &entries[..]));
    Some(made)
}

fn identity([ssi, present, extension]: &[u32; IDENTITY_WORDS]) -> Option<Identity> {
    let extension = match (present, extension) {
        (0, 0) => None,
        (1, extension) => Some(*extension),
        _ => return None,
    };
    Some(Identity { ssi: *ssi, extension })
}

fn numbers(words: &Record, list: usize) -> Option<List<Number>> {
    let places = &words[list + 1..][..PLACES * NUMBER_WORDS];
    let (used, unused) = places.split_at_checked((words[list] as usize).checked_mul(NUMBER_WORDS)?)?;
    let entries: Vec<Number> =
        used.chunks(NUMBER_WORDS).map(|entry| number(entry[0], &entry[1..])).collect::<Option<_>>()?;
    are_zero(unused)?;
    let made = of!(List, entries.as_slice(), 0 1 2 3 4 5 6 7 8);
    assert_eq!((made.is_range(), made.entries()), (false, &entries[..]));
    Some(made)
}

fn number(length: u32, digits: &[u32]) -> Option<Number> {
    let (used, unused) = digits.split_at_checked(length as usize)?;
    let text: String = used.iter().map(|digit| value(DIGIT_CODES, *digit)).collect::<Option<_>>()?;
    are_zero(unused)?;
    if text.is_empty() {
        assert_eq!(text.parse::<Number>(), Err(Refusal::Value));
        return Some(Number::default());
    }
    let made: Number = text.parse().expect("it is a number");
    assert_eq!(made.to_string(), text);
    Some(made)
}

/// The request of these words, if the crate's structs can say it.
pub fn typed_request(words: &Request) -> Option<boc::Request> {
    let party = |at: usize| Party { network: words[at], ssi: words[at + 1] };
    let (length, digits) = (words[request::LENGTH], &words[request::FIRST_DIGIT..][..DIGITS]);
    let called = &words[request::NETWORK..request::LENGTH];
    Some(boc::Request {
        user: party(request::USER_NETWORK),
        service: value(SERVICE_CODES, words[request::SERVICE])?,
        destination: match words[request::KIND] {
            1 if length == 0 && are_zero(digits).is_some() => Destination::Identity(party(request::NETWORK)),
            2 if are_zero(called).is_some() => Destination::Number(number(length, digits)?),
            _ => return None,
        },
        group: match words[request::GROUP_GIVEN] {
            0 if are_zero(&words[request::GROUP_NETWORK..]).is_some() => None,
            1 => Some(party(request::GROUP_NETWORK)),
            _ => return None,
        },
    })
}

fn are_zero(words: &[u32]) -> Option<()> {
    words.iter().all(|word| *word == 0).then_some(())
}
