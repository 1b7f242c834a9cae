//! The words of 32 bits in which records, requests and keys cross the boundary.

/// Words of a record.
pub const RECORD_WORDS: usize = 520;
/// Words of a request.
pub const REQUEST_WORDS: usize = 34;
/// Words of a key: network, SSI, part.
pub const KEY_WORDS: usize = 3;

/// Entry places of a list.
pub const PLACES: usize = 8;
/// Digit places of an external number.
pub const DIGITS: usize = 24;
/// Service places of a record.
pub const SERVICES: usize = 7;

/// Words of an identity entry: SSI, extension present, extension.
pub const IDENTITY_WORDS: usize = 3;
/// Words of an external number: length, digits.
pub const NUMBER_WORDS: usize = 1 + DIGITS;
/// Words of a list of identities: range type, entries.
pub const IDENTITIES_WORDS: usize = 1 + PLACES * IDENTITY_WORDS;
/// Words of a list of external numbers: range type, entries.
pub const NUMBERS_WORDS: usize = 1 + PLACES * NUMBER_WORDS;

/// Where each element of a record stands. A list is named by the place of its range type.
pub mod record {
    use super::*;

    /// PDU type.
    pub const PDU_TYPE: usize = 0;
    /// Affected users.
    pub const AFFECTED: usize = 1;
    /// Interrogation type.
    pub const INTERROGATION_TYPE: usize = AFFECTED + IDENTITIES_WORDS;
    /// Interrogation result.
    pub const RESULT: usize = INTERROGATION_TYPE + 1;
    /// Delivery status to affected users.
    pub const DELIVERY_STATUS: usize = RESULT + 1;
    /// Number of services.
    pub const SERVICE_COUNT: usize = DELIVERY_STATUS + 1;
    /// The first of seven services.
    pub const FIRST_SERVICE: usize = SERVICE_COUNT + 1;
    /// Closed user groups.
    pub const GROUPS: usize = FIRST_SERVICE + SERVICES;
    /// Restricted identities.
    pub const RESTRICTED: usize = GROUPS + IDENTITIES_WORDS;
    /// Exceptions to the restricted identities.
    pub const EXCEPTIONS: usize = RESTRICTED + IDENTITIES_WORDS;
    /// Restricted external numbers.
    pub const RESTRICTED_NUMBERS: usize = EXCEPTIONS + IDENTITIES_WORDS;
    /// Exceptions to the restricted external numbers.
    pub const EXCEPTED_NUMBERS: usize = RESTRICTED_NUMBERS + NUMBERS_WORDS;

    /// Delivery to affected users.
    pub const DELIVERY: usize = EXCEPTED_NUMBERS + NUMBERS_WORDS;
    /// Acknowledgement from affected users.
    pub const ACKNOWLEDGEMENT: usize = DELIVERY + 1;
    /// Definition type.
    pub const DEFINITION_TYPE: usize = ACKNOWLEDGEMENT + 1;

    /// Definition result.
    pub const DEFINITION_RESULT: usize = DEFINITION_TYPE + 1;
    /// Distribution result.
    pub const DISTRIBUTION_RESULT: usize = DEFINITION_RESULT + 1;
    /// Rejection cause.
    pub const REJECTION_CAUSE: usize = DISTRIBUTION_RESULT + 1;

    const _: () = assert!(REJECTION_CAUSE + 1 == RECORD_WORDS);
}

/// Where each part of a request stands.
pub mod request {
    use super::*;

    /// The calling user's network.
    pub const USER_NETWORK: usize = 0;
    /// The calling user's SSI.
    pub const USER_SSI: usize = 1;
    /// Service, 1 to 3.
    pub const SERVICE: usize = 2;
    /// Kind of destination: 1 identity, 2 external number.
    pub const KIND: usize = 3;
    /// The destination's network; zero for a number.
    pub const NETWORK: usize = 4;
    /// The destination's SSI; zero for a number.
    pub const SSI: usize = 5;
    /// The destination's length in digits; zero for an identity.
    pub const LENGTH: usize = 6;
    /// The first of 24 digits.
    pub const FIRST_DIGIT: usize = 7;
    /// Whether the call has a group, 0 or 1.
    pub const GROUP_GIVEN: usize = FIRST_DIGIT + DIGITS;
    /// The group's network; zero without a group.
    pub const GROUP_NETWORK: usize = GROUP_GIVEN + 1;
    /// The group's SSI; zero without a group.
    pub const GROUP_SSI: usize = GROUP_NETWORK + 1;

    const _: () = assert!(GROUP_SSI + 1 == REQUEST_WORDS);
}
