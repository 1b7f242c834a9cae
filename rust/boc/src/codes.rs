//! The codes of elements, requests and decisions.

use core::fmt;

/// An enum of codes, with its numbers both ways.
macro_rules! codes {
    ($(#[$note:meta])* $name:ident { $($(#[$about:meta])* $code:ident = $number:literal,)* }) => {
        $(#[$note])*
        #[derive(Clone, Copy, Debug, PartialEq, Eq, Hash)]
        #[repr(u32)]
        pub enum $name {
            $($(#[$about])* $code = $number,)*
        }

        impl $name {
            /// The code's number.
            pub const fn number(self) -> u32 {
                self as u32
            }

            /// The code with this number, if there is one.
            pub const fn from_number(number: u32) -> Option<Self> {
                match number {
                    $($number => Some($name::$code),)*
                    _ => None,
                }
            }
        }
    };
}

codes! {
    /// The PDUs that are read and written.
    #[derive(Default)]
    PduType {
        /// What is to be barred for users, by identities.
        Define = 5,
        /// The switch's answer to a DEFINE or DEFINE EXTERNAL.
        DefineAck = 6,
        /// What is to be barred for users, by external numbers.
        DefineExternal = 7,
        /// What a DEFINE bars, told to its user.
        DefineUser = 8,
        /// The user's answer to a DEFINE USER or DEFINE EXTERNAL USER.
        DefineUserAck = 9,
        /// What a DEFINE EXTERNAL bars, told to its user; its lists are of identities all the same.
        DefineExternalUser = 10,
        /// A request for what is held for users.
        Interrogate = 11,
        /// The switch's answer to it.
        #[default]
        InterrogateAck = 12,
        /// Tells the calling user that the call is barred.
        CallBarred = 13,
    }
}

codes! {
    /// What an INTERROGATE asks for.
    #[derive(Default)]
    InterrogationType {
        /// Nothing: only an INTERROGATE has this element.
        #[default]
        None = 0,
        /// Restricted identities.
        Identities = 1,
        /// Restricted external numbers.
        Numbers = 2,
        /// Both.
        Both = 3,
    }
}

codes! {
    /// The result that an INTERROGATE ACK tells. Only the two that provide something are filed.
    #[derive(Default)]
    Outcome {
        /// The request failed.
        #[default]
        Failed = 0,
        /// Accepted, identities provided: the PDU is an identity part.
        Identities = 1,
        /// Accepted, external numbers provided: the PDU is a number part.
        Numbers = 2,
        /// The user is not authorized.
        NotAuthorized = 3,
        /// The affected user is not known.
        UnknownUser = 4,
        /// The parameters are not valid.
        NotValid = 6,
        /// The information is insufficient.
        Insufficient = 7,
    }
}

codes! {
    /// What a definition does to an earlier one for its users and services.
    #[derive(Default)]
    DefinitionType {
        /// Completes it.
        #[default]
        Addition = 0,
        /// Replaces it.
        Replacement = 1,
        /// Removes it. The PDU has no lists.
        Removal = 2,
    }
}

codes! {
    /// The result that a DEFINE ACK tells.
    #[derive(Default)]
    DefinitionResult {
        /// The request failed.
        #[default]
        Failed = 0,
        /// Accepted.
        Accepted = 1,
        /// Accepted, but its values were changed.
        Changed = 2,
        /// The user is not authorized.
        NotAuthorized = 3,
        /// A restricted identity is not known.
        UnknownIdentity = 4,
        /// The parameters are not valid.
        NotValid = 6,
        /// The information is insufficient.
        Insufficient = 7,
    }
}

codes! {
    /// The result that a DEFINE USER ACK tells.
    #[derive(Default)]
    DistributionResult {
        /// The request failed.
        #[default]
        Failed = 0,
        /// Successfully received.
        Received = 1,
        /// The parameters are not valid.
        NotValid = 6,
        /// The information is insufficient.
        Insufficient = 7,
    }
}

codes! {
    /// Why a call is barred, as a CALL BARRED tells it.
    #[derive(Default)]
    RejectionCause {
        /// Called party outside allowed user group.
        #[default]
        OutsideGroup = 0,
        /// Restricted service type.
        RestrictedService = 1,
        /// Restricted destination address.
        RestrictedDestination = 2,
    }
}

codes! {
    /// Whether the definition was delivered to the affected users.
    #[derive(Default)]
    DeliveryStatus {
        /// Delivery was not requested.
        #[default]
        NotRequested = 0,
        /// Sending is pending.
        Pending = 1,
        /// The users have acknowledged it.
        Acknowledged = 2,
        /// Unknown.
        Unknown = 3,
    }
}

codes! {
    /// The services that a part bars, and that a call uses.
    #[derive(Default)]
    Service {
        /// All applicable services. No call uses it: a request with it is refused.
        #[default]
        All = 0,
        /// Circuit mode speech.
        Speech = 1,
        /// Circuit mode data.
        Data = 2,
        /// Short data.
        ShortData = 3,
    }
}

codes! {
    /// The parts that an archive holds for a user.
    Part {
        /// Judges calls to identities.
        Identity = 1,
        /// Judges calls to external numbers.
        Number = 2,
    }
}

codes! {
    /// What is decided of a call. The numbers of the first three are those of the causes.
    Decision {
        /// Barred: called party outside allowed user group.
        OutsideGroup = 0,
        /// Barred: restricted service type.
        RestrictedService = 1,
        /// Barred: restricted destination address.
        RestrictedDestination = 2,
        /// Allowed.
        Allowed = 3,
        /// The part that judges the call is not held. This allows nothing.
        NotHeld = 4,
    }
}

impl Decision {
    /// The cause with which the call is barred, if it is.
    pub const fn cause(self) -> Option<RejectionCause> {
        RejectionCause::from_number(self.number())
    }
}

/// The words of the C header's `boc_decision_text`.
impl fmt::Display for Decision {
    fn fmt(&self, f: &mut fmt::Formatter<'_>) -> fmt::Result {
        f.write_str(match self {
            Decision::OutsideGroup => "barred: called party outside allowed user group",
            Decision::RestrictedService => "barred: restricted service type",
            Decision::RestrictedDestination => "barred: restricted destination address",
            Decision::Allowed => "allowed",
            Decision::NotHeld => "the part that judges the call is not held: this allows nothing",
        })
    }
}
