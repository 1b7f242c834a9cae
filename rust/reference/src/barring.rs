//! The barring rule.

use crate::archive::{Archive, Key, IDENTITY_PART, LIMIT, NUMBER_PART};
use crate::layout::{request, DIGITS, REQUEST_WORDS};
use crate::pdu::{walk, Identity, List, Number, Visitor};
use crate::refusal::{Refusal, Refused};
use crate::words::{any, are_digits, pack};

/// The answer to a request; the discriminants are the numbers that cross the boundary.
#[derive(Clone, Copy, Debug, PartialEq, Eq)]
#[repr(u8)]
pub enum Decision {
    /// Barred, cause 0: called party outside allowed user group.
    OutsideGroup = 0,
    /// Barred, cause 1: restricted service type.
    RestrictedService = 1,
    /// Barred, cause 2: restricted destination address.
    RestrictedDestination = 2,
    /// Allowed.
    Allowed = 3,
    /// The part that decides is not held.
    NotHeld = 4,
}

impl Decision {
    /// The number that crosses the boundary: 0 to 2 are causes, 3 is allowed, 4 not held.
    pub const fn number(self) -> u32 {
        self as u32
    }
}

/// A network and an SSI.
#[derive(Clone, Copy)]
struct Party {
    network: u32,
    ssi: u32,
}

#[derive(Clone, Copy)]
enum Destination {
    Identity(Party),
    Number(Number),
}

struct Request {
    user: Party,
    service: u32,
    destination: Destination,
    group: Option<Party>,
}

impl Request {
    /// The request that the words say, or 9.
    fn new(words: &[u32]) -> Result<Self, Refusal> {
        let words: &[u32; REQUEST_WORDS] = words.try_into().map_err(|_| Refusal::Range)?;
        Self::in_range(words).ok_or(Refusal::Range)
    }

    fn in_range(words: &[u32; REQUEST_WORDS]) -> Option<Self> {
        let party = |at: usize| {
            let (network, ssi) = (words[at], words[at + 1]);
            (network < LIMIT && ssi < LIMIT).then_some(Party { network, ssi })
        };
        let unused = |from: usize, to: usize| any(&words[from..to]) == 0;

        let user = party(request::USER_NETWORK)?;
        let service = words[request::SERVICE];
        let destination = match words[request::KIND] {
            1 if unused(request::LENGTH, request::GROUP_GIVEN) => {
                Destination::Identity(party(request::NETWORK)?)
            }
            2 if unused(request::NETWORK, request::LENGTH) => Destination::Number(number(words)?),
            _ => return None,
        };
        let group = match words[request::GROUP_GIVEN] {
            0 if unused(request::GROUP_NETWORK, REQUEST_WORDS) => None,
            1 => Some(party(request::GROUP_NETWORK)?),
            _ => return None,
        };
        matches!(service, 1..=3).then_some(Request { user, service, destination, group })
    }
}

/// The external number that a request calls, if its length, digits and unused places are legal.
fn number(words: &[u32; REQUEST_WORDS]) -> Option<Number> {
    let length = words[request::LENGTH];
    let digits: &[u32; DIGITS] = words[request::FIRST_DIGIT..].first_chunk()?;
    let legal = matches!(length, 1..=24) && are_digits(digits) && any(&digits[length as usize..]) == 0;
    legal.then(|| Number { length, digits: pack(digits) << 32 })
}

/// The visitor that compares a part with a request.
struct Compare<'a> {
    request: &'a Request,
    /// The network of the PDU's affected user, which a missing extension in its lists means.
    missing: u32,
    service_listed: bool,
    excepted: bool,
    restricted: bool,
    in_group: bool,
    no_groups: bool,
    none_restricted: bool,
}

impl Compare<'_> {
    /// Notes that a list of identities has those from `first` to `last`.
    #[inline(always)]
    fn identities(&mut self, list: List, first: Identity, last: Identity) {
        let network = first.network(self.missing);
        let among = |party: Party| party.network == network && (first.ssi..=last.ssi).contains(&party.ssi);
        let called = matches!(self.request.destination, Destination::Identity(party) if among(party));
        match list {
            List::Affected => self.missing = network,
            List::Groups => self.in_group |= self.request.group.is_some_and(among),
            List::Restricted => self.restricted |= called,
            List::Exceptions => self.excepted |= called,
            _ => {}
        }
    }

    /// The first rule that applies.
    fn decision(&self) -> Decision {
        if !self.service_listed || self.excepted {
            Decision::Allowed
        } else if self.restricted {
            Decision::RestrictedDestination
        } else if !self.no_groups && !self.in_group {
            Decision::OutsideGroup
        } else if self.no_groups && self.none_restricted {
            Decision::RestrictedService
        } else {
            Decision::Allowed
        }
    }
}

impl Visitor for Compare<'_> {
    #[inline(always)]
    fn service(&mut self, _place: usize, value: u32) {
        self.service_listed |= value == 0 || value == self.request.service;
    }

    #[inline(always)]
    fn range_type(&mut self, list: List, code: u32) {
        match list {
            List::Groups => self.no_groups = code == 0,
            List::Restricted | List::RestrictedNumbers => self.none_restricted = code == 0,
            _ => {}
        }
    }

    #[inline(always)]
    fn single(&mut self, list: List, _place: usize, entry: Identity) {
        self.identities(list, entry, entry);
    }

    #[inline(always)]
    fn range(&mut self, list: List, first: Identity, last: Identity) {
        self.identities(list, first, last);
    }

    #[inline(always)]
    fn number(&mut self, list: List, _place: usize, entry: Number) {
        let called = matches!(self.request.destination, Destination::Number(number) if number == entry);
        match list {
            List::RestrictedNumbers => self.restricted |= called,
            List::ExceptedNumbers => self.excepted |= called,
            _ => {}
        }
    }
}

/// Decides on a request of [`REQUEST_WORDS`] words by the part that the archive holds for its user.
/// Refuses with 9, 7.
pub fn decide(archive: &[u8], request: &[u32]) -> Result<Decision, Refused> {
    let request = Request::new(request)?;
    let held = Archive::check(archive)?;
    let part = match request.destination {
        Destination::Identity(_) => IDENTITY_PART,
        Destination::Number(_) => NUMBER_PART,
    };
    let key = Key::new(request.user.network, request.user.ssi, part);
    let Some(cursor) = held.cursor(key) else {
        return Ok(Decision::NotHeld);
    };
    let mut compare = Compare {
        request: &request,
        // Until the walk meets the affected user: the home network, which its own missing extension means.
        missing: held.home,
        service_listed: false,
        excepted: false,
        restricted: false,
        in_group: false,
        no_groups: true,
        none_restricted: true,
    };
    walk(cursor, &mut compare)?;
    Ok(compare.decision())
}
