//! The request for a decision.

use crate::codes::Service;
use crate::record::Number;
use crate::words::{Crossing, Sink};

/// Words of a request.
pub const REQUEST_WORDS: usize = 34;

/// A user or group by its network and SSI, each below 16,777,216.
#[derive(Clone, Copy, Debug, Default, PartialEq, Eq, Hash)]
pub struct Party {
    /// The network.
    pub network: u32,
    /// The SSI within it.
    pub ssi: u32,
}

impl Party {
    fn put(self, sink: &mut Sink<'_>) {
        sink.put(self.network);
        sink.put(self.ssi);
    }
}

/// Whom a call is for.
#[derive(Clone, Copy, Debug, PartialEq, Eq, Hash)]
pub enum Destination {
    /// An identity, judged by the user's identity part.
    Identity(Party),
    /// An external number, judged by the number part.
    Number(Number),
}

/// A call that is to be decided.
#[derive(Clone, Copy, Debug, PartialEq, Eq, Hash)]
pub struct Request {
    /// Who calls.
    pub user: Party,
    /// With which service; not [`Service::All`].
    pub service: Service,
    /// Whom.
    pub destination: Destination,
    /// Within which group, if any.
    pub group: Option<Party>,
}

impl Request {
    /// The words in which the request crosses to the library.
    pub fn to_words(&self) -> [u32; REQUEST_WORDS] {
        let mut words = [0; REQUEST_WORDS];
        let sink = &mut Sink::new(&mut words);
        let (kind, party, number) = match self.destination {
            Destination::Identity(party) => (1, party, Number::default()),
            Destination::Number(number) => (2, Party::default(), number),
        };
        self.user.put(sink);
        sink.put(self.service.number());
        sink.put(kind);
        party.put(sink);
        number.put(sink);
        sink.put(self.group.is_some().into());
        self.group.unwrap_or_default().put(sink);
        words
    }
}
