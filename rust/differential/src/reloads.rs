//! Reloads.

use boc::ffi::{self, Spot};
use reference::layout::{record as at, RECORD_WORDS};
use reference::Refused;

use crate::definitions::{damage_definition, definition, Definition, DEFINITIONS};
use crate::pdus::odd_word;
use crate::{Archive, Pdu, Record, Rng};

/// What a reload asks for.
#[derive(Clone, Copy)]
pub struct Reload {
    /// As a DEFINE EXTERNAL? Otherwise as a DEFINE.
    pub external: bool,
    /// The user's network and SSI.
    pub user: [u32; 2],
    /// The part; 2 for a DEFINE EXTERNAL.
    pub part: u32,
    /// Delivery, acknowledgement and definition type.
    pub definition: Definition,
}

/// What of a reload may be out of its range; the part only of one as a DEFINE, which asks for it.
const OUT_OF_RANGE: [&str; 7] = [
    "network",
    "SSI",
    "part",
    "definition type",
    "delivery",
    "acknowledgement",
    "acknowledgement without delivery",
];

/// The lists of a part, with their places in a record.
const LISTS: [(&str, usize); 5] = [
    ("groups", at::GROUPS),
    ("restricted identities", at::RESTRICTED),
    ("excepted identities", at::EXCEPTIONS),
    ("restricted numbers", at::RESTRICTED_NUMBERS),
    ("excepted numbers", at::EXCEPTED_NUMBERS),
];

/// All that may be out of range.
pub fn all_out_of_range(external: bool) -> Vec<&'static str> {
    OUT_OF_RANGE.into_iter().filter(|what| !external || *what != "part").collect()
}

/// Each list of a part that the PDU has no place for under some definition type.
pub fn losses(external: bool) -> Vec<String> {
    let losses_under = |definition_type| {
        let lost = LISTS.into_iter().filter(move |(_, place)| {
            has_no_place(external, *place, definition_type)
                && !(external && [at::RESTRICTED, at::EXCEPTIONS].contains(place))
        });
        lost.map(move |(list, _)| loss(list, definition_type))
    };
    (0..3).flat_map(losses_under).collect()
}

fn loss(list: &str, definition_type: u32) -> String {
    format!("{list} under {}", DEFINITIONS[definition_type as usize])
}

/// Only addition and replacement have lists, and a DEFINE has those of identities alone.
fn has_no_place(external: bool, list: usize, definition_type: u32) -> bool {
    definition_type == 2 || !external && list >= at::RESTRICTED_NUMBERS
}

impl Reload {
    /// A reload from an archive, most often in range and often of what is held.
    pub fn random(rng: &mut Rng, archive: &Archive, external: bool) -> Self {
        let part = if external { 2 } else { rng.between(1, 2) as u32 };
        let mut reload = Reload { external, user: archive.user(rng), part, definition: definition(rng) };
        match rng.below(20) {
            0 => reload.user[rng.below(2)] = rng.pick(&[1 << 24, u32::MAX, 0x100_0001]),
            1 if !external => reload.part = odd_word(rng),
            2 | 3 => damage_definition(rng, &mut reload.definition),
            _ => {}
        }
        if rng.one_in(30) {
            damage_definition(rng, &mut reload.definition);
        }
        reload
    }

    /// The call that it is.
    pub fn call(&self) -> &'static str {
        if self.external {
            "reload_external"
        } else {
            "reload"
        }
    }

    /// What the reference answers.
    pub fn reference(&self, archive: &[u8], out: &mut [u8]) -> Result<usize, Refused> {
        let Reload { external, user: [network, ssi], part, definition } = *self;
        let [delivery, acknowledgement, kind] = definition;
        if external {
            reference::reload_external(archive, network, ssi, kind, delivery, acknowledgement, out)
        } else {
            reference::reload(archive, network, ssi, part, kind, delivery, acknowledgement, out)
        }
    }

    /// What the library answers.
    pub fn library(&self, archive: &[u8], out: &mut [u8], bits: &mut usize, spot: &mut Spot) -> u32 {
        let Reload { external, user: [network, ssi], part, definition } = *self;
        let [delivery, acknowledgement, kind] = definition;
        if external {
            ffi::reload_external(archive, network, ssi, kind, delivery, acknowledgement, out, bits, spot)
        } else {
            ffi::reload(archive, network, ssi, part, kind, delivery, acknowledgement, out, bits, spot)
        }
    }

    /// All that is out of its range.
    pub fn out_of_range(&self) -> Vec<&'static str> {
        let Reload { user, part, definition, .. } = self;
        let [delivery, acknowledgement, definition_type] = *definition;
        let out = [
            user[0] >= 1 << 24,
            user[1] >= 1 << 24,
            !matches!(part, 1 | 2),
            definition_type > 2,
            delivery > 1,
            acknowledgement > 1,
            delivery == 0 && acknowledgement == 1,
        ];
        OUT_OF_RANGE.into_iter().zip(out).filter(|(_, out)| *out).map(|(what, _)| what).collect()
    }

    /// The record of the part that a legal archive holds.
    fn held(&self, archive: &[u8]) -> Record {
        let Reload { user: [network, ssi], part, .. } = *self;
        let (mut pdu, mut words) = ([0; 512], [0; RECORD_WORDS]);
        let bits = reference::restore(archive, network, ssi, part, &mut pdu).expect("it is held").bits;
        reference::read(&pdu[..bits.div_ceil(8)], bits, &mut words).expect("it is legal");
        words
    }

    /// The PDU of that part, by way of its record, if nothing is lost.
    pub fn define(&self, archive: &[u8]) -> Pdu {
        let mut words = self.held(archive);
        words[at::PDU_TYPE] = if self.external { 7 } else { 5 };
        words[at::RESULT] = 0;
        words[at::DELIVERY_STATUS] = 0;
        words[at::DELIVERY..][..3].copy_from_slice(&self.definition);
        Pdu::of(&words)
    }

    /// All that would be lost of that part.
    pub fn lost(&self, archive: &[u8]) -> Vec<String> {
        let [_, _, definition_type] = self.definition;
        let words = self.held(archive);
        let lost = |place: usize| words[place] != 0 && has_no_place(self.external, place, definition_type);
        let lists = LISTS.into_iter().filter(|(_, place)| lost(*place));
        lists.map(|(list, _)| loss(list, definition_type)).collect()
    }
}
