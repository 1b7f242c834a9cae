//! Terminals on the serial port: +CTSP lines, and the table of profiles that they set.
//!
//! EN 300 392-5, clauses 6.14.4 (the command), 6.17.39 (profiles), 6.17.40 (layer 1), 6.17.41 (layer 2) and
//! 6.17.28 (PIDs).

use crate::decimal::decimal;
use crate::refusal::Refusal;

/// The profile "both", at which every place stands after a reset.
const BOTH: u8 = 2;
/// The highest profile, "neither".
const NEITHER: u8 = 3;

/// The places of each layer 1, in the order of the table: the values of its third field, or none.
const LAYERS: [Places; 5] = [
    Places::Named { first: 0, last: 1 },   // CC
    Places::Named { first: 10, last: 14 }, // MM
    Places::Named { first: 20, last: 24 }, // SDS
    Places::Named { first: 0, last: 255 }, // SDS-TL
    Places::Alone,                         // Packet Data
];

enum Places {
    /// One for each of these values.
    Named { first: u32, last: u32 },
    /// One, which is written without a third field.
    Alone,
}

impl Places {
    const fn count(&self) -> usize {
        match self {
            Places::Named { first, last } => (*last - *first + 1) as usize,
            Places::Alone => 1,
        }
    }
}

/// Places of a table.
pub const PLACES: usize = {
    let mut count = 0;
    let mut layer = 0;
    while layer < LAYERS.len() {
        count += LAYERS[layer].count();
        layer += 1;
    }
    count
};

/// Sets every place to the profile "both". Refuses with 9 a table of another length.
pub fn terminal_reset(table: &mut [u8]) -> Result<(), Refusal> {
    if table.len() != PLACES {
        return Err(Refusal::Range);
    }
    table.fill(BOTH);
    Ok(())
}

/// Takes a line and returns the length of the text written to `out`, 0 for a set line. Refuses with 9, 15, 16,
/// 17, 8.
pub fn terminal_line(line: &[u8], table: &mut [u8], out: &mut [u8]) -> Result<usize, Refusal> {
    if table.len() != PLACES || table.iter().any(|&profile| profile > NEITHER) {
        return Err(Refusal::Range);
    }
    if line == b"AT+CTSP?\r" {
        return read(table, out);
    }
    let fields = line.strip_prefix(b"AT+CTSP=").and_then(|rest| rest.strip_suffix(b"\r"));
    set(Fields::parse(fields.ok_or(Refusal::Syntax)?)?, table)
}

/// The values of two to four fields.
struct Fields {
    profile: u32,
    layer: u32,
    third: Option<u32>,
    fourth: bool,
}

impl Fields {
    fn parse(text: &[u8]) -> Result<Self, Refusal> {
        let mut values = [0; 4];
        let mut count = 0;
        for field in text.split(|&byte| byte == b',') {
            let digits = (1..=3).contains(&field.len()) && field.iter().all(u8::is_ascii_digit);
            let place = values.get_mut(count).filter(|_| digits).ok_or(Refusal::Syntax)?;
            *place = field.iter().fold(0, |value, digit| value * 10 + u32::from(digit - b'0'));
            count += 1;
        }
        if count < 2 {
            return Err(Refusal::Syntax);
        }
        let [profile, layer, third, _] = values;
        Ok(Fields { profile, layer, third: (count > 2).then_some(third), fourth: count > 3 })
    }
}

fn set(fields: Fields, table: &mut [u8]) -> Result<usize, Refusal> {
    let profile = u8::try_from(fields.profile).ok().filter(|&profile| profile <= NEITHER);
    let profile = profile.ok_or(Refusal::Field)?;
    let layer = fields.layer as usize;
    let places = LAYERS.get(layer).ok_or(Refusal::Field)?;
    let start: usize = LAYERS[..layer].iter().map(Places::count).sum();
    let own = &mut table[start..][..places.count()];
    let named = match (fields.third, places) {
        (None, _) => own,
        (Some(value), Places::Named { first, last }) if (*first..=*last).contains(&value) => {
            &mut own[(value - first) as usize..][..1]
        }
        (Some(_), Places::Named { .. }) => return Err(Refusal::Field),
        (Some(_), Places::Alone) => return Err(Refusal::Surplus),
    };
    if fields.fourth {
        return Err(Refusal::Surplus);
    }
    named.fill(profile);
    Ok(0)
}

fn read(table: &[u8], out: &mut [u8]) -> Result<usize, Refusal> {
    let mut length = 0;
    list(table, |text| length += text.len());
    let mut rest = out.get_mut(..length).ok_or(Refusal::Room)?;
    list(table, |text| {
        let (place, after) = core::mem::take(&mut rest).split_at_mut(text.len());
        place.copy_from_slice(text);
        rest = after;
    });
    Ok(length)
}

/// Gives the text of the read form piece by piece.
fn list(table: &[u8], mut piece: impl FnMut(&[u8])) {
    let mut before: &[u8] = b"+CTSP: ";
    let mut profiles = table.iter();
    for (layer, places) in (0..).zip(&LAYERS) {
        for (value, &profile) in (0..).zip(profiles.by_ref().take(places.count())) {
            if profile == BOTH {
                continue;
            }
            piece(before);
            before = b"";
            piece(decimal(profile.into(), &mut [0; 10]));
            piece(b",");
            piece(decimal(layer, &mut [0; 10]));
            if let Places::Named { first, .. } = places {
                piece(b",");
                piece(decimal(first + value, &mut [0; 10]));
            }
            piece(b"\r\n");
        }
    }
}
