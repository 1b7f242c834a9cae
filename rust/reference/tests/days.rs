//! The day of an entry (document 02, request 2026-05): given at capture, listed, and given back by restore.

use std::collections::BTreeMap;

use reference::layout::{record, RECORD_WORDS};
use reference::{capture, contents, decide, empty, restore, write, Refusal, Refused, Restored};

/// Bytes of the header, and of a line of the contents, whose last two are the day.
const HEADER: usize = 5;
const LINE: usize = 11;
/// More bytes than any archive here needs.
const ROOM: usize = 70_000;

/// A PDU: its length in bits, and its bytes.
type Pdu = (usize, Vec<u8>);

/// A part of a user of home network 1, with as many restricted entries: identities, or numbers of one digit.
fn part_of(ssi: u32, part: u32, restricted: u32) -> Pdu {
    let mut words = [0; RECORD_WORDS];
    words[record::PDU_TYPE] = 12;
    words[record::AFFECTED..][..2].copy_from_slice(&[1, ssi]);
    words[record::RESULT] = part;
    words[record::SERVICE_COUNT] = 1;
    let (list, width) = if part == 1 { (record::RESTRICTED, 3) } else { (record::RESTRICTED_NUMBERS, 25) };
    words[list] = restricted;
    (0..restricted as usize).for_each(|entry| words[list + 1 + width * entry] = 1);
    let mut bytes = vec![0; 307];
    let bits = write(&words, &mut bytes).unwrap();
    bytes.truncate(bits.div_ceil(8));
    (bits, bytes)
}

fn nothing() -> Vec<u8> {
    let mut archive = vec![0; HEADER];
    empty(1, &mut archive).unwrap();
    archive
}

fn captured(archive: &[u8], (bits, pdu): &Pdu, day: u32) -> Result<Vec<u8>, Refused> {
    let mut out = vec![0; ROOM];
    let length = capture(archive, pdu, *bits, day, &mut out)?;
    out.truncate(length);
    Ok(out)
}

/// The archive of so many users from SSI 0 on, the identity part of each, under the day of its SSI.
fn many(users: u32) -> Vec<u8> {
    (0..users).fold(nothing(), |held, ssi| captured(&held, &part_of(ssi, 1, 0), ssi).unwrap())
}

/// The bit length, the day and the bytes held for a part of a user.
fn held(archive: &[u8], ssi: u32, part: u32) -> Option<(usize, u16, Vec<u8>)> {
    let mut out = vec![0; 307];
    let Restored { bits, day } = restore(archive, 1, ssi, part, &mut out).ok()?;
    out.truncate(bits.div_ceil(8));
    Some((bits, day, out))
}

fn listing(archive: &[u8]) -> String {
    let mut out = vec![0; ROOM];
    let length = contents(archive, &mut out).unwrap();
    out.truncate(length);
    String::from_utf8(out).unwrap()
}

#[test]
fn a_day_above_65_535_gives_9_before_all_else() {
    let pdu = part_of(5, 1, 1);
    for day in [65_536, 65_537, 1 << 31, u32::MAX] {
        let mut out = [7; 100];
        // An archive and a PDU that would be taken; an archive that is none; a PDU that is none; no room.
        assert_eq!(capture(&nothing(), &pdu.1, pdu.0, day, &mut out), Err(Refusal::Range.into()));
        assert_eq!(capture(&[], &pdu.1, pdu.0, day, &mut out), Err(Refusal::Range.into()));
        assert_eq!(capture(&nothing(), &[], 1, day, &mut out), Err(Refusal::Range.into()));
        assert_eq!(capture(&nothing(), &pdu.1, pdu.0, day, &mut []), Err(Refusal::Range.into()));
        assert_eq!(out, [7; 100]);
    }
    let archive = captured(&nothing(), &pdu, 65_535).unwrap();
    assert_eq!(archive[HEADER + 9..][..2], [0xff, 0xff]);
    assert_eq!(held(&archive, 5, 1), Some((pdu.0, 65_535, pdu.1)));
}

#[test]
fn the_day_given_is_stored_even_when_lower() {
    let mut archive = nothing();
    for (day, restricted) in [(300, 1), (299, 2), (65_535, 0), (0, 3), (0, 8), (1, 8)] {
        let pdu = part_of(5, 1, restricted);
        archive = captured(&archive, &pdu, day).unwrap();
        assert_eq!(archive.len(), HEADER + LINE + pdu.1.len());
        assert_eq!(held(&archive, 5, 1), Some((pdu.0, day as u16, pdu.1)));
    }
}

#[test]
fn the_same_pdu_with_another_day_changes_two_bytes() {
    let mut archive = many(4);
    archive = captured(&archive, &part_of(2, 2, 3), 7).unwrap();
    let entries = [(0, 1, 0), (1, 1, 0), (2, 1, 0), (2, 2, 3), (3, 1, 0)];
    for (index, (ssi, part, restricted)) in entries.into_iter().enumerate() {
        for day in [0x0000, 0x00ff, 0x0100, 0xa55a, 0xffff_u16] {
            let mut expected = archive.clone();
            expected[HEADER + LINE * index + 9..][..2].copy_from_slice(&day.to_be_bytes());
            let again = captured(&archive, &part_of(ssi, part, restricted), day.into());
            assert_eq!(again, Ok(expected));
        }
    }
    // Under the day that it has, none.
    assert_eq!(captured(&archive, &part_of(2, 2, 3), 7), Ok(archive));
}

#[test]
fn the_day_is_no_part_of_the_key() {
    // Days fall where keys rise, and a key is held once.
    let archive = [(6, 1), (5, 2), (5, 3), (6, 9)]
        .into_iter()
        .fold(nothing(), |held, (ssi, day)| captured(&held, &part_of(ssi, 1, 0), 100 - day).unwrap());
    assert_eq!(listing(&archive), "home 1 entries 2\n1 5 part 1 bits 63 day 97\n1 6 part 1 bits 63 day 91\n");
}

#[test]
fn any_day_leaves_an_archive() {
    let archive = many(512);
    let lines = listing(&archive);
    let mut request = [0; reference::layout::REQUEST_WORDS];
    for entry in 0..512_usize {
        let ssi = entry as u32;
        request[..6].copy_from_slice(&[1, ssi, 1, 1, 1, 100]);
        let decision = decide(&archive, &request).unwrap();
        for bit in 0..16 {
            let mut changed = archive.clone();
            changed[HEADER + LINE * entry + 9 + bit / 8] ^= 0x80 >> (bit % 8);
            let day = ssi as u16 ^ 0x8000 >> bit;
            let (bits, pdu) = part_of(ssi, 1, 0);
            assert_eq!(held(&changed, ssi, 1), Some((bits, day, pdu)));
            assert_eq!(decide(&changed, &request), Ok(decision));
            // Only that line of the listing is another one.
            let text = listing(&changed);
            let lines = text.lines().zip(lines.lines()).enumerate();
            let different: Vec<_> = lines
                .filter(|(_, (now, before))| now != before)
                .map(|(line, (now, _))| (line, now))
                .collect();
            assert_eq!(different, [(entry + 1, &*format!("1 {ssi} part 1 bits 63 day {day}"))]);
        }
    }
}

#[test]
fn entries_of_nine_bytes_are_no_archive() {
    let (bits, pdu) = part_of(5, 1, 1);
    let head = [0, 0, 1, 0, 1, 0, 0, 1, 0, 0, 5, 1];
    let old = [&head[..], &(bits as u16).to_be_bytes(), &pdu].concat();
    assert_eq!(contents(&old, &mut [0; 100]), Err(Refusal::Archive.into()));
    let new = [&head[..], &(bits as u16).to_be_bytes(), &[1, 44], &pdu].concat();
    assert_eq!(captured(&nothing(), &(bits, pdu), 300), Ok(new));
}

/// After any offers, restoring gives bits and day of the last PDU that was accepted for a user and part.
#[test]
fn the_last_one_accepted_gives_bits_and_day() {
    let mut archive = nothing();
    let mut last = BTreeMap::new();
    let mut draw = 1_u32;
    let mut below = |limit: u32| {
        draw = draw.wrapping_mul(1_664_525).wrapping_add(1_013_904_223);
        (draw >> 8) % limit
    };
    for _ in 0..2_000 {
        let (ssi, part) = (below(6), 1 + below(2));
        let (bits, mut pdu) = part_of(ssi, part, below(9));
        let day = [below(65_536), 65_536 + below(65_536), below(3), u32::MAX][below(4) as usize];
        // A fifth is damaged: by a reserved PDU type, a result that is not filed, or a byte too many.
        match below(15) {
            0 => pdu[1] |= 0xe0,
            1 => pdu[5] |= 0x60,
            2 => pdu.push(0),
            _ => {}
        }
        match captured(&archive, &(bits, pdu.clone()), day) {
            Ok(new) => {
                archive = new;
                last.insert((ssi, part), (bits, u16::try_from(day).unwrap(), pdu));
            }
            Err(refused) => assert_eq!(day > 65_535, refused.why == Refusal::Range),
        }
        for key in (0..6).flat_map(|ssi| [(ssi, 1), (ssi, 2)]) {
            assert_eq!(held(&archive, key.0, key.1).as_ref(), last.get(&key));
        }
    }
    assert_eq!(last.len(), 12);
}
