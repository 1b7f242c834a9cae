//! Where a call stops (document 02, request 2026-03): the bit place in a PDU, the entry of an archive.

use reference::layout::{RECORD_WORDS, REQUEST_WORDS};
use reference::{
    capture, contents, decide, read, reload, reload_external, restore, Refusal, Refused, Restored,
};

/// A PDU by its elements, each with its width and value.
type Elements = Vec<(usize, u32)>;

/// Profile A for user 5.
fn profile_a() -> Elements {
    let mut elements = acknowledge(1);
    elements.extend([(4, 0)]);
    elements.extend([(4, 9), (24, 100), (1, 0), (24, 199), (1, 0)]);
    elements.extend([(4, 1), (24, 150), (1, 0)]);
    elements
}

/// The number part of user 5 that has numbers 12 and *7 restricted, and group 500 of network 2.
fn number_part() -> Elements {
    let mut elements = acknowledge(2);
    elements.extend([(4, 1), (24, 500), (1, 1), (24, 2)]);
    elements.extend([(4, 2), (5, 2), (4, 1), (4, 2), (5, 2), (4, 10), (4, 7)]);
    elements.extend([(4, 0)]);
    elements
}

/// An INTERROGATE ACK for user 5 and services 1 and 2, as far as its lists.
fn acknowledge(result: u32) -> Elements {
    vec![(6, 18), (5, 12), (4, 1), (24, 5), (1, 0), (3, result), (2, 0), (3, 2), (3, 1), (3, 2)]
}

/// An INTERROGATE for the users 5 to 6 of network 2.
fn interrogate() -> Elements {
    vec![(6, 18), (5, 11), (4, 9), (24, 5), (1, 1), (24, 2), (24, 6), (1, 1), (24, 2), (2, 1)]
}

/// A DEFINE for user 5 and services 1 and 2 that is delivered and acknowledged, as far as its lists.
fn definition(definition_type: u32) -> Elements {
    let mut elements = vec![(6, 18), (5, 5), (4, 1), (24, 5), (1, 0)];
    elements.extend([(1, 1), (1, 1), (2, definition_type), (3, 2), (3, 1), (3, 2)]);
    elements
}

/// A replacement with a group of network 2, and 100 to 199 restricted except for 150.
fn replacement() -> Elements {
    let mut elements = definition(1);
    elements.extend([(4, 1), (24, 500), (1, 1), (24, 2)]);
    elements.extend([(4, 9), (24, 100), (1, 0), (24, 199), (1, 0)]);
    elements.extend([(4, 1), (24, 150), (1, 0)]);
    elements
}

/// A DEFINE EXTERNAL for user 5 that replaces all services, with number 12 restricted and + excepted.
fn external() -> Elements {
    let mut elements = vec![(6, 18), (5, 7), (4, 1), (24, 5), (1, 0), (1, 1), (1, 0), (2, 1), (3, 1), (3, 0)];
    elements.extend([(4, 1), (24, 500), (1, 0)]);
    elements.extend([(4, 1), (5, 2), (4, 1), (4, 2)]);
    elements.extend([(4, 1), (5, 1), (4, 12)]);
    elements
}

/// A DEFINE USER or DEFINE EXTERNAL USER that adds service 3, with 100 to 199 restricted and 150 of network 2
/// excepted.
fn user_definition(pdu_type: u32) -> Elements {
    let mut elements = vec![(6, 18), (5, pdu_type), (1, 1), (2, 0), (3, 1), (3, 3)];
    elements.extend([(4, 0)]);
    elements.extend([(4, 9), (24, 100), (1, 0), (24, 199), (1, 0)]);
    elements.extend([(4, 1), (24, 150), (1, 1), (24, 2)]);
    elements
}

/// A DEFINE ACK for users 5 and 6.
fn define_ack() -> Elements {
    vec![(6, 18), (5, 6), (4, 2), (24, 5), (1, 1), (24, 2), (24, 6), (1, 0), (3, 1)]
}

/// A DEFINE USER ACK.
fn define_user_ack() -> Elements {
    vec![(6, 18), (5, 9), (3, 6)]
}

/// A CALL BARRED.
fn call_barred() -> Elements {
    vec![(6, 18), (5, 13), (2, 2)]
}

/// A PDU of each form.
fn each() -> [Elements; 11] {
    [
        profile_a(),
        number_part(),
        interrogate(),
        replacement(),
        definition(2),
        external(),
        user_definition(8),
        user_definition(10),
        define_ack(),
        define_user_ack(),
        call_barred(),
    ]
}

/// With another value of an element.
fn with(mut elements: Elements, index: usize, value: u32) -> Elements {
    assert!(value < 1 << elements[index].0, "{value} does not fit element {index}");
    elements[index].1 = value;
    elements
}

/// The place of an element, or the length for the one after the last.
fn place_of(elements: &[(usize, u32)], index: usize) -> usize {
    elements[..index].iter().map(|(width, _)| width).sum()
}

fn length(elements: &[(usize, u32)]) -> usize {
    place_of(elements, elements.len())
}

/// The bytes, with zero bits after the PDU.
fn bytes(elements: &[(usize, u32)]) -> Vec<u8> {
    let mut bytes = vec![0; length(elements).div_ceil(8)];
    let bits = elements.iter().flat_map(|(width, value)| (0..*width).rev().map(move |i| value >> i & 1));
    for (place, bit) in bits.enumerate() {
        bytes[place / 8] |= (bit as u8) << (7 - place % 8);
    }
    bytes
}

fn refused(why: Refusal, entry: Option<usize>, place: Option<usize>) -> Refused {
    Refused { why, entry, place }
}

fn read_words(pdu: &[u8], bits: usize) -> Result<(), Refused> {
    read(pdu, bits, &mut [0; RECORD_WORDS])
}

/// Reading these elements stops at the one of this index.
fn stops(elements: Elements, why: Refusal, index: usize) {
    let expected = refused(why, None, Some(place_of(&elements, index)));
    assert_eq!(read_words(&bytes(&elements), length(&elements)), Err(expected), "{elements:?}");
}

#[test]
fn a_short_pdu_stops_at_the_element_that_is_not_there_whole() {
    for elements in each() {
        let whole = bytes(&elements);
        assert_eq!(read_words(&whole, length(&elements)), Ok(()));
        for (index, (width, _)) in elements.iter().enumerate() {
            let place = place_of(&elements, index);
            for bits in place..place + width {
                let mut cut = whole[..bits.div_ceil(8)].to_vec();
                if let (Some(last), 1..) = (cut.last_mut(), bits % 8) {
                    *last &= 0xff << (8 - bits % 8);
                }
                let expected = refused(Refusal::Short, None, Some(place));
                assert_eq!(read_words(&cut, bits), Err(expected), "{bits} of {elements:?}");
            }
        }
    }
}

#[test]
fn a_refused_value_stops_at_its_element() {
    for (index, value) in [(0, 17), (1, 14), (2, 0), (2, 10), (5, 5), (7, 0), (8, 4), (9, 7), (10, 10)] {
        stops(with(profile_a(), index, value), Refusal::Value, index);
    }
    stops(with(interrogate(), 9, 0), Refusal::Value, 9);
    // A number part: range types of numbers, lengths, digits.
    for (index, value) in [(14, 9), (15, 0), (15, 25), (16, 13), (17, 15), (18, 31), (20, 14), (21, 10)] {
        stops(with(number_part(), index, value), Refusal::Value, index);
    }
    for pdu_type in (0..=4).chain(14..=31) {
        stops(with(interrogate(), 1, pdu_type), Refusal::Value, 1);
    }
    // A DEFINE: range types, definition type, services. Without delivery it is the acknowledgement.
    for (index, value) in [(2, 0), (2, 10), (7, 3), (8, 0), (9, 4), (10, 7), (11, 10), (15, 15), (20, 10)] {
        stops(with(replacement(), index, value), Refusal::Value, index);
    }
    stops(with(replacement(), 5, 0), Refusal::Value, 6);
    stops(with(with(definition(2), 5, 0), 7, 3), Refusal::Value, 6);
    // A DEFINE EXTERNAL: definition type, services, range types, a length, a digit; the acknowledgement.
    for (index, value) in [(2, 0), (7, 3), (8, 0), (9, 4), (10, 10), (13, 9), (14, 25), (15, 13), (17, 9)] {
        stops(with(external(), index, value), Refusal::Value, index);
    }
    stops(with(with(external(), 5, 0), 6, 1), Refusal::Value, 6);
    for pdu_type in [8, 10] {
        for (index, value) in [(3, 3), (4, 0), (5, 4), (6, 10), (7, 15), (12, 10)] {
            stops(with(user_definition(pdu_type), index, value), Refusal::Value, index);
        }
    }
    stops(with(define_ack(), 2, 0), Refusal::Value, 2);
    stops(with(define_ack(), 8, 5), Refusal::Value, 8);
    for reserved in 2..=5 {
        stops(with(define_user_ack(), 2, reserved), Refusal::Value, 2);
    }
    stops(with(call_barred(), 2, 3), Refusal::Value, 2);
}

#[test]
fn ends_stop_at_the_ssi_of_the_second() {
    // Reversed; one end with an extension; another extension.
    stops(with(profile_a(), 12, 201), Refusal::Ends, 14);
    let mut extended = with(profile_a(), 15, 1);
    extended.insert(16, (24, 0));
    stops(extended, Refusal::Ends, 14);
    stops(with(interrogate(), 3, 7), Refusal::Ends, 6);
    stops(with(interrogate(), 8, 3), Refusal::Ends, 6);
    stops(with(replacement(), 16, 201), Refusal::Ends, 18);
    stops(with(user_definition(8), 8, 201), Refusal::Ends, 10);
    stops(with(user_definition(10), 8, 201), Refusal::Ends, 10);
}

#[test]
fn bits_left_stop_at_the_first_of_them() {
    for left in 1..20 {
        for mut elements in each() {
            let end = elements.len();
            elements.push((left, 1));
            stops(elements, Refusal::Left, end);
        }
    }
    // A removal has no lists.
    stops(with(replacement(), 7, 2), Refusal::Left, 11);
    stops(with(external(), 7, 2), Refusal::Left, 10);
    stops(with(user_definition(8), 3, 2), Refusal::Left, 6);
    stops(with(user_definition(10), 3, 2), Refusal::Left, 6);
}

#[test]
fn other_refusals_of_a_pdu_have_no_place() {
    let pdu = bytes(&profile_a());
    let mut unused = pdu.clone();
    unused[17] |= 1;
    let frame = refused(Refusal::Frame, None, None);
    assert_eq!(length(&profile_a()), 141);
    assert_eq!(read_words(&unused, 141), Err(frame));
    assert_eq!(read_words(&pdu, 145), Err(frame));
    assert_eq!(read_words(&[0; 513], 4097), Err(frame));
    assert_eq!(read(&pdu, 141, &mut [0; 1]), Err(refused(Refusal::Range, None, None)));
}

/// An entry: network, SSI, part, bit length, body.
type Entry = (u32, u32, u8, usize, Vec<u8>);

fn entry(ssi: u32, part: u8, elements: Elements) -> Entry {
    (1, ssi, part, length(&elements), bytes(&elements))
}

/// The identity and number parts of users 5 and 6 of home network 1.
fn entries() -> Vec<Entry> {
    let mut entries = Vec::new();
    for ssi in [5, 6] {
        entries.push(entry(ssi, 1, with(profile_a(), 3, ssi)));
        entries.push(entry(ssi, 2, with(number_part(), 3, ssi)));
    }
    entries
}

/// The archive of home network 1, each entry under another day.
fn archive(entries: &[Entry]) -> Vec<u8> {
    let mut bytes = vec![0, 0, 1];
    bytes.extend((entries.len() as u16).to_be_bytes());
    for (day, (network, ssi, part, bits, _)) in (65_530_u16..=u16::MAX).cycle().zip(entries) {
        bytes.extend(&network.to_be_bytes()[1..]);
        bytes.extend(&ssi.to_be_bytes()[1..]);
        bytes.push(*part);
        bytes.extend((*bits as u16).to_be_bytes());
        bytes.extend(day.to_be_bytes());
    }
    entries.iter().for_each(|entry| bytes.extend(&entry.4));
    bytes
}

/// Each call refuses the archive with 7, this entry and this place.
fn breaks(archive: &[u8], entry: Option<usize>, place: Option<usize>) {
    let expected = refused(Refusal::Archive, entry, place);
    let mut request = [0; REQUEST_WORDS];
    request[..6].copy_from_slice(&[1, 5, 1, 1, 1, 100]);
    let out = &mut [0; 1000];
    // Capture does not get as far as its PDU, which is refused too.
    assert_eq!(capture(archive, &[], 0, 0, out), Err(expected));
    assert_eq!(restore(archive, 1, 5, 1, out), Err(expected));
    assert_eq!(reload(archive, 1, 5, 1, 1, 0, 0, out), Err(expected));
    assert_eq!(reload_external(archive, 1, 5, 1, 0, 0, out), Err(expected));
    assert_eq!(decide(archive, &request), Err(expected));
    assert_eq!(contents(archive, out), Err(expected));
}

/// The archive with one entry changed.
fn changed(index: usize, change: impl FnOnce(&mut Entry)) -> Vec<u8> {
    let mut entries = entries();
    change(&mut entries[index]);
    archive(&entries)
}

#[test]
fn a_fault_of_the_shape_has_no_entry() {
    let whole = archive(&entries());
    assert!(contents(&whole, &mut [0; 1000]).is_ok());
    breaks(&[], None, None);
    for cut in 0..whole.len() {
        breaks(&whole[..cut], None, None);
    }
    breaks(&[&whole[..], &[0]].concat(), None, None);
    breaks(&changed(1, |entry| entry.2 = 0), None, None);
    breaks(&changed(3, |entry| entry.2 = 3), None, None);
    breaks(&changed(2, |entry| entry.1 = 5), None, None);
    breaks(&changed(3, |entry| entry.1 = 4), None, None);
    breaks(&changed(0, |entry| entry.0 = 2), None, None);
    let identity_parts =
        |users| -> Vec<Entry> { (0..users).map(|ssi| entry(ssi, 1, with(profile_a(), 3, ssi))).collect() };
    let held = restore(&archive(&identity_parts(512)), 1, 5, 1, &mut [0; 18]);
    assert_eq!(held, Ok(Restored { bits: 141, day: 65_535 }));
    breaks(&archive(&identity_parts(513)), None, None);
}

#[test]
fn the_shape_comes_before_any_body() {
    let mut entries = entries();
    entries[0].4[0] = 0;
    breaks(&archive(&entries), Some(0), Some(0));
    entries[3].2 = 3;
    breaks(&archive(&entries), None, None);
    entries[3].2 = 1;
    breaks(&archive(&entries), None, None);
    entries[3].2 = 2;
    entries[3].4.push(0);
    breaks(&archive(&entries), None, None);
}

#[test]
fn a_body_whose_refusal_has_no_place_has_its_entry_alone() {
    // A nonzero unused bit, though the body has a refused value too; over 4,096 bits, in all their bytes.
    let unused = |entry: &mut Entry| {
        entry.4[0] = 0;
        *entry.4.last_mut().unwrap() |= 1;
    };
    breaks(&changed(2, unused), Some(2), None);
    let over = |entry: &mut Entry| (entry.3, entry.4) = (4097, vec![0; 513]);
    breaks(&changed(1, over), Some(1), None);
    let most = |entry: &mut Entry| (entry.3, entry.4) = (4096, vec![0; 512]);
    breaks(&changed(1, most), Some(1), Some(0));

    // A legal PDU that no entry may hold.
    let replace = |index: usize, elements: Elements| {
        changed(index, |entry| (entry.3, entry.4) = (length(&elements), bytes(&elements)))
    };
    let for_one = vec![(6, 18), (5, 11), (4, 1), (24, 5), (1, 0), (2, 1)];
    breaks(&replace(0, for_one), Some(0), None);
    breaks(&replace(0, replacement()), Some(0), None);
    breaks(&replace(0, external()), Some(0), None);
    breaks(&replace(1, external()), Some(1), None);
    breaks(&replace(0, user_definition(8)), Some(0), None);
    breaks(&replace(0, call_barred()), Some(0), None);
    breaks(&replace(0, acknowledge(3)), Some(0), None);
    let mut for_two = with(profile_a(), 2, 2);
    for_two.splice(3..3, [(24, 5), (1, 0)]);
    breaks(&replace(0, for_two), Some(0), None);

    // One that disagrees with its entry: part, SSI, network.
    breaks(&replace(3, with(profile_a(), 3, 6)), Some(3), None);
    breaks(&replace(3, with(number_part(), 3, 7)), Some(3), None);
    breaks(&changed(3, |entry| entry.1 = 7), Some(3), None);
    breaks(&changed(3, |entry| entry.0 = 2), Some(3), None);
    let mut other_home = archive(&entries());
    other_home[2] = 2;
    breaks(&other_home, Some(0), None);
}

#[test]
fn a_body_whose_refusal_has_a_place_has_that_too() {
    let replace = |index: usize, elements: Elements| {
        changed(index, |entry| (entry.3, entry.4) = (length(&elements), bytes(&elements)))
    };
    breaks(&changed(3, |entry| (entry.3, entry.4) = (0, vec![])), Some(3), Some(0));
    breaks(&replace(2, acknowledge(1)), Some(2), Some(54));
    breaks(&replace(1, with(number_part(), 17, 13)), Some(1), Some(place_of(&number_part(), 17)));
    breaks(&replace(0, with(profile_a(), 12, 201)), Some(0), Some(place_of(&profile_a(), 14)));
    breaks(&replace(2, [profile_a(), vec![(9, 0)]].concat()), Some(2), Some(141));
    breaks(&replace(3, with(number_part(), 1, 4)), Some(3), Some(6));
}

#[test]
fn the_first_body_at_fault_is_the_one() {
    let mut entries = entries();
    entries[3].4[0] = 0;
    entries[1].4[1] = 0xff;
    breaks(&archive(&entries), Some(1), Some(6));
    entries[0].3 -= 1;
    breaks(&archive(&entries), Some(0), Some(place_of(&profile_a(), 18)));
}

#[test]
fn capture_hands_the_place_on() {
    let held = archive(&entries());
    let out = &mut [0; 1000];
    for (elements, why, index) in [
        (with(profile_a(), 9, 4), Refusal::Value, 9),
        (with(profile_a(), 12, 201), Refusal::Ends, 14),
        (with(profile_a(), 1, 14), Refusal::Value, 1),
        ([profile_a(), vec![(1, 1)]].concat(), Refusal::Left, 19),
        (profile_a()[..18].to_vec(), Refusal::Short, 18),
        (with(replacement(), 5, 0), Refusal::Value, 6),
    ] {
        let expected = refused(why, None, Some(place_of(&elements, index)));
        assert_eq!(capture(&held, &bytes(&elements), length(&elements), 0, out), Err(expected));
    }
    let pdu = bytes(&profile_a());
    assert_eq!(capture(&held, &pdu, 1, 0, out), Err(refused(Refusal::Frame, None, None)));
    let legal = bytes(&interrogate());
    let unfit = capture(&held, &legal, length(&interrogate()), 0, out);
    assert_eq!(unfit, Err(refused(Refusal::Unfit, None, None)));
    assert_eq!(capture(&held, &pdu, 141, 0, &mut out[..20]), Err(refused(Refusal::Room, None, None)));
    assert_eq!(capture(&held, &pdu, 1, 65_536, out), Err(refused(Refusal::Range, None, None)));
    assert_eq!(restore(&held, 1, 7, 1, out), Err(refused(Refusal::NotHeld, None, None)));
    assert_eq!(reload(&held, 1, 7, 1, 1, 0, 0, out), Err(refused(Refusal::NotHeld, None, None)));
    assert_eq!(reload(&held, 1, 5, 2, 1, 0, 0, out), Err(refused(Refusal::Loss, None, None)));
    assert_eq!(reload_external(&held, 1, 7, 1, 0, 0, out), Err(refused(Refusal::NotHeld, None, None)));
    assert_eq!(reload_external(&held, 1, 5, 2, 0, 0, out), Err(refused(Refusal::Loss, None, None)));
}
