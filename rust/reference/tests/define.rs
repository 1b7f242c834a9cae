//! DEFINE and reload (document 02, request 2026-01; the standard's table 10).

use reference::layout::{record, RECORD_WORDS};
use reference::{capture, empty, read, reload, write, Refusal, Refused};

type Record = [u32; RECORD_WORDS];

const ADDITION: u32 = 0;
const REPLACEMENT: u32 = 1;
const REMOVAL: u32 = 2;

/// Profile A as a replacement that is delivered and acknowledged, of 137 bits.
const DEFINE_A: [u8; 18] = [
    0x48, 0xa2, 0x00, 0x00, 0x0a, 0xd2, 0x42, 0x40, 0x00, 0x19, 0x00, 0x00, 0x18, 0xe1, 0x00, 0x00, 0x96,
    0x00,
];
/// The removal of all services for user 5, of 50 bits.
const REMOVE: [u8; 7] = [0x48, 0xa2, 0x00, 0x00, 0x0a, 0x22, 0x00];

/// A DEFINE for user 5 and one service, without entries in its lists.
fn define(definition_type: u32, service: u32) -> Record {
    let mut words = [0; RECORD_WORDS];
    words[record::PDU_TYPE] = 5;
    words[record::AFFECTED..][..2].copy_from_slice(&[1, 5]);
    words[record::DEFINITION_TYPE] = definition_type;
    words[record::SERVICE_COUNT..][..2].copy_from_slice(&[1, service]);
    words
}

/// Profile A's lists in a DEFINE.
fn define_a(definition_type: u32) -> Record {
    let mut words = define(definition_type, 1);
    words[record::RESTRICTED..][..5].copy_from_slice(&[9, 100, 0, 0, 199]);
    words[record::EXCEPTIONS..][..2].copy_from_slice(&[1, 150]);
    words
}

/// An INTERROGATE ACK for user 5 and one service, without entries in its lists.
fn part(result: u32, service: u32) -> Record {
    let mut words = [0; RECORD_WORDS];
    words[record::PDU_TYPE] = 12;
    words[record::AFFECTED..][..2].copy_from_slice(&[1, 5]);
    words[record::RESULT] = result;
    words[record::DELIVERY_STATUS] = 2;
    words[record::SERVICE_COUNT..][..2].copy_from_slice(&[1, service]);
    words
}

fn profile_a() -> Record {
    let lists = record::GROUPS..record::RESTRICTED_NUMBERS;
    let mut words = part(1, 1);
    words[lists.clone()].copy_from_slice(&define_a(ADDITION)[lists]);
    words
}

/// With some words changed.
fn with(mut words: Record, changes: &[(usize, u32)]) -> Record {
    changes.iter().for_each(|(place, word)| words[*place] = *word);
    words
}

fn why<T>(answer: Result<T, Refused>) -> Result<T, Refusal> {
    answer.map_err(|refused| refused.why)
}

/// What a record is refused with; nothing is written.
fn refused(words: &Record) -> Refusal {
    let mut out = [7; 512];
    let refusal = write(words, &mut out).unwrap_err();
    assert_eq!(out, [7; 512]);
    refusal
}

/// The archive of home network 1 that holds these parts.
fn archive(parts: &[Record]) -> Vec<u8> {
    let mut held = vec![0; 5];
    empty(1, &mut held).unwrap();
    for words in parts {
        let mut pdu = [0; 307];
        let bits = write(words, &mut pdu).unwrap();
        let mut next = vec![0; 65_536];
        let length = capture(&held, &pdu[..bits.div_ceil(8)], bits, 0, &mut next).unwrap();
        next.truncate(length);
        held = next;
    }
    held
}

/// The record of the DEFINE that user 1/5's part is reloaded as, and its bits; the bytes after it stay.
fn reloaded(archive: &[u8], part: u32, definition: [u32; 3]) -> Result<(Record, usize), Refusal> {
    let [definition_type, delivery, acknowledgement] = definition;
    let mut out = [7; 512];
    match reload(archive, 1, 5, part, definition_type, delivery, acknowledgement, &mut out) {
        Ok(bits) => {
            let (pdu, after) = out.split_at(bits.div_ceil(8));
            assert!(after.iter().all(|byte| *byte == 7));
            let mut words = [0; RECORD_WORDS];
            read(pdu, bits, &mut words).unwrap();
            Ok((words, bits))
        }
        Err(refused) => {
            assert_eq!((refused.entry, refused.place, out), (None, None, [7; 512]));
            Err(refused.why)
        }
    }
}

/// A full list of identities.
fn full(words: &mut Record, list: usize) {
    words[list] = 8;
    for i in 0..8 {
        words[list + 1 + 3 * i..][..3].copy_from_slice(&[0xff_ffff, 1, 0xff_ffff - i as u32]);
    }
}

#[test]
fn examples() {
    let mut out = [0xff; 20];
    let words = with(define_a(REPLACEMENT), &[(record::DELIVERY, 1), (record::ACKNOWLEDGEMENT, 1)]);
    assert_eq!(write(&words, &mut out), Ok(137));
    assert_eq!(out, [&DEFINE_A[..], &[0xff; 2]].concat()[..]);
    let mut back = [7; RECORD_WORDS];
    assert_eq!(read(&DEFINE_A, 137, &mut back), Ok(()));
    assert_eq!(back, words);

    assert_eq!(write(&define(REMOVAL, 0), &mut out), Ok(50));
    assert_eq!(out[..7], REMOVE);
    assert_eq!(read(&REMOVE, 50, &mut back), Ok(()));
    assert_eq!(back, define(REMOVAL, 0));
    // The first bit left, though it is the first of a range type.
    let left = Refused { why: Refusal::Left, entry: None, place: Some(50) };
    assert_eq!(read(&REMOVE, 51, &mut back), Err(left));
}

#[test]
fn the_longest_has_1623_bits() {
    let mut words = define(REPLACEMENT, 3);
    words[record::SERVICE_COUNT..][..8].copy_from_slice(&[7, 3, 3, 3, 3, 3, 3, 3]);
    for list in [record::AFFECTED, record::GROUPS, record::RESTRICTED, record::EXCEPTIONS] {
        full(&mut words, list);
    }
    let mut out = [0; 203];
    assert_eq!(write(&words, &mut out), Ok(1623));
    let mut back = [7; RECORD_WORDS];
    assert_eq!(read(&out, 1623, &mut back), Ok(()));
    assert_eq!(back, words);
    assert_eq!(write(&words, &mut out[..202]), Err(Refusal::Room));
}

#[test]
fn the_bits_and_definition_types_cross() {
    for definition_type in 0..4 {
        for (delivery, acknowledgement) in [(0, 0), (0, 1), (1, 0), (1, 1)] {
            let asked = [(record::DELIVERY, delivery), (record::ACKNOWLEDGEMENT, acknowledgement)];
            let words = with(define(definition_type, 2), &asked);
            // A reserved definition type, and an acknowledgement without delivery.
            if definition_type == 3 || (delivery, acknowledgement) == (0, 1) {
                assert_eq!(refused(&words), Refusal::Value);
                continue;
            }
            let mut out = [0; 8];
            let bits = write(&words, &mut out).unwrap();
            assert_eq!(bits, if definition_type == REMOVAL { 50 } else { 62 });
            let mut back = [7; RECORD_WORDS];
            assert_eq!(read(&out[..bits.div_ceil(8)], bits, &mut back), Ok(()));
            assert_eq!(back, words);
        }
    }
}

#[test]
fn a_refused_value_has_its_turn() {
    // Before it a range of affected users that is reversed, behind it a range of groups.
    let affected = [(record::AFFECTED, 9), (record::AFFECTED + 1, 6), (record::AFFECTED + 4, 5)];
    let groups = [(record::GROUPS, 9), (record::GROUPS + 1, 2), (record::GROUPS + 4, 1)];
    let base = define_a(ADDITION);
    for place in [record::DELIVERY, record::ACKNOWLEDGEMENT] {
        for word in [1, 2, 1 << 16, u32::MAX] {
            // Delivery alone may be 1.
            if (place, word) == (record::DELIVERY, 1) {
                continue;
            }
            let words = with(base, &[(place, word)]);
            assert_eq!(refused(&words), Refusal::Value, "{word} in {place}");
            assert_eq!(refused(&with(words, &groups)), Refusal::Value, "{word} in {place}");
            assert_eq!(refused(&with(words, &affected)), Refusal::Ends, "{word} in {place}");
        }
    }
    // A wide delivery does not let a wide acknowledgement pass.
    let wide = with(base, &[(record::DELIVERY, 5), (record::ACKNOWLEDGEMENT, 3)]);
    assert_eq!(refused(&wide), Refusal::Value);
    assert_eq!(refused(&with(base, &groups)), Refusal::Ends);
    for definition_type in [3, 4, 256, u32::MAX] {
        assert_eq!(refused(&define(definition_type, 1)), Refusal::Value);
        assert_eq!(refused(&with(define(definition_type, 1), &affected)), Refusal::Ends);
    }
}

#[test]
fn what_is_not_carried_is_zero() {
    // A stray word gives 3 before the reversed affected users give 4.
    let affected = [(record::AFFECTED, 9), (record::AFFECTED + 1, 6), (record::AFFECTED + 4, 5)];
    let stray = |words: Record, places: &[usize]| {
        assert_eq!(refused(&with(words, &affected)), Refusal::Ends);
        for place in places {
            assert_eq!(refused(&with(with(words, &affected), &[(*place, 1)])), Refusal::Value, "{place}");
        }
    };
    let of_others = [
        record::INTERROGATION_TYPE,
        record::RESULT,
        record::DELIVERY_STATUS,
        record::RESTRICTED_NUMBERS,
        record::EXCEPTED_NUMBERS,
        record::DELIVERY - 1,
        record::DEFINITION_RESULT,
        record::DISTRIBUTION_RESULT,
        record::REJECTION_CAUSE,
    ];
    for definition_type in [ADDITION, REPLACEMENT] {
        stray(define_a(definition_type), &of_others);
        stray(
            define_a(definition_type),
            &[record::FIRST_SERVICE + 1, record::GROUPS + 1, record::GROUPS - 1],
        );
    }
    // Neither addition nor replacement: no lists.
    let lists = [record::GROUPS, record::RESTRICTED, record::EXCEPTIONS, record::RESTRICTED_NUMBERS - 1];
    for definition_type in [REMOVAL, 3, 4, u32::MAX] {
        stray(define(definition_type, 1), &of_others);
        stray(define(definition_type, 1), &lists);
    }
    // What only a DEFINE has.
    let mut interrogate = [0; RECORD_WORDS];
    interrogate[record::PDU_TYPE] = 11;
    interrogate[record::INTERROGATION_TYPE] = 1;
    for words in [interrogate, part(0, 1), part(1, 1), part(2, 1)] {
        stray(words, &[record::DELIVERY, record::ACKNOWLEDGEMENT, record::DEFINITION_TYPE]);
        stray(words, &[record::DEFINITION_RESULT, record::DISTRIBUTION_RESULT, record::REJECTION_CAUSE]);
    }
    // PDU types that are not written.
    for pdu_type in (0..5).chain(14..40) {
        assert_eq!(refused(&with(define_a(ADDITION), &[(record::PDU_TYPE, pdu_type)])), Refusal::Value);
    }
    for count in [514, 517, 519] {
        assert_eq!(write(&define_a(ADDITION)[..count], &mut [0; 20]), Err(Refusal::Range));
    }
}

#[test]
fn no_archive_holds_one() {
    let held = archive(&[profile_a()]);
    assert_eq!(why(capture(&held, &DEFINE_A, 137, 0, &mut [0; 100])), Err(Refusal::Unfit));
    assert_eq!(why(capture(&held, &REMOVE, 50, 0, &mut [])), Err(Refusal::Unfit));
}

#[test]
fn a_part_is_reloaded_as_it_is_held() {
    let held = archive(&[profile_a()]);
    let mut out = [7; 20];
    assert_eq!(reload(&held, 1, 5, 1, REPLACEMENT, 1, 1, &mut out), Ok(137));
    assert_eq!(out, [&DEFINE_A[..], &[7; 2]].concat()[..]);
    for definition_type in [ADDITION, REPLACEMENT] {
        for (delivery, acknowledgement) in [(0, 0), (1, 0), (1, 1)] {
            let asked = [(record::DELIVERY, delivery), (record::ACKNOWLEDGEMENT, acknowledgement)];
            let expected = with(define_a(definition_type), &asked);
            assert_eq!(reloaded(&held, 1, [definition_type, delivery, acknowledgement]), Ok((expected, 137)));
        }
    }

    // The home network spelt out, seven services, every list full.
    let mut words = part(1, 1);
    words[record::SERVICE_COUNT..][..8].copy_from_slice(&[7, 3, 0, 1, 1, 2, 0, 3]);
    words[record::AFFECTED + 2..][..2].copy_from_slice(&[1, 1]);
    for list in [record::GROUPS, record::RESTRICTED, record::EXCEPTIONS] {
        full(&mut words, list);
    }
    let asked = [(record::DELIVERY, 1), (record::DEFINITION_TYPE, ADDITION)];
    let no_ack = [(record::PDU_TYPE, 5), (record::RESULT, 0), (record::DELIVERY_STATUS, 0)];
    let expected = with(with(words, &no_ack), &asked);
    assert_eq!(reloaded(&archive(&[words]), 1, [ADDITION, 1, 0]), Ok((expected, 1280)));

    // A number part without numbers: its groups, and the lists of identities empty.
    let groups = [(record::GROUPS, 1), (record::GROUPS + 1, 500)];
    let held = archive(&[profile_a(), with(part(2, 3), &groups)]);
    let expected = with(define(REPLACEMENT, 3), &groups);
    assert_eq!(reloaded(&held, 2, [REPLACEMENT, 0, 0]), Ok((expected, 87)));

    // The removal of a part that restricts no one in particular.
    for result in [1, 2] {
        let held = archive(&[part(result, 0)]);
        assert_eq!(reloaded(&held, result, [REMOVAL, 0, 0]), Ok((define(REMOVAL, 0), 50)));
        assert_eq!(reloaded(&held, result, [ADDITION, 0, 0]), Ok((define(ADDITION, 0), 62)));
    }
}

#[test]
fn nothing_held_is_lost() {
    let entry = |list: usize| [(list, 1), (list + 1, 9)];
    for list in [record::GROUPS, record::RESTRICTED, record::EXCEPTIONS] {
        let held = archive(&[with(part(1, 1), &entry(list))]);
        assert_eq!(reloaded(&held, 1, [REMOVAL, 0, 0]), Err(Refusal::Loss), "{list}");
        assert!(reloaded(&held, 1, [ADDITION, 0, 0]).is_ok(), "{list}");
    }
    let held = archive(&[with(part(2, 1), &entry(record::GROUPS))]);
    assert_eq!(reloaded(&held, 2, [REMOVAL, 0, 0]), Err(Refusal::Loss));
    assert!(reloaded(&held, 2, [REPLACEMENT, 0, 0]).is_ok());
    for list in [record::RESTRICTED_NUMBERS, record::EXCEPTED_NUMBERS] {
        let held = archive(&[with(part(2, 1), &entry(list))]);
        for definition_type in [ADDITION, REPLACEMENT, REMOVAL] {
            assert_eq!(reloaded(&held, 2, [definition_type, 1, 1]), Err(Refusal::Loss), "{list}");
        }
    }
}

#[test]
fn the_order_of_refusals_of_a_reload() {
    let mut held = archive(&[profile_a()]);
    let mut out = [7; 64];
    // 12 before 8, 11 before 12 and 8.
    assert_eq!(why(reload(&held, 1, 5, 1, REMOVAL, 0, 0, &mut out[..0])), Err(Refusal::Loss));
    assert_eq!(why(reload(&held, 1, 5, 1, REPLACEMENT, 0, 0, &mut out[..17])), Err(Refusal::Room));
    for (network, ssi, part) in [(1, 5, 2), (1, 6, 1), (2, 5, 1)] {
        let answer = reload(&held, network, ssi, part, REMOVAL, 0, 0, &mut out[..0]);
        assert_eq!(why(answer), Err(Refusal::NotHeld));
    }
    // 9 before 7: user, part, definition type, delivery, acknowledgement, and that without delivery.
    held.push(0);
    assert_eq!(why(reload(&held, 1, 6, 1, REMOVAL, 0, 0, &mut out[..0])), Err(Refusal::Archive));
    for [network, ssi, part, definition_type, delivery, acknowledgement] in [
        [1 << 24, 5, 1, 0, 0, 0],
        [1, 1 << 24, 1, 0, 0, 0],
        [1, 5, 0, 0, 0, 0],
        [1, 5, 3, 0, 0, 0],
        [1, 5, 1, 3, 0, 0],
        [1, 5, 1, u32::MAX, 0, 0],
        [1, 5, 1, 0, 2, 0],
        [1, 5, 1, 0, 2, 1],
        [1, 5, 1, 0, 2, 2],
        [1, 5, 1, 0, 1, 2],
        [1, 5, 1, 0, u32::MAX, u32::MAX],
        [1, 5, 1, 0, 0, 1],
        [1, 5, 1, 2, 0, 1],
    ] {
        for archive in [&held[..], &held[..held.len() - 1]] {
            let answer =
                reload(archive, network, ssi, part, definition_type, delivery, acknowledgement, &mut out);
            assert_eq!(why(answer), Err(Refusal::Range));
        }
    }
    assert_eq!(out, [7; 64]);
}
