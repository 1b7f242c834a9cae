//! The PDUs that answer and distribute definitions, CALL BARRED, and the reload of a number part (document 02,
//! request 2026-06; the standard's tables 11 to 15 and 18).

use std::ops::Range;

use reference::layout::{record as at, RECORD_WORDS};
use reference::{capture, empty, read, reload_external, write, Refusal, Refused};

type Record = [u32; RECORD_WORDS];

const ADDITION: u32 = 0;
const REPLACEMENT: u32 = 1;
const REMOVAL: u32 = 2;

/// A PDU, each element in binary, and the words of its record that are not zero.
struct Example {
    bits: &'static str,
    words: &'static [(usize, u32)],
}

/// User 5: DEFINE ACK, accepted by SwMI.
const DEFINE_ACK: Example = Example {
    bits: "010010 00110 0001 000000000000000000000101 0 001",
    words: &[(at::PDU_TYPE, 6), (at::AFFECTED, 1), (at::AFFECTED + 1, 5), (at::DEFINITION_RESULT, 1)],
};
/// User 5: DEFINE EXTERNAL, which replaces all services, is delivered and acknowledged; group 500 of network
/// 2, restricted 112 and 0, except +.
const DEFINE_EXTERNAL: Example = Example {
    bits: "010010 00111 0001 000000000000000000000101 0 1 1 01 001 000 \
           0001 000000000000000111110100 1 000000000000000000000010 \
           0010 00011 0001 0001 0010 00001 0000 0001 00001 1100",
    words: &[
        (at::PDU_TYPE, 7),
        (at::AFFECTED, 1),
        (at::AFFECTED + 1, 5),
        (at::DELIVERY, 1),
        (at::ACKNOWLEDGEMENT, 1),
        (at::DEFINITION_TYPE, REPLACEMENT),
        (at::SERVICE_COUNT, 1),
        (at::GROUPS, 1),
        (at::GROUPS + 1, 500),
        (at::GROUPS + 2, 1),
        (at::GROUPS + 3, 2),
        (at::RESTRICTED_NUMBERS, 2),
        (at::RESTRICTED_NUMBERS + 1, 3),
        (at::RESTRICTED_NUMBERS + 2, 1),
        (at::RESTRICTED_NUMBERS + 3, 1),
        (at::RESTRICTED_NUMBERS + 4, 2),
        (at::RESTRICTED_NUMBERS + 26, 1),
        (at::EXCEPTED_NUMBERS, 1),
        (at::EXCEPTED_NUMBERS + 1, 1),
        (at::EXCEPTED_NUMBERS + 2, 12),
    ],
};
/// User 5: DEFINE EXTERNAL, which removes speech.
const REMOVE_EXTERNAL: Example = Example {
    bits: "010010 00111 0001 000000000000000000000101 0 0 0 10 001 001",
    words: &[
        (at::PDU_TYPE, 7),
        (at::AFFECTED, 1),
        (at::AFFECTED + 1, 5),
        (at::DEFINITION_TYPE, REMOVAL),
        (at::SERVICE_COUNT, 1),
        (at::FIRST_SERVICE, 1),
    ],
};
/// DEFINE USER, which adds data and short data and is acknowledged: restricted 100 to 199, except 150.
const DEFINE_USER: Example = Example {
    bits: "010010 01000 1 00 010 010 011 0000 \
           1001 000000000000000001100100 0 000000000000000011000111 0 \
           0001 000000000000000010010110 0",
    words: &[
        (at::PDU_TYPE, 8),
        (at::ACKNOWLEDGEMENT, 1),
        (at::SERVICE_COUNT, 2),
        (at::FIRST_SERVICE, 2),
        (at::FIRST_SERVICE + 1, 3),
        (at::RESTRICTED, 9),
        (at::RESTRICTED + 1, 100),
        (at::RESTRICTED + 4, 199),
        (at::EXCEPTIONS, 1),
        (at::EXCEPTIONS + 1, 150),
    ],
};
/// DEFINE USER, which removes all services.
const REMOVE_USER: Example = Example {
    bits: "010010 01000 0 10 001 000",
    words: &[(at::PDU_TYPE, 8), (at::DEFINITION_TYPE, REMOVAL), (at::SERVICE_COUNT, 1)],
};
/// DEFINE USER ACK: parameters not valid.
const DEFINE_USER_ACK: Example =
    Example { bits: "010010 01001 110", words: &[(at::PDU_TYPE, 9), (at::DISTRIBUTION_RESULT, 6)] };
/// DEFINE EXTERNAL USER, which replaces speech: group 500, restricted 8 of network 2, no exceptions.
const DEFINE_EXTERNAL_USER: Example = Example {
    bits: "010010 01010 0 01 001 001 0001 000000000000000111110100 0 \
           0001 000000000000000000001000 1 000000000000000000000010 0000",
    words: &[
        (at::PDU_TYPE, 10),
        (at::DEFINITION_TYPE, REPLACEMENT),
        (at::SERVICE_COUNT, 1),
        (at::FIRST_SERVICE, 1),
        (at::GROUPS, 1),
        (at::GROUPS + 1, 500),
        (at::RESTRICTED, 1),
        (at::RESTRICTED + 1, 8),
        (at::RESTRICTED + 2, 1),
        (at::RESTRICTED + 3, 2),
    ],
};
/// CALL BARRED: restricted destination address.
const CALL_BARRED: Example =
    Example { bits: "010010 01101 10", words: &[(at::PDU_TYPE, 13), (at::REJECTION_CAUSE, 2)] };

const EXAMPLES: [Example; 8] = [
    DEFINE_ACK,
    DEFINE_EXTERNAL,
    REMOVE_EXTERNAL,
    DEFINE_USER,
    REMOVE_USER,
    DEFINE_USER_ACK,
    DEFINE_EXTERNAL_USER,
    CALL_BARRED,
];

impl Example {
    fn record(&self) -> Record {
        with([0; RECORD_WORDS], self.words)
    }

    /// Its bytes, and how many bits they hold.
    fn pdu(&self) -> (Vec<u8>, usize) {
        let bits: Vec<u8> = self.bits.bytes().filter(|c| *c != b' ').map(|c| c - b'0').collect();
        let byte = |bits: &[u8]| (0..8).fold(0, |byte, i| byte << 1 | bits.get(i).unwrap_or(&0));
        (bits.chunks(8).map(byte).collect(), bits.len())
    }
}

/// With some words changed.
fn with(mut words: Record, changes: &[(usize, u32)]) -> Record {
    changes.iter().for_each(|(place, word)| words[*place] = *word);
    words
}

fn why<T>(answer: Result<T, Refused>) -> Result<T, Refusal> {
    answer.map_err(|refused| refused.why)
}

/// A legal record is written in so many bits, and read from them.
fn crosses(words: &Record, bits: usize) {
    let mut out = [7; 512];
    assert_eq!(write(words, &mut out), Ok(bits));
    let (pdu, after) = out.split_at(bits.div_ceil(8));
    assert!(after.iter().all(|byte| *byte == 7));
    let mut back = [7; RECORD_WORDS];
    assert_eq!(read(pdu, bits, &mut back), Ok(()));
    assert_eq!(back, *words);
    assert_eq!(write(words, &mut vec![0; pdu.len() - 1]), Err(Refusal::Room));
}

/// What a record is refused with; nothing is written.
fn refused(words: &Record) -> Refusal {
    let mut out = [7; 512];
    let refusal = write(words, &mut out).unwrap_err();
    assert_eq!(out, [7; 512]);
    refusal
}

#[test]
fn examples() {
    for example in EXAMPLES {
        let (pdu, bits) = example.pdu();
        let mut out = vec![0xff; pdu.len() + 1];
        assert_eq!(write(&example.record(), &mut out), Ok(bits));
        assert_eq!(out, [&pdu[..], &[0xff]].concat());
        let mut words = [7; RECORD_WORDS];
        assert_eq!(read(&pdu, bits, &mut words), Ok(()));
        assert_eq!(words, example.record());
        crosses(&words, bits);
        // No archive holds one.
        assert_eq!(why(capture(&[0, 0, 1, 0, 0], &pdu, bits, 0, &mut [0; 400])), Err(Refusal::Unfit));
    }
}

/// Each list full, and each entry as long as can be; seven services.
fn longest(example: &Example, identities: &[usize], numbers: &[usize]) -> Record {
    let mut words = example.record();
    if words[at::SERVICE_COUNT] > 0 {
        words[at::SERVICE_COUNT..][..8].copy_from_slice(&[7, 3, 3, 3, 3, 3, 3, 3]);
    }
    for list in identities {
        words[*list] = 8;
        for i in 0..8 {
            words[list + 1 + 3 * i..][..3].copy_from_slice(&[0xff_ffff, 1, 0xff_ffff - i as u32]);
        }
    }
    for list in numbers {
        words[*list] = 8;
        for i in 0..8 {
            words[list + 1 + 25 * i] = 24;
            words[list + 2 + 25 * i..][..24].fill(12 - i as u32);
        }
    }
    words
}

#[test]
fn the_longest_of_each() {
    let lists = [at::GROUPS, at::RESTRICTED, at::EXCEPTIONS];
    let numbers = [at::RESTRICTED_NUMBERS, at::EXCEPTED_NUMBERS];
    crosses(&longest(&DEFINE_ACK, &[at::AFFECTED], &[]), 410);
    crosses(&longest(&DEFINE_EXTERNAL, &[at::AFFECTED, at::GROUPS], &numbers), 2455);
    crosses(&longest(&DEFINE_USER, &lists, &[]), 1226);
    crosses(&longest(&DEFINE_EXTERNAL_USER, &lists, &[]), 1226);
    crosses(&longest(&DEFINE_USER_ACK, &[], &[]), 14);
    crosses(&longest(&CALL_BARRED, &[], &[]), 13);
}

#[test]
fn each_code_crosses_and_each_other_value_is_refused() {
    let elements: [(&[Example], usize, &[u32]); 5] = [
        (&[DEFINE_ACK], at::DEFINITION_RESULT, &[0, 1, 2, 3, 4, 6, 7]),
        (&[DEFINE_USER_ACK], at::DISTRIBUTION_RESULT, &[0, 1, 6, 7]),
        (&[CALL_BARRED], at::REJECTION_CAUSE, &[0, 1, 2]),
        (&[REMOVE_EXTERNAL, REMOVE_USER], at::DEFINITION_TYPE, &[0, 1, 2]),
        (&[DEFINE_USER, DEFINE_EXTERNAL_USER], at::ACKNOWLEDGEMENT, &[0, 1]),
    ];
    for (examples, place, codes) in elements {
        for example in examples {
            for word in (0..40).chain([255, 256, 1 << 16, 1 << 31, u32::MAX]) {
                let words = with(example.record(), &[(place, word)]);
                if !codes.contains(&word) {
                    assert_eq!(refused(&words), Refusal::Value, "{word} in {place}");
                    continue;
                }
                // Addition and replacement have three range types more than a removal.
                let lists = if place == at::DEFINITION_TYPE && word != REMOVAL { 12 } else { 0 };
                crosses(&words, example.pdu().1 + lists);
            }
        }
    }
    // A DEFINE EXTERNAL is acknowledged only with delivery.
    for (delivery, acknowledgement, legal) in [(0, 0, true), (1, 0, true), (1, 1, true), (0, 1, false)] {
        let asked = [(at::DELIVERY, delivery), (at::ACKNOWLEDGEMENT, acknowledgement)];
        let words = with(REMOVE_EXTERNAL.record(), &asked);
        if legal {
            crosses(&words, 50);
        } else {
            assert_eq!(refused(&words), Refusal::Value);
        }
    }
    for wide in [[2, 0], [2, 2], [3, 1], [1, 2], [u32::MAX, u32::MAX]] {
        let asked = [(at::DELIVERY, wide[0]), (at::ACKNOWLEDGEMENT, wide[1])];
        assert_eq!(refused(&with(REMOVE_EXTERNAL.record(), &asked)), Refusal::Value);
    }
}

/// The places of the elements that are codes, but for the number of services.
const CODES: [usize; 9] = [
    at::INTERROGATION_TYPE,
    at::RESULT,
    at::DELIVERY_STATUS,
    at::DELIVERY,
    at::ACKNOWLEDGEMENT,
    at::DEFINITION_TYPE,
    at::DEFINITION_RESULT,
    at::DISTRIBUTION_RESULT,
    at::REJECTION_CAUSE,
];

/// A PDU, what it does not carry, and which codes it does.
type Form<'a> = (Example, &'a [Range<usize>], &'a [usize]);

#[test]
fn what_is_not_carried_is_zero() {
    const USERS: Range<usize> = at::AFFECTED..at::INTERROGATION_TYPE;
    const SERVICES: Range<usize> = at::SERVICE_COUNT..at::GROUPS;
    const LISTS: Range<usize> = at::GROUPS..at::DELIVERY;
    const IDENTITIES: Range<usize> = at::RESTRICTED..at::RESTRICTED_NUMBERS;
    const NUMBERS: Range<usize> = at::RESTRICTED_NUMBERS..at::DELIVERY;
    const DEFINITION: &[usize] = &[at::DELIVERY, at::ACKNOWLEDGEMENT, at::DEFINITION_TYPE];
    const TO_A_USER: &[usize] = &[at::ACKNOWLEDGEMENT, at::DEFINITION_TYPE];
    let forms: [Form; 8] = [
        (DEFINE_ACK, &[SERVICES, LISTS], &[at::DEFINITION_RESULT]),
        (DEFINE_EXTERNAL, &[IDENTITIES], DEFINITION),
        (REMOVE_EXTERNAL, &[LISTS], DEFINITION),
        (DEFINE_USER, &[USERS, NUMBERS], TO_A_USER),
        (REMOVE_USER, &[USERS, LISTS], TO_A_USER),
        (DEFINE_USER_ACK, &[USERS, SERVICES, LISTS], &[at::DISTRIBUTION_RESULT]),
        (DEFINE_EXTERNAL_USER, &[USERS, NUMBERS], TO_A_USER),
        (CALL_BARRED, &[USERS, SERVICES, LISTS], &[at::REJECTION_CAUSE]),
    ];
    for (example, not_carried, codes) in forms {
        for place in 0..RECORD_WORDS {
            let stray = not_carried.iter().any(|places| places.contains(&place))
                || CODES.contains(&place) && !codes.contains(&place);
            for word in [1, u32::MAX] {
                let words = with(example.record(), &[(place, word)]);
                let answer = write(&words, &mut [0; 512]);
                if stray {
                    assert_eq!(answer, Err(Refusal::Value), "{word} in {place} of {}", example.bits);
                } else if let Ok(bits) = answer {
                    crosses(&words, bits);
                }
            }
        }
    }
    // A removal, and a definition type that is none, have no lists: a stray word gives 3 before the reversed
    // users give 4.
    let reversed = [(at::AFFECTED, 9), (at::AFFECTED + 1, 6), (at::AFFECTED + 4, 5)];
    for definition_type in [REMOVAL, 3, 4, u32::MAX] {
        let words = with(REMOVE_EXTERNAL.record(), &[(at::DEFINITION_TYPE, definition_type)]);
        assert_eq!(refused(&with(words, &reversed)), Refusal::Ends);
        for list in [at::GROUPS, at::RESTRICTED_NUMBERS, at::EXCEPTED_NUMBERS] {
            assert_eq!(refused(&with(with(words, &reversed), &[(list, 1)])), Refusal::Value);
        }
    }
}

#[test]
fn a_record_is_of_its_own_pdu_type() {
    for example in EXAMPLES {
        for pdu_type in (0..5).chain(14..40).chain([u32::MAX]) {
            assert_eq!(refused(&with(example.record(), &[(at::PDU_TYPE, pdu_type)])), Refusal::Value);
        }
    }
    // A DEFINE USER and a DEFINE EXTERNAL USER have the same elements.
    crosses(&with(DEFINE_USER.record(), &[(at::PDU_TYPE, 10)]), DEFINE_USER.pdu().1);
    crosses(&with(DEFINE_EXTERNAL_USER.record(), &[(at::PDU_TYPE, 8)]), DEFINE_EXTERNAL_USER.pdu().1);
}

/// The number part of user 5 that `DEFINE_EXTERNAL` is the reload of, but for what changes there.
fn number_part() -> Record {
    let ack = [(at::PDU_TYPE, 12), (at::RESULT, 2), (at::DELIVERY_STATUS, 1)];
    let undefined = [(at::DELIVERY, 0), (at::ACKNOWLEDGEMENT, 0), (at::DEFINITION_TYPE, 0)];
    with(with(DEFINE_EXTERNAL.record(), &ack), &undefined)
}

/// A number part of user 5 for speech, without entries in its lists.
fn bare_part() -> Record {
    let words = [(at::PDU_TYPE, 12), (at::AFFECTED, 1), (at::AFFECTED + 1, 5), (at::RESULT, 2)];
    with(with([0; RECORD_WORDS], &words), &[(at::SERVICE_COUNT, 1), (at::FIRST_SERVICE, 1)])
}

/// The archive of home network 1 that holds these parts.
fn archive(parts: &[Record]) -> Vec<u8> {
    let mut held = vec![0; 5];
    empty(1, &mut held).unwrap();
    for words in parts {
        let mut pdu = [0; 307];
        let bits = write(words, &mut pdu).unwrap();
        let mut next = vec![0; 65_536];
        let length = capture(&held, &pdu[..bits.div_ceil(8)], bits, 0, &mut next).unwrap();
        next.truncate(length);
        held = next;
    }
    held
}

#[test]
fn a_number_part_is_reloaded_as_it_is_held() {
    let held = archive(&[number_part()]);
    let (pdu, bits) = DEFINE_EXTERNAL.pdu();
    let mut out = vec![7; pdu.len() + 2];
    assert_eq!(reload_external(&held, 1, 5, REPLACEMENT, 1, 1, &mut out), Ok(bits));
    assert_eq!(out, [&pdu[..], &[7; 2]].concat());
    for definition_type in [ADDITION, REPLACEMENT] {
        for [delivery, acknowledgement] in [[0, 0], [1, 0], [1, 1]] {
            let mut back = [0; RECORD_WORDS];
            let length =
                reload_external(&held, 1, 5, definition_type, delivery, acknowledgement, &mut out).unwrap();
            assert_eq!(read(&out[..length.div_ceil(8)], length, &mut back), Ok(()));
            let asked = [
                (at::DELIVERY, delivery),
                (at::ACKNOWLEDGEMENT, acknowledgement),
                (at::DEFINITION_TYPE, definition_type),
            ];
            assert_eq!(back, with(DEFINE_EXTERNAL.record(), &asked));
        }
    }

    // The longest part of one user whose network is spelt out.
    let numbers = [at::RESTRICTED_NUMBERS, at::EXCEPTED_NUMBERS];
    let mut words = longest(&DEFINE_EXTERNAL, &[at::GROUPS], &numbers);
    words[at::AFFECTED + 2..][..2].copy_from_slice(&[1, 2]);
    let part = with(words, &[(at::PDU_TYPE, 12), (at::RESULT, 2)]);
    let part = with(part, &[(at::DELIVERY, 0), (at::ACKNOWLEDGEMENT, 0), (at::DEFINITION_TYPE, ADDITION)]);
    let held = archive(&[part]);
    let (mut out, mut back) = ([0; 307], [0; RECORD_WORDS]);
    assert_eq!(reload_external(&held, 2, 5, REPLACEMENT, 1, 1, &mut out), Ok(2455 - 7 * 49));
    assert_eq!(read(&out[..264], 2455 - 7 * 49, &mut back), Ok(()));
    assert_eq!(back, words);

    // The removal of a part that restricts no number in particular.
    let (pdu, bits) = REMOVE_EXTERNAL.pdu();
    assert_eq!(reload_external(&archive(&[bare_part()]), 1, 5, REMOVAL, 0, 0, &mut out), Ok(bits));
    assert_eq!(out[..pdu.len()], pdu);
}

#[test]
fn a_removal_loses_no_list() {
    for list in [at::GROUPS, at::RESTRICTED_NUMBERS, at::EXCEPTED_NUMBERS] {
        let held = archive(&[with(bare_part(), &[(list, 1), (list + 1, 9)])]);
        assert_eq!(why(reload_external(&held, 1, 5, REMOVAL, 1, 1, &mut [0; 64])), Err(Refusal::Loss));
        assert!(reload_external(&held, 1, 5, ADDITION, 1, 1, &mut [0; 64]).is_ok());
    }
}

#[test]
fn the_order_of_refusals_of_a_reload() {
    let identities = with(bare_part(), &[(at::RESULT, 1), (at::AFFECTED + 1, 6)]);
    let mut held = archive(&[number_part(), identities]);
    let length = DEFINE_EXTERNAL.pdu().0.len();
    let mut out = [7; 64];
    // 12 before 8, 11 before 12 and 8. User 6 has an identity part alone.
    assert_eq!(why(reload_external(&held, 1, 5, REMOVAL, 0, 0, &mut out[..0])), Err(Refusal::Loss));
    let short = &mut out[..length - 1];
    assert_eq!(why(reload_external(&held, 1, 5, REPLACEMENT, 0, 0, short)), Err(Refusal::Room));
    for (network, ssi) in [(1, 6), (1, 7), (2, 5)] {
        let answer = reload_external(&held, network, ssi, REMOVAL, 0, 0, &mut out[..0]);
        assert_eq!(why(answer), Err(Refusal::NotHeld));
    }
    // 9 before 7: user, definition type, delivery, acknowledgement, and that without delivery.
    held.push(0);
    assert_eq!(why(reload_external(&held, 1, 6, REMOVAL, 0, 0, &mut out[..0])), Err(Refusal::Archive));
    for [network, ssi, definition_type, delivery, acknowledgement] in [
        [1 << 24, 5, 0, 0, 0],
        [1, 1 << 24, 0, 0, 0],
        [1, 5, 3, 0, 0],
        [1, 5, u32::MAX, 0, 0],
        [1, 5, 0, 2, 0],
        [1, 5, 0, 2, 1],
        [1, 5, 0, 2, 2],
        [1, 5, 0, 1, 2],
        [1, 5, 0, u32::MAX, u32::MAX],
        [1, 5, 0, 0, 1],
        [1, 5, 2, 0, 1],
    ] {
        for archive in [&held[..], &held[..held.len() - 1]] {
            let answer =
                reload_external(archive, network, ssi, definition_type, delivery, acknowledgement, &mut out);
            assert_eq!(why(answer), Err(Refusal::Range));
        }
    }
    assert_eq!(out, [7; 64]);
}
