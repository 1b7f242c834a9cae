//! The profiles and examples of the scope (document 01), and the orders of its refusals.

use reference::layout::{record, request, RECORD_WORDS, REQUEST_WORDS};
use reference::{
    capture, contents, decide, empty, read, restore, write, Decision, Refusal, Refused, Restored,
};

/// Profile A as a PDU of 138 bits.
const A: [u8; 18] = [
    0x49, 0x82, 0x00, 0x00, 0x0a, 0x21, 0x21, 0x20, 0x00, 0x0c, 0x80, 0x00, 0x0c, 0x70, 0x80, 0x00, 0x4b,
    0x00,
];
/// The day that every PDU here is captured under.
const DAY: u16 = 300;
/// INTERROGATE for user 5, of 42 bits.
const INTERROGATE: [u8; 6] = [0x49, 0x62, 0x00, 0x00, 0x0a, 0x40];

type Record = [u32; RECORD_WORDS];

/// Why a call was refused, wherever it stopped.
fn why<T>(answer: Result<T, Refused>) -> Result<T, Refusal> {
    answer.map_err(|refused| refused.why)
}

fn list(words: &mut Record, list: usize, code: u32, ssis: &[u32]) {
    words[list] = code;
    for (i, ssi) in ssis.iter().enumerate() {
        words[list + 1 + 3 * i] = *ssi;
    }
}

fn profile(service: u32, groups: &[u32], restricted: (u32, &[u32]), exceptions: &[u32]) -> Record {
    let mut words = [0; RECORD_WORDS];
    words[record::PDU_TYPE] = 12;
    list(&mut words, record::AFFECTED, 1, &[5]);
    words[record::RESULT] = 1;
    words[record::SERVICE_COUNT] = 1;
    words[record::FIRST_SERVICE] = service;
    list(&mut words, record::GROUPS, groups.len() as u32, groups);
    list(&mut words, record::RESTRICTED, restricted.0, restricted.1);
    list(&mut words, record::EXCEPTIONS, exceptions.len() as u32, exceptions);
    words
}

fn profile_a() -> Record {
    profile(1, &[], (9, &[100, 199]), &[150])
}

/// A's lists for a user of network 2.
fn visitor_a() -> Record {
    let mut words = profile_a();
    words[record::AFFECTED + 2..][..2].copy_from_slice(&[1, 2]);
    words
}

fn number_profile(digits: &[u32]) -> Record {
    let mut words = profile(1, &[], (0, &[]), &[]);
    words[record::RESULT] = 2;
    words[record::RESTRICTED_NUMBERS] = 1;
    words[record::RESTRICTED_NUMBERS + 1] = digits.len() as u32;
    words[record::RESTRICTED_NUMBERS + 2..][..digits.len()].copy_from_slice(digits);
    words
}

fn archive_with(words: &Record) -> Vec<u8> {
    let mut old = [0; 5];
    let mut pdu = [0; 512];
    let mut new = vec![0; 600];
    empty(1, &mut old).unwrap();
    let bits = write(words, &mut pdu).unwrap();
    let length = capture(&old, &pdu[..bits.div_ceil(8)], bits, DAY.into(), &mut new).unwrap();
    new.truncate(length);
    new
}

fn call(service: u32, to: [u32; 2], group: Option<[u32; 2]>) -> [u32; REQUEST_WORDS] {
    let mut words = [0; REQUEST_WORDS];
    words[..6].copy_from_slice(&[1, 5, service, 1, to[0], to[1]]);
    if let Some([network, ssi]) = group {
        words[request::GROUP_GIVEN..].copy_from_slice(&[1, network, ssi]);
    }
    words
}

fn call_number(digits: &[u32]) -> [u32; REQUEST_WORDS] {
    let mut words = [0; REQUEST_WORDS];
    words[..4].copy_from_slice(&[1, 5, 1, 2]);
    words[request::LENGTH] = digits.len() as u32;
    words[request::FIRST_DIGIT..][..digits.len()].copy_from_slice(digits);
    words
}

#[test]
fn profiles() {
    use Decision::*;
    let a = archive_with(&profile_a());
    let b = archive_with(&profile(0, &[], (0, &[]), &[7]));
    let c = archive_with(&profile(1, &[500], (1, &[8]), &[]));
    let cases = [
        (&a, call(1, [1, 100], None), RestrictedDestination),
        (&a, call(1, [1, 199], None), RestrictedDestination),
        (&a, call(1, [1, 200], None), Allowed),
        (&a, call(1, [1, 99], None), Allowed),
        (&a, call(1, [1, 150], None), Allowed),
        (&a, call(2, [1, 100], None), Allowed),
        (&a, call(1, [2, 100], None), Allowed),
        (&b, call(3, [1, 8], None), RestrictedService),
        (&b, call(3, [1, 7], None), Allowed),
        (&c, call(1, [1, 9], Some([1, 500])), Allowed),
        (&c, call(1, [1, 9], None), OutsideGroup),
        (&c, call(1, [1, 8], Some([1, 500])), RestrictedDestination),
        (&a, call_number(&[1, 1, 2]), NotHeld),
    ];
    for (i, (archive, request, decision)) in cases.iter().enumerate() {
        assert_eq!(decide(archive, request), Ok(*decision), "P{}", i + 1);
    }
}

/// P15 and P16 (document 02, request 2026-04): a missing extension means the network of the affected user.
#[test]
fn visitors() {
    use Decision::*;
    let from = |network: u32, mut call: [u32; REQUEST_WORDS]| {
        call[request::USER_NETWORK] = network;
        call
    };
    let a = archive_with(&visitor_a());
    assert_eq!(decide(&a, &from(2, call(1, [2, 100], None))), Ok(RestrictedDestination), "P15");
    assert_eq!(decide(&a, &from(2, call(1, [1, 100], None))), Ok(Allowed), "P16");
    assert_eq!(decide(&a, &from(2, call(1, [2, 150], None))), Ok(Allowed));
    assert_eq!(decide(&a, &from(1, call(1, [2, 100], None))), Ok(NotHeld));

    // A group without extension is of the visitor's network too, in either part.
    let mut words = profile(1, &[500], (1, &[8]), &[]);
    words[record::AFFECTED + 2..][..2].copy_from_slice(&[1, 2]);
    let c = archive_with(&words);
    assert_eq!(decide(&c, &from(2, call(1, [2, 9], Some([2, 500])))), Ok(Allowed));
    assert_eq!(decide(&c, &from(2, call(1, [2, 9], Some([1, 500])))), Ok(OutsideGroup));
    let mut words = number_profile(&[1, 1, 2]);
    words[record::AFFECTED + 2..][..2].copy_from_slice(&[1, 2]);
    list(&mut words, record::GROUPS, 1, &[500]);
    let numbers = archive_with(&words);
    let dial = |group: [u32; 2]| {
        let mut call = from(2, call_number(&[1, 1, 3]));
        call[request::GROUP_GIVEN..].copy_from_slice(&[1, group[0], group[1]]);
        call
    };
    assert_eq!(decide(&numbers, &dial([2, 500])), Ok(Allowed));
    assert_eq!(decide(&numbers, &dial([1, 500])), Ok(OutsideGroup));

    // The home network spelt out judges as no extension does.
    let mut words = profile_a();
    words[record::AFFECTED + 2..][..2].copy_from_slice(&[1, 1]);
    let a = archive_with(&words);
    assert_eq!(decide(&a, &call(1, [1, 100], None)), Ok(RestrictedDestination));
    assert_eq!(decide(&a, &call(1, [2, 100], None)), Ok(Allowed));
}

#[test]
fn examples_of_lengths() {
    let mut out = [0xff; 20];
    assert_eq!(write(&profile_a(), &mut out), Ok(138));
    assert_eq!(out, [&A[..], &[0xff; 2]].concat()[..]);

    let mut words = [0; RECORD_WORDS];
    words[record::PDU_TYPE] = 11;
    list(&mut words, record::AFFECTED, 1, &[5]);
    words[record::INTERROGATION_TYPE] = 1;
    assert_eq!(write(&words, &mut out), Ok(42));
    assert_eq!(out[..6], INTERROGATE);

    let mut back = [7; RECORD_WORDS];
    assert_eq!(read(&INTERROGATE, 42, &mut back), Ok(()));
    assert_eq!(back, words);
    assert_eq!(read(&A, 138, &mut back), Ok(()));
    assert_eq!(back, profile_a());
}

#[test]
fn longest_pdus() {
    let full = |words: &mut Record, list: usize| {
        words[list] = 8;
        for i in 0..8 {
            words[list + 1 + 3 * i..][..3].copy_from_slice(&[0xff_ffff, 1, 0xff_ffff]);
        }
    };
    let mut interrogate = [0; RECORD_WORDS];
    interrogate[record::PDU_TYPE] = 11;
    interrogate[record::INTERROGATION_TYPE] = 3;
    full(&mut interrogate, record::AFFECTED);
    let mut out = [0; 307];
    assert_eq!(write(&interrogate, &mut out), Ok(409));

    let mut words = number_profile(&[]);
    full(&mut words, record::AFFECTED);
    full(&mut words, record::GROUPS);
    words[record::SERVICE_COUNT] = 7;
    words[record::FIRST_SERVICE..][..7].copy_from_slice(&[3; 7]);
    for list in [record::RESTRICTED_NUMBERS, record::EXCEPTED_NUMBERS] {
        words[list] = 8;
        for i in 0..8 {
            words[list + 1 + 25 * i] = 24;
            words[list + 2 + 25 * i..][..24].copy_from_slice(&[12; 24]);
        }
    }
    assert_eq!(write(&words, &mut out), Ok(2456));
    assert_eq!(write(&words, &mut out[..306]), Err(Refusal::Room));
    let mut back = [7; RECORD_WORDS];
    assert_eq!(read(&out, 2456, &mut back), Ok(()));
    assert_eq!(back, words);
}

#[test]
fn ranges_and_lengths() {
    let mut out = [0; 512];
    assert!(write(&profile(1, &[], (9, &[199, 199]), &[]), &mut out).is_ok());
    assert_eq!(write(&profile(1, &[], (9, &[200, 199]), &[]), &mut out), Err(Refusal::Ends));
    assert!(write(&number_profile(&[9; 24]), &mut out).is_ok());
    let mut long = number_profile(&[9; 24]);
    long[record::RESTRICTED_NUMBERS + 1] = 25;
    assert_eq!(write(&long, &mut out), Err(Refusal::Value));
}

#[test]
fn example_archive() {
    let archive = archive_with(&profile_a());
    let head = [0, 0, 1, 0, 1, 0, 0, 1, 0, 0, 5, 1, 0, 0x8a, 0x01, 0x2c];
    assert_eq!(archive, [&head[..], &A].concat());
    assert_eq!(archive.len(), 34);
    let mut out = [0; 64];
    let length = contents(&archive, &mut out).unwrap();
    assert_eq!(&out[..length], b"home 1 entries 1\n1 5 part 1 bits 138 day 300\n");
    assert_eq!(why(contents(&archive, &mut [0; 44])), Err(Refusal::Room));
    assert_eq!(restore(&archive, 1, 5, 1, &mut out), Ok(Restored { bits: 138, day: DAY }));
    assert_eq!(out[..18], A);
}

#[test]
fn the_home_network_spelt_out_is_the_same_user() {
    let archive = archive_with(&profile_a());
    let mut words = profile_a();
    words[record::AFFECTED + 2..][..2].copy_from_slice(&[1, 1]);
    let mut pdu = [0; 512];
    let bits = write(&words, &mut pdu).unwrap();
    let mut new = [0; 100];
    let length = capture(&archive, &pdu[..bits.div_ceil(8)], bits, DAY.into(), &mut new).unwrap();
    assert_eq!(length, 5 + 11 + bits.div_ceil(8));
    let mut out = [0; 64];
    assert_eq!(restore(&new[..length], 1, 5, 1, &mut out), Ok(Restored { bits: 162, day: DAY }));
}

#[test]
fn orders_of_refusals() {
    let mut words = [7; RECORD_WORDS];
    assert_eq!(why(read(&A, 137, &mut words)), Err(Refusal::Short));
    assert_eq!(why(read(&[], 0, &mut words)), Err(Refusal::Short));
    assert_eq!(why(read(&[0], 0, &mut words)), Err(Refusal::Frame));
    assert_eq!(why(read(&[0; 512], 4096, &mut words)), Err(Refusal::Value));
    assert_eq!(why(read(&[0; 513], 4097, &mut words)), Err(Refusal::Frame));
    assert_eq!(why(read(&A, usize::MAX, &mut words)), Err(Refusal::Frame));
    assert_eq!(why(read(&A, 144, &mut words)), Err(Refusal::Left));
    assert_eq!(why(read(&[0x48, 0x40], 11, &mut words)), Err(Refusal::Value));
    assert_eq!(why(read(&[0x49, 0xc0], 11, &mut words)), Err(Refusal::Value));
    assert_eq!(why(read(&[0x49, 0x80], 11, &mut words)), Err(Refusal::Short));
    assert_eq!(why(read(&A, 138, &mut words[1..])), Err(Refusal::Range));
    assert!(words.iter().all(|word| *word == 7));

    // A stray value far behind a reversed range gives 3, not 4.
    let mut stray = profile(1, &[], (9, &[200, 199]), &[]);
    stray[RECORD_WORDS - 1] = 1;
    let mut out = [7; 64];
    assert_eq!(write(&stray, &mut out), Err(Refusal::Value));
    assert_eq!(write(&profile(1, &[], (9, &[200, 199]), &[1 << 24]), &mut out), Err(Refusal::Ends));
    assert_eq!(write(&profile(1, &[], (9, &[200, 1 << 24]), &[]), &mut out), Err(Refusal::Value));

    let mut archive = archive_with(&profile_a());
    assert_eq!(why(capture(&archive, &INTERROGATE, 42, 0, &mut out[..0])), Err(Refusal::Unfit));
    assert_eq!(why(restore(&archive, 1, 6, 1, &mut out[..0])), Err(Refusal::NotHeld));
    assert_eq!(why(restore(&archive, 1, 5, 1, &mut out[..17])), Err(Refusal::Room));
    archive.push(0);
    assert_eq!(why(capture(&archive, &A, 137, 65_536, &mut out)), Err(Refusal::Range));
    assert_eq!(why(capture(&archive, &A, 137, 65_535, &mut out)), Err(Refusal::Archive));
    assert_eq!(why(restore(&archive, 1, 6, 1, &mut out)), Err(Refusal::Archive));
    assert_eq!(why(restore(&archive, 1, 5, 3, &mut out)), Err(Refusal::Range));
    assert_eq!(why(decide(&archive, &call(1, [1, 100], None))), Err(Refusal::Archive));
    assert_eq!(why(decide(&archive, &call(0, [1, 100], None))), Err(Refusal::Range));
    assert_eq!(empty(1 << 24, &mut out[..0]), Err(Refusal::Range));
    assert_eq!(empty(0, &mut out[..4]), Err(Refusal::Room));
    assert!(out.iter().all(|byte| *byte == 7));
}
