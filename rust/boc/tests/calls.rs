//! The calls of the crate on the scope's examples.

use boc::*;

const USER: Party = Party { network: 1, ssi: 5 };
/// Profile A as a PDU of 138 bits.
const PROFILE_A: [u8; 18] = [
    0x49, 0x82, 0x00, 0x00, 0x0a, 0x21, 0x21, 0x20, 0x00, 0x0c, 0x80, 0x00, 0x0c, 0x70, 0x80, 0x00, 0x4b,
    0x00,
];

/// Profile A as a replacement that is delivered and acknowledged, a DEFINE of 137 bits.
const DEFINE_A: [u8; 18] = [
    0x48, 0xa2, 0x00, 0x00, 0x0a, 0xd2, 0x42, 0x40, 0x00, 0x19, 0x00, 0x00, 0x18, 0xe1, 0x00, 0x00, 0x96,
    0x00,
];
const ACKNOWLEDGED_REPLACEMENT: Definition =
    Definition { definition_type: DefinitionType::Replacement, delivery: true, acknowledgement: true };

fn profile_a() -> Record {
    Record {
        affected: List::of([Identity::without_extension(5)]),
        result: Outcome::Identities,
        services: Services::of([Service::Speech]),
        restricted: List::range(Identity::without_extension(100), Identity::without_extension(199)),
        exceptions: List::of([Identity::without_extension(150)]),
        ..Record::default()
    }
}

fn define_a() -> Record {
    Record {
        pdu_type: PduType::Define,
        result: Outcome::default(),
        definition: ACKNOWLEDGED_REPLACEMENT,
        ..profile_a()
    }
}

/// Bytes of an archive's header, and of an entry of its contents.
const HEADER: usize = 5;
const LINE: usize = 11;
/// The day that the example's PDU is captured under.
const DAY: u16 = 300;

fn captured(record: &Record, archive: &[u8]) -> Result<Vec<u8>, Refused> {
    captured_on(DAY, record, archive)
}

fn captured_on(day: u16, record: &Record, archive: &[u8]) -> Result<Vec<u8>, Refused> {
    let mut pdu = [0; PDU_BYTES];
    let bits = write(record, &mut pdu)?;
    let mut out = vec![0; ARCHIVE_BYTES];
    let length = capture(archive, &pdu[..bits.div_ceil(8)], bits, day, &mut out)?;
    out.truncate(length);
    Ok(out)
}

fn example() -> Vec<u8> {
    captured(&profile_a(), &[0, 0, 1, 0, 0]).unwrap()
}

#[test]
fn a_record_is_written_and_read() {
    let mut out = [0xff; PDU_BYTES];
    assert_eq!(write(&profile_a(), &mut out), Ok(138));
    assert_eq!(out[..18], PROFILE_A);
    assert!(out[18..].iter().all(|byte| *byte == 0xff));
    let record = read(&PROFILE_A, 138).unwrap();
    assert_eq!(record, profile_a());
    assert!(record.restricted.is_range());
    assert_eq!(record.exceptions.entries(), [Identity::without_extension(150)]);
    assert_eq!(record.services.as_slice(), [Service::Speech]);
}

#[test]
fn a_define_is_written_and_read() {
    let mut out = [0xff; PDU_BYTES];
    assert_eq!(write(&define_a(), &mut out), Ok(137));
    assert_eq!(out[..18], DEFINE_A);
    assert_eq!(read(&DEFINE_A, 137), Ok(define_a()));
    assert_eq!(capture(&example(), &DEFINE_A, 137, DAY, &mut out), refused(Refusal::Unfit, None, None));

    // An acknowledgement without delivery, in writing and, at its place, in reading.
    let undelivered = Definition { delivery: false, ..ACKNOWLEDGED_REPLACEMENT };
    assert_eq!(write(&Record { definition: undelivered, ..define_a() }, &mut out), Err(Refusal::Value));
    let mut pdu = DEFINE_A;
    pdu[5] &= 0x7f;
    assert_eq!(read(&pdu, 137), refused(Refusal::Value, None, Some(41)));
    // A removal has no lists.
    let removal = Definition { definition_type: DefinitionType::Removal, ..Definition::default() };
    assert_eq!(write(&Record { definition: removal, ..define_a() }, &mut out), Err(Refusal::Value));
}

/// A number part of user 5: all services barred to 112, in a group of network 2.
fn number_part() -> Record {
    Record {
        affected: List::of([Identity::without_extension(5)]),
        result: Outcome::Numbers,
        services: Services::of([Service::All]),
        groups: List::of([Identity { ssi: 500, extension: Some(2) }]),
        restricted_numbers: List::of(["112".parse().unwrap()]),
        ..Record::default()
    }
}

/// The number part as a replacement that is delivered and acknowledged.
fn define_external() -> Record {
    Record {
        pdu_type: PduType::DefineExternal,
        result: Outcome::default(),
        definition: ACKNOWLEDGED_REPLACEMENT,
        ..number_part()
    }
}

#[test]
fn each_pdu_is_written_and_read() {
    let one_user = List::of([Identity::without_extension(5)]);
    // Sent to a user: no affected users, and an acknowledgement without delivery.
    let to_user = Record {
        affected: List::default(),
        definition: Definition { delivery: false, ..ACKNOWLEDGED_REPLACEMENT },
        ..define_a()
    };
    let records = [
        (138, profile_a()),
        (137, define_a()),
        (128, define_external()),
        (
            42,
            Record {
                pdu_type: PduType::Interrogate,
                affected: one_user,
                interrogation_type: InterrogationType::Both,
                ..Record::default()
            },
        ),
        (
            43,
            Record {
                pdu_type: PduType::DefineAck,
                affected: one_user,
                definition_result: DefinitionResult::UnknownIdentity,
                ..Record::default()
            },
        ),
        (107, Record { pdu_type: PduType::DefineUser, ..to_user }),
        (107, Record { pdu_type: PduType::DefineExternalUser, ..to_user }),
        (
            14,
            Record {
                pdu_type: PduType::DefineUserAck,
                distribution_result: DistributionResult::Received,
                ..Record::default()
            },
        ),
        (
            13,
            Record {
                pdu_type: PduType::CallBarred,
                rejection_cause: RejectionCause::RestrictedService,
                ..Record::default()
            },
        ),
    ];
    for (bits, record) in records {
        let mut pdu = [0; PDU_BYTES];
        assert_eq!(write(&record, &mut pdu), Ok(bits), "{record:?}");
        let pdu = &pdu[..bits.div_ceil(8)];
        assert_eq!(read(pdu, bits), Ok(record));
        if record.pdu_type != PduType::InterrogateAck {
            let answer = capture(&example(), pdu, bits, DAY, &mut [0; 400]);
            assert_eq!(answer, refused(Refusal::Unfit, None, None));
        }
    }
    let with_user = Record { pdu_type: PduType::DefineUser, affected: one_user, ..to_user };
    assert_eq!(write(&with_user, &mut [0; PDU_BYTES]), Err(Refusal::Value));
    // Reserved codes of definition result, distribution result and rejection cause.
    for (bits, place, pdu) in [
        (43, 40, &[0x48, 0xc2, 0x00, 0x00, 0x0a, 0xa0][..]),
        (14, 11, &[0x49, 0x28]),
        (13, 11, &[0x49, 0xb8]),
    ] {
        assert_eq!(read(pdu, bits), refused(Refusal::Value, None, Some(place)));
    }
}

/// Profile A as words, each by its place in the header's table.
fn words_of_profile_a() -> [u32; RECORD_WORDS] {
    let mut words = [0; RECORD_WORDS];
    for (place, word) in [
        (0, 12),
        (1, 1),
        (2, 5),
        (27, 1),
        (29, 1),
        (30, 1),
        (62, 9),
        (63, 100),
        (66, 199),
        (87, 1),
        (88, 150),
    ] {
        words[place] = word;
    }
    words
}

#[test]
fn a_record_has_the_words_of_the_header() {
    let words = words_of_profile_a();
    assert_eq!(profile_a().to_words(), words);
    assert_eq!(Record::from_words(&words), Some(profile_a()));
    let mut read = [0; RECORD_WORDS];
    let mut place = 7;
    assert_eq!(ffi::read(&PROFILE_A, 138, &mut read, &mut place), 0);
    assert_eq!((read, place), (words, 7));

    let mut words = words;
    for (place, word) in [(0, 5), (27, 0), (514, 1), (515, 1), (516, 1)] {
        words[place] = word;
    }
    assert_eq!(define_a().to_words(), words);
    assert_eq!(Record::from_words(&words), Some(define_a()));
}

#[test]
fn words_that_no_record_has_are_none() {
    let none_with = |place: usize, word: u32| {
        let mut words = words_of_profile_a();
        words[place] = word;
        assert_eq!(Record::from_words(&words), None, "{word} in place {place}");
    };
    // PDU type, extension present, interrogation type, result, delivery status, service, length, digit.
    for (place, word) in [(0, 4), (0, 14), (3, 2), (26, 4), (27, 5), (28, 4), (36, 4), (113, 25), (114, 13)] {
        none_with(place, word);
    }
    // Delivery, acknowledgement, definition type, definition result, distribution result, rejection cause.
    for (place, word) in [(514, 2), (515, 2), (516, 3), (517, 5), (518, 2), (518, 5), (519, 3)] {
        none_with(place, word);
    }
    // An extension that is not present.
    none_with(4, 1);
}

/// A refused call.
fn refused<T>(why: Refusal, entry: Option<usize>, place: Option<usize>) -> Result<T, Refused> {
    Err(Refused { why, entry, place })
}

#[test]
fn refusals_of_a_pdu_have_their_place() {
    let mut reversed = PROFILE_A;
    reversed[7] |= 0x10;
    assert_eq!(read(&PROFILE_A, 145), refused(Refusal::Frame, None, None));
    assert_eq!(read(&PROFILE_A, 137), refused(Refusal::Short, None, Some(137)));
    assert_eq!(read(&[0, 0], 11), refused(Refusal::Value, None, Some(0)));
    assert_eq!(read(&reversed, 138), refused(Refusal::Ends, None, Some(84)));
    assert_eq!(read(&PROFILE_A, 144), refused(Refusal::Left, None, Some(138)));
    // PDU types 2, 4, 14 and 31.
    for pdu in [[0x48, 0x40], [0x48, 0x80], [0x49, 0xc0], [0x4b, 0xe0]] {
        assert_eq!(read(&pdu, 11), refused(Refusal::Value, None, Some(6)));
    }
    let mut out = [0; 64];
    assert_eq!(capture(&example(), &PROFILE_A, 144, DAY, &mut out), refused(Refusal::Left, None, Some(138)));
}

#[test]
fn refusals_of_an_archive_have_their_entry() {
    let whole =
        captured(&Record { affected: List::of([Identity::without_extension(6)]), ..profile_a() }, &example());
    let whole = whole.unwrap();
    let broken = |place: usize, entry, bit| {
        let mut archive = whole.clone();
        archive[place] ^= 1;
        let expected = refused(Refusal::Archive, entry, bit);
        assert_eq!(contents(&archive, &mut [0; 100]), expected);
        assert_eq!(capture(&archive, &PROFILE_A, 137, DAY, &mut [0; 100]), expected);
        let restored = restore(&archive, USER, Part::Identity, &mut [0; 100]);
        assert_eq!(restored, refused(Refusal::Archive, entry, bit));
        assert_eq!(reload(&archive, USER, Part::Identity, Definition::default(), &mut [0; 100]), expected);
        assert_eq!(reload_external(&archive, USER, Definition::default(), &mut [0; 100]), expected);
    };
    // The count; the first part, which is then number 0; the last unused bit; the second body's PDU type.
    broken(4, None, None);
    broken(11, None, None);
    broken(62, Some(1), None);
    broken(45, Some(1), Some(6));
}

#[test]
fn refusals_have_their_numbers_and_words() {
    let mut small = [0; 4];
    let reversed = List::range(Identity::without_extension(200), Identity::without_extension(199));
    assert_eq!(write(&Record { restricted: reversed, ..profile_a() }, &mut small), Err(Refusal::Ends));
    assert_eq!(write(&profile_a(), &mut small), Err(Refusal::Room));
    assert_eq!(empty(1 << 24, &mut small), Err(Refusal::Range));
    assert_eq!(contents(&PROFILE_A, &mut small), refused(Refusal::Archive, None, None));
    assert_eq!(restore(&example(), USER, Part::Number, &mut small), refused(Refusal::NotHeld, None, None));
    let failed = Record { result: Outcome::Failed, restricted: List::default(), ..profile_a() };
    let failed = Record { exceptions: List::default(), ..failed };
    assert_eq!(captured(&failed, &example()), refused(Refusal::Unfit, None, None));
    assert_eq!(Refusal::NotHeld.to_string(), "refused 11: not held");
    assert_eq!(
        Refusal::Loss.to_string(),
        "refused 12: a held list that is not empty has no place in the PDU"
    );

    let words = |why, entry, place| Refused { why, entry, place }.to_string();
    assert_eq!(words(Refusal::NotHeld, None, None), "refused 11: not held");
    assert_eq!(
        words(Refusal::Value, None, Some(14)),
        "refused 3: an element's value is reserved or refused, at bit 14"
    );
    assert_eq!(words(Refusal::Archive, Some(2), None), "refused 7: the archive breaks a rule, at entry 2");
    assert_eq!(
        words(Refusal::Archive, Some(2), Some(30)),
        "refused 7: the archive breaks a rule, at entry 2, bit 30"
    );
}

#[test]
fn an_archive_lists_restores_and_decides() {
    let archive = example();
    let mut text = [0; CONTENTS_BYTES];
    let length = contents(&archive, &mut text).unwrap();
    assert_eq!(&text[..length], b"home 1 entries 1\n1 5 part 1 bits 138 day 300\n");
    let mut back = [0; PDU_BYTES];
    assert_eq!(restore(&archive, USER, Part::Identity, &mut back), Ok(Restored { bits: 138, day: DAY }));
    assert_eq!(back[..18], PROFILE_A);

    let to_number = Request {
        user: USER,
        service: Service::Speech,
        destination: Destination::Number("112".parse().unwrap()),
        group: None,
    };
    let elsewhere = Request { destination: Destination::Number("113".parse().unwrap()), ..to_number };
    let in_group = Request { group: Some(Party { network: 2, ssi: 500 }), ..elsewhere };
    let all = Request { service: Service::All, ..in_group };
    let both = captured(&number_part(), &archive).unwrap();
    for engine in [decide, decide_in_place] {
        assert_eq!(engine(&archive, &to_number), Ok(Decision::NotHeld));
        assert_eq!(engine(&both, &to_number), Ok(Decision::RestrictedDestination));
        assert_eq!(engine(&both, &elsewhere).map(Decision::cause), Ok(Some(RejectionCause::OutsideGroup)));
        assert_eq!(engine(&both, &in_group), Ok(Decision::Allowed));
        assert_eq!(engine(&both, &all), refused(Refusal::Range, None, None));
    }
    assert_eq!(Decision::Allowed.cause(), None);
}

#[test]
fn the_last_day_given_is_kept() {
    let archive = example();
    let head = [0, 0, 1, 0, 1, 0, 0, 1, 0, 0, 5, 1, 0, 0x8a, 0x01, 0x2c];
    assert_eq!(archive, [&head[..], &PROFILE_A].concat());
    let mut back = [0; PDU_BYTES];
    for day in [299, 0, u16::MAX, 1] {
        let again = captured_on(day, &profile_a(), &archive).unwrap();
        let mut expected = archive.clone();
        expected[14..16].copy_from_slice(&day.to_be_bytes());
        assert_eq!(again, expected);
        assert_eq!(restore(&again, USER, Part::Identity, &mut back), Ok(Restored { bits: 138, day }));
    }

    // Through the C call a day can be out of its range: 9, before 7.
    for day in [65_536, u32::MAX] {
        let (mut length, mut spot) = (7, ffi::Spot { entry: 7, place: 7 });
        assert_eq!(ffi::capture(&[], &PROFILE_A, 138, day, &mut back, &mut length, &mut spot), 9);
        assert_eq!((length, spot), (7, ffi::Spot::NONE));
    }
    // A refused restore leaves the day.
    let (mut bits, mut day, mut spot) = (7, 7, ffi::Spot::NONE);
    assert_eq!(ffi::restore(&archive, 1, 5, 2, &mut back, &mut bits, &mut day, &mut spot), 11);
    assert_eq!((bits, day), (7, 7));
}

#[test]
fn entries_are_given_by_their_index() {
    let visitor = Identity { ssi: 4, extension: Some(7) };
    let archive = captured(&Record { affected: List::of([visitor]), ..profile_a() }, &example()).unwrap();
    let archive = captured_on(301, &number_part(), &archive).unwrap();
    let number = Entry { user: USER, part: Part::Number, bits: 129, day: 301 };
    let expected = [
        Entry { user: USER, part: Part::Identity, bits: 138, day: DAY },
        number,
        Entry { user: Party { network: 7, ssi: 4 }, part: Part::Identity, bits: 162, day: DAY },
    ];
    assert_eq!(entry(&archive, 1), Ok(number));
    for index in [3, 4, usize::MAX] {
        assert_eq!(entry(&archive, index), refused(Refusal::NotHeld, None, None));
    }
    let mut all = entries(&archive).unwrap();
    assert!(all.by_ref().eq(expected));
    assert_eq!(all.next(), None);
    assert_eq!(entries(&[0, 0, 1, 0, 0]).unwrap().next(), None);

    // Each is what restore takes and gives.
    for Entry { user, part, bits, day } in entries(&archive).unwrap() {
        assert_eq!(restore(&archive, user, part, &mut [0; PDU_BYTES]), Ok(Restored { bits, day }));
    }
    let mut damaged = archive.clone();
    // The first body's PDU type.
    damaged[HEADER + 3 * LINE] ^= 1;
    assert_eq!(entries(&damaged).map(|_| ()), refused(Refusal::Archive, Some(0), Some(6)));
    assert_eq!(entry(&damaged, 9), refused(Refusal::Archive, Some(0), Some(6)));

    // Through the C call a count of words can be wrong: 9, before 7; a refusal leaves key, bits and day.
    for words in [0, 2, 4] {
        let (mut bits, mut day, mut spot) = (7, 7, ffi::Spot { entry: 7, place: 7 });
        let mut key = vec![7; words];
        assert_eq!(ffi::entry(&[], 0, &mut key, &mut bits, &mut day, &mut spot), 9);
        assert_eq!((key, bits, day, spot), (vec![7; words], 7, 7, ffi::Spot::NONE));
    }
    let (mut bits, mut day, mut spot) = (7, 7, ffi::Spot { entry: 7, place: 7 });
    let mut key = [7; KEY_WORDS];
    assert_eq!(ffi::entry(&archive, 3, &mut key, &mut bits, &mut day, &mut spot), 11);
    assert_eq!((key, bits, day, spot), ([7; KEY_WORDS], 7, 7, ffi::Spot::NONE));
    spot = ffi::Spot { entry: 7, place: 7 };
    assert_eq!(ffi::entry(&archive, 2, &mut key, &mut bits, &mut day, &mut spot), 0);
    assert_eq!((key, bits, day, spot), ([7, 4, 1], 162, 300, ffi::Spot { entry: 7, place: 7 }));
}

#[test]
fn the_longest_listing_is_so_long() {
    let line = "16777215 16777215 part 1 bits 2113 day 65535\n";
    assert_eq!(CONTENTS_BYTES, "home 16777215 entries 512\n".len() + 512 * line.len());
}

#[test]
fn a_part_is_reloaded() {
    let archive = example();
    let mut out = [0xff; PDU_BYTES];
    assert_eq!(reload(&archive, USER, Part::Identity, ACKNOWLEDGED_REPLACEMENT, &mut out), Ok(137));
    assert_eq!(out[..18], DEFINE_A);
    assert!(out[18..].iter().all(|byte| *byte == 0xff));

    // A number part without numbers has its groups; one with numbers would lose them, and so would a removal.
    let numbers = Record { restricted_numbers: List::default(), ..number_part() };
    let archive = captured(&numbers, &archive).unwrap();
    let plain = Definition::default();
    let bits = reload(&archive, USER, Part::Number, plain, &mut out).unwrap();
    let expected = Record { pdu_type: PduType::Define, result: Outcome::default(), ..numbers };
    assert_eq!(read(&out[..bits.div_ceil(8)], bits), Ok(expected));
    let removal = Definition { definition_type: DefinitionType::Removal, ..plain };
    let lost = refused(Refusal::Loss, None, None);
    assert_eq!(reload(&archive, USER, Part::Number, removal, &mut out), lost);
    let archive = captured(&number_part(), &archive).unwrap();
    assert_eq!(reload(&archive, USER, Part::Number, plain, &mut out), lost);

    let undelivered = Definition { acknowledgement: true, ..plain };
    let answer = reload(&archive, USER, Part::Identity, undelivered, &mut out);
    assert_eq!(answer, refused(Refusal::Range, None, None));
    let nobody = Party { network: 2, ..USER };
    assert_eq!(
        reload(&archive, nobody, Part::Number, removal, &mut []),
        refused(Refusal::NotHeld, None, None)
    );
    assert_eq!(reload(&archive, USER, Part::Identity, plain, &mut []), refused(Refusal::Room, None, None));
}

#[test]
fn a_number_part_is_reloaded_with_its_numbers() {
    let archive = captured(&number_part(), &example()).unwrap();
    let mut out = [0xff; PDU_BYTES];
    let bits = reload_external(&archive, USER, ACKNOWLEDGED_REPLACEMENT, &mut out).unwrap();
    let (pdu, after) = out.split_at(bits.div_ceil(8));
    assert!(after.iter().all(|byte| *byte == 0xff));
    assert_eq!(read(pdu, bits), Ok(define_external()));

    // A removal would lose its lists; without them it stands.
    let removal = Definition { definition_type: DefinitionType::Removal, ..Definition::default() };
    assert_eq!(reload_external(&archive, USER, removal, &mut out), refused(Refusal::Loss, None, None));
    let bare = Record { groups: List::default(), restricted_numbers: List::default(), ..number_part() };
    let archive = captured(&bare, &archive).unwrap();
    assert_eq!(reload_external(&archive, USER, removal, &mut out), Ok(50));

    let undelivered = Definition { acknowledgement: true, ..removal };
    assert_eq!(reload_external(&archive, USER, undelivered, &mut out), refused(Refusal::Range, None, None));
    // An identity part is not it.
    assert_eq!(reload_external(&example(), USER, removal, &mut []), refused(Refusal::NotHeld, None, None));
    assert_eq!(reload_external(&archive, USER, removal, &mut []), refused(Refusal::Room, None, None));
}

#[test]
fn lists_take_eight_entries() {
    let eight = List::of([1, 2, 3, 4, 5, 6, 7, 8].map(Identity::without_extension));
    let record = Record { affected: eight, ..profile_a() };
    let mut pdu = [0; PDU_BYTES];
    let bits = write(&record, &mut pdu).unwrap();
    assert_eq!(read(&pdu[..bits.div_ceil(8)], bits), Ok(record));
    assert_eq!(captured(&record, &example()), refused(Refusal::Unfit, None, None));
}

#[test]
fn lists_and_services_are_made_of_slices() {
    let identities: Vec<_> = (1..=9).map(Identity::without_extension).collect();
    for count in 0..=8 {
        assert_eq!(Identities::try_from(&identities[..count]).unwrap().entries(), &identities[..count]);
    }
    assert_eq!(Identities::try_from(&identities[..1]), Ok(List::of([identities[0]])));
    assert_eq!(Identities::try_from(&identities[..]), Err(Refusal::Value));
    assert_eq!(Numbers::try_from(&["112".parse().unwrap(); 9][..]), Err(Refusal::Value));

    let services = [Service::Data; 8];
    for count in 0..=7 {
        assert_eq!(Services::try_from(&services[..count]).unwrap().as_slice(), &services[..count]);
    }
    assert_eq!(Services::try_from(&services[..1]), Ok(Services::of([Service::Data])));
    assert_eq!(Services::try_from(&services[..]), Err(Refusal::Value));
}

#[test]
fn decisions_have_the_words_of_the_header() {
    let header = include_str!("../../../include/boc.h");
    for number in 0..5 {
        let decision = Decision::from_number(number).unwrap();
        let code = format!(" = {number}");
        let said = header.lines().skip_while(|line| *line != "enum boc_decision {");
        let line = said.take_while(|line| *line != "};").find(|line| line.contains(&code)).unwrap();
        assert!(line.ends_with(&format!("/* {decision} */")), "{decision}: {line}");
    }
}
