//! The numbers of this crate are those of the one list of all numbers, `tests/numbers.c`, to which the header and
//! the library's definitions are held too.

use std::collections::BTreeMap;

use boc::*;

/// The list's numbers that are not looked at yet, by name.
struct Listed(BTreeMap<&'static str, usize>);

impl Listed {
    fn new() -> Self {
        let lines = include_str!("../../../tests/numbers.c").lines();
        let arguments = lines.filter_map(|line| {
            let line = line.strip_prefix("WRITTEN(").or_else(|| line.strip_prefix("SPECIFIED("))?;
            let mut words = line.split([',', ')']).map(|word| word.trim().trim_end_matches('u'));
            Some((words.next()?, words.next()?.parse().expect("a number")))
        });
        Listed(arguments.collect())
    }

    /// Takes a number out of the list.
    fn take(&mut self, name: &str) -> usize {
        self.0.remove(name).unwrap_or_else(|| panic!("{name} is not in the list, or was looked at before"))
    }

    fn are<T: TryInto<usize>>(&mut self, numbers: impl IntoIterator<Item = (&'static str, T)>) {
        for (name, number) in numbers {
            assert_eq!(number.try_into().ok(), Some(self.take(name)), "{name}");
        }
    }
}

fn refusals(listed: &mut Listed) {
    use Refusal::*;
    let numbers = [
        ("BOC_FRAME", Frame),
        ("BOC_SHORT", Short),
        ("BOC_VALUE", Value),
        ("BOC_ENDS", Ends),
        ("BOC_LEFT", Left),
        ("BOC_UNFIT", Unfit),
        ("BOC_ARCHIVE", Archive),
        ("BOC_ROOM", Room),
        ("BOC_RANGE", Range),
        ("BOC_NOT_HELD", NotHeld),
        ("BOC_LOSS", Loss),
        ("BOC_SYNTAX", Syntax),
        ("BOC_FIELD", Field),
        ("BOC_SURPLUS", Surplus),
    ];
    listed.are(numbers.map(|(name, refusal)| (name, refusal.number())));
    listed.are([("BOC_OK", ffi::empty(0, &mut [0; 5], &mut 0))]);
    listed.are([("BOC_NOWHERE", ffi::NOWHERE)]);
}

fn limits(listed: &mut Listed) {
    listed.are([
        ("BOC_PDU_BYTES", PDU_BYTES),
        ("BOC_ARCHIVE_BYTES", ARCHIVE_BYTES),
        ("BOC_ARCHIVE_ENTRIES", (CONTENTS_BYTES - 26) / 45),
        ("BOC_CONTENTS_BYTES", CONTENTS_BYTES),
        ("BOC_DAY_LIMIT", usize::from(u16::MAX) + 1),
        ("BOC_RECORD_WORDS", RECORD_WORDS),
        ("BOC_REQUEST_WORDS", REQUEST_WORDS),
        ("BOC_KEY_WORDS", KEY_WORDS),
    ]);

    let mut out = [0; 5];
    let networks = listed.take("BOC_NETWORK_LIMIT") as u32;
    assert!(empty(networks - 1, &mut out).is_ok());
    assert_eq!(empty(networks, &mut out), Err(Refusal::Range));

    let most = [Identity::default(); 99];
    let places = listed.take("BOC_LIST_PLACES");
    assert_eq!(List::try_from(&most[..places]).map(|list| list.entries().len()), Ok(places));
    assert_eq!(List::try_from(&most[..places + 1]), Err(Refusal::Value));

    let most = [Service::All; 99];
    let places = listed.take("BOC_SERVICE_PLACES");
    assert_eq!(Services::try_from(&most[..places]).map(|list| list.as_slice().len()), Ok(places));
    assert_eq!(Services::try_from(&most[..places + 1]), Err(Refusal::Value));

    let most = "7".repeat(99);
    let places = listed.take("BOC_DIGIT_PLACES");
    assert!(most[..places].parse::<Number>().is_ok());
    assert_eq!(most[..places + 1].parse::<Number>(), Err(Refusal::Value));
}

fn codes(listed: &mut Listed) {
    let types = [
        ("BOC_DEFINE", PduType::Define),
        ("BOC_DEFINE_ACK", PduType::DefineAck),
        ("BOC_DEFINE_EXTERNAL", PduType::DefineExternal),
        ("BOC_DEFINE_USER", PduType::DefineUser),
        ("BOC_DEFINE_USER_ACK", PduType::DefineUserAck),
        ("BOC_DEFINE_EXTERNAL_USER", PduType::DefineExternalUser),
        ("BOC_INTERROGATE", PduType::Interrogate),
        ("BOC_INTERROGATE_ACK", PduType::InterrogateAck),
        ("BOC_CALL_BARRED", PduType::CallBarred),
    ];
    listed.are(types.map(|(name, code)| (name, code.number())));
    let types = [
        ("BOC_ADDITION", DefinitionType::Addition),
        ("BOC_REPLACEMENT", DefinitionType::Replacement),
        ("BOC_REMOVAL", DefinitionType::Removal),
    ];
    listed.are(types.map(|(name, code)| (name, code.number())));
    let services = [
        ("BOC_SERVICE_ALL", Service::All),
        ("BOC_SERVICE_SPEECH", Service::Speech),
        ("BOC_SERVICE_DATA", Service::Data),
        ("BOC_SERVICE_SHORT_DATA", Service::ShortData),
    ];
    listed.are(services.map(|(name, code)| (name, code.number())));
    let parts = [("BOC_IDENTITY_PART", Part::Identity), ("BOC_NUMBER_PART", Part::Number)];
    listed.are(parts.map(|(name, code)| (name, code.number())));
    let decisions = [
        ("BOC_BARRED_GROUP", Decision::OutsideGroup),
        ("BOC_BARRED_SERVICE", Decision::RestrictedService),
        ("BOC_BARRED_DESTINATION", Decision::RestrictedDestination),
        ("BOC_ALLOWED", Decision::Allowed),
        ("BOC_PART_NOT_HELD", Decision::NotHeld),
    ];
    listed.are(decisions.map(|(name, code)| (name, code.number())));
    let causes = [
        ("BOC_CAUSE_GROUP", RejectionCause::OutsideGroup),
        ("BOC_CAUSE_SERVICE", RejectionCause::RestrictedService),
        ("BOC_CAUSE_DESTINATION", RejectionCause::RestrictedDestination),
    ];
    listed.are(causes.map(|(name, code)| (name, code.number())));
}

fn results(listed: &mut Listed) {
    let results = [
        ("BOC_RESULT_FAILED", Outcome::Failed),
        ("BOC_RESULT_IDENTITIES", Outcome::Identities),
        ("BOC_RESULT_NUMBERS", Outcome::Numbers),
        ("BOC_RESULT_NOT_AUTHORIZED", Outcome::NotAuthorized),
        ("BOC_RESULT_UNKNOWN_USER", Outcome::UnknownUser),
        ("BOC_RESULT_NOT_VALID", Outcome::NotValid),
        ("BOC_RESULT_INSUFFICIENT", Outcome::Insufficient),
    ];
    listed.are(results.map(|(name, code)| (name, code.number())));
    let results = [
        ("BOC_DEFINITION_FAILED", DefinitionResult::Failed),
        ("BOC_DEFINITION_ACCEPTED", DefinitionResult::Accepted),
        ("BOC_DEFINITION_CHANGED", DefinitionResult::Changed),
        ("BOC_DEFINITION_NOT_AUTHORIZED", DefinitionResult::NotAuthorized),
        ("BOC_DEFINITION_UNKNOWN_IDENTITY", DefinitionResult::UnknownIdentity),
        ("BOC_DEFINITION_NOT_VALID", DefinitionResult::NotValid),
        ("BOC_DEFINITION_INSUFFICIENT", DefinitionResult::Insufficient),
    ];
    listed.are(results.map(|(name, code)| (name, code.number())));
    let results = [
        ("BOC_DISTRIBUTION_FAILED", DistributionResult::Failed),
        ("BOC_DISTRIBUTION_RECEIVED", DistributionResult::Received),
        ("BOC_DISTRIBUTION_NOT_VALID", DistributionResult::NotValid),
        ("BOC_DISTRIBUTION_INSUFFICIENT", DistributionResult::Insufficient),
    ];
    listed.are(results.map(|(name, code)| (name, code.number())));
}

/// The one word in which a record is another than the default one.
fn word_of(record: Record) -> usize {
    let (words, default) = (record.to_words(), Record::default().to_words());
    let mut differing = (0..RECORD_WORDS).filter(|&word| words[word] != default[word]);
    let word = differing.next().expect("a word");
    assert_eq!(differing.next(), None);
    word
}

fn record_words(listed: &mut Listed) {
    let record = Record::default();
    let user = Identities::of([Identity::default()]);
    let number = Numbers::of([Number::default()]);
    let defined = |delivery, acknowledgement, definition_type| {
        word_of(Record { definition: Definition { delivery, acknowledgement, definition_type }, ..record })
    };
    let counted = word_of(Record { services: Services::of([Service::All]), ..record });
    let (addition, removal) = (DefinitionType::Addition, DefinitionType::Removal);
    listed.are([
        ("BOC_PDU_TYPE", word_of(Record { pdu_type: PduType::Define, ..record })),
        ("BOC_AFFECTED", word_of(Record { affected: user, ..record })),
        ("BOC_INTERROGATION_TYPE", word_of(Record { interrogation_type: InterrogationType::Both, ..record })),
        ("BOC_RESULT", word_of(Record { result: Outcome::NotValid, ..record })),
        ("BOC_DELIVERY_STATUS", word_of(Record { delivery_status: DeliveryStatus::Unknown, ..record })),
        ("BOC_SERVICE_COUNT", counted),
        ("BOC_SERVICES", counted + 1),
        ("BOC_GROUPS", word_of(Record { groups: user, ..record })),
        ("BOC_RESTRICTED", word_of(Record { restricted: user, ..record })),
        ("BOC_EXCEPTIONS", word_of(Record { exceptions: user, ..record })),
        ("BOC_RESTRICTED_NUMBERS", word_of(Record { restricted_numbers: number, ..record })),
        ("BOC_EXCEPTED_NUMBERS", word_of(Record { excepted_numbers: number, ..record })),
        ("BOC_DELIVERY", defined(true, false, addition)),
        ("BOC_ACKNOWLEDGEMENT", defined(false, true, addition)),
        ("BOC_DEFINITION_TYPE", defined(false, false, removal)),
        ("BOC_DEFINITION_RESULT", word_of(Record { definition_result: DefinitionResult::Changed, ..record })),
        (
            "BOC_DISTRIBUTION_RESULT",
            word_of(Record { distribution_result: DistributionResult::NotValid, ..record }),
        ),
        (
            "BOC_REJECTION_CAUSE",
            word_of(Record { rejection_cause: RejectionCause::RestrictedService, ..record }),
        ),
    ]);
    let served = Record { services: Services::of([Service::Speech]), ..record }.to_words();
    assert_eq!(served[counted + 1], Service::Speech.number());
}

/// The words of an entry: those of the first two entries of a list, behind its range type.
fn entry_words(listed: &mut Listed) {
    let record = Record::default();
    let entry = |ssi, extension| Identity { ssi, extension: Some(extension) };
    let users = Record { affected: List::of([entry(70, 71), entry(72, 73)]), ..record }.to_words();
    let list = &users[word_of(Record { affected: List::of([Identity::default()]), ..record })..];
    let at = |value: u32| list.iter().position(|&word| word == value).expect("the word") - 1;
    listed.are([
        ("BOC_ENTRY_SSI", at(70)),
        ("BOC_ENTRY_EXTENSION", at(71)),
        ("BOC_IDENTITY_WORDS", at(72) - at(70)),
    ]);
    assert_eq!(list[1 + listed.take("BOC_ENTRY_EXTENSION_PRESENT")], 1);

    let (few, many): (Number, Number) = ("*#+".parse().unwrap(), "4444444".parse().unwrap());
    let numbers = Record { excepted_numbers: List::of([few, many]), ..record }.to_words();
    let list = &numbers[word_of(Record { excepted_numbers: List::of([Number::default()]), ..record })..];
    let at = |value: u32| list.iter().position(|&word| word == value).expect("the word") - 1;
    let digits = listed.take("BOC_ENTRY_DIGITS");
    listed.are([("BOC_ENTRY_LENGTH", at(3)), ("BOC_NUMBER_WORDS", at(7) - at(3))]);
    listed.are([
        ("BOC_DIGIT_STAR", list[1 + digits]),
        ("BOC_DIGIT_HASH", list[2 + digits]),
        ("BOC_DIGIT_PLUS", list[3 + digits]),
    ]);

    let range = Record { affected: List::range(Identity::default(), Identity::default()), ..record };
    listed.are([("BOC_FIRST_AND_LAST", range.to_words()[word_of(range)])]);
}

fn request_words(listed: &mut Listed) {
    let party = |network, ssi| Party { network, ssi };
    let request = Request {
        user: party(70, 71),
        service: Service::ShortData,
        destination: Destination::Identity(party(72, 73)),
        group: Some(party(74, 75)),
    };
    let words = request.to_words();
    let at = |value: u32| words.iter().position(|&word| word == value).expect("the word");
    listed.are([
        ("BOC_USER_NETWORK", at(70)),
        ("BOC_USER_SSI", at(71)),
        ("BOC_REQUEST_SERVICE", at(3)),
        ("BOC_NETWORK", at(72)),
        ("BOC_SSI", at(73)),
        ("BOC_GROUP_NETWORK", at(74)),
        ("BOC_GROUP_SSI", at(75)),
    ]);
    let kind = listed.take("BOC_DESTINATION");
    listed.are([("BOC_TO_IDENTITY", words[kind])]);
    let group = listed.take("BOC_GROUP_GIVEN");
    assert_eq!(words[group], 1);
    assert_eq!(Request { group: None, ..request }.to_words()[group], 0);

    let number = Destination::Number("98".parse().unwrap());
    let words = Request { destination: number, ..request }.to_words();
    listed.are([("BOC_TO_NUMBER", words[kind])]);
    assert_eq!(words[listed.take("BOC_LENGTH")], 2);
    assert_eq!(words[listed.take("BOC_DIGITS")], 9);
}

/// A key as `entry` gives it: its order is that of `boc_entry`, which wrote it.
fn key_words(listed: &mut Listed) {
    let record = Record {
        affected: List::of([Identity { ssi: 5, extension: Some(7) }]),
        result: Outcome::Numbers,
        services: Services::of([Service::All]),
        ..Record::default()
    };
    let (mut pdu, mut old, mut new) = ([0; PDU_BYTES], [0; 5], [0; 64]);
    let bits = write(&record, &mut pdu).unwrap();
    empty(1, &mut old).unwrap();
    let length = capture(&old, &pdu[..bits.div_ceil(8)], bits, 300, &mut new).unwrap();

    let mut key = [0; KEY_WORDS];
    let (mut bits, mut day, mut spot) = (0, 0, ffi::Spot::NONE);
    assert_eq!(ffi::entry(&new[..length], 0, &mut key, &mut bits, &mut day, &mut spot), 0);
    assert_eq!(key[listed.take("BOC_KEY_NETWORK")], 7);
    assert_eq!(key[listed.take("BOC_KEY_SSI")], 5);
    assert_eq!(key[listed.take("BOC_KEY_PART")], Part::Number.number());
    let entry = entry(&new[..length], 0).unwrap();
    assert_eq!((entry.user, entry.part), (Party { network: 7, ssi: 5 }, Part::Number));
}

fn terminals(listed: &mut Listed) {
    listed.are([("BOC_TABLE_BYTES", TABLE_BYTES), ("BOC_TABLE_TEXT_BYTES", TABLE_TEXT_BYTES)]);
    listed.are([
        ("BOC_PROFILE_MT", Profile::MtOnly as usize),
        ("BOC_PROFILE_TE", Profile::TeOnly as usize),
        ("BOC_PROFILE_BOTH", Profile::Both as usize),
        ("BOC_PROFILE_NEITHER", Profile::Neither as usize),
    ]);
    // A line for the first place of a layer 1 changes the byte at which its places begin, and no other.
    for (name, line) in [
        ("BOC_TABLE_CC", b"AT+CTSP=1,0,0\r".as_slice()),
        ("BOC_TABLE_MM", b"AT+CTSP=1,1,10\r"),
        ("BOC_TABLE_SDS", b"AT+CTSP=1,2,20\r"),
        ("BOC_TABLE_SDS_TL", b"AT+CTSP=1,3,0\r"),
        ("BOC_TABLE_PACKET_DATA", b"AT+CTSP=1,4\r"),
    ] {
        let mut terminal = Terminal::default();
        terminal.line(line, &mut []).unwrap();
        let changed = |place: &usize| terminal.profile(*place) != Some(Profile::Both);
        assert_eq!((0..TABLE_BYTES).filter(changed).collect::<Vec<_>>(), [listed.take(name)], "{name}");
    }
}

#[test]
fn every_number_is_the_listed_one() {
    let mut listed = Listed::new();
    terminals(&mut listed);
    refusals(&mut listed);
    limits(&mut listed);
    codes(&mut listed);
    results(&mut listed);
    record_words(&mut listed);
    entry_words(&mut listed);
    request_words(&mut listed);
    key_words(&mut listed);
    assert!(listed.0.is_empty(), "not looked at: {:?}", listed.0);
}
