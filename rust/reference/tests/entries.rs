//! The entry at an index: its key, its length in bits and its day.

use reference::layout::{record, RECORD_WORDS};
use reference::{capture, empty, entry, restore, write, Refusal, Refused, Restored};

const HOME: u32 = 1;
/// Bytes of the header, and of a line of the contents.
const HEADER: usize = 5;
const LINE: usize = 11;

/// A key: network, SSI, part.
type Key = [u32; 3];

/// A part without lists: 63 bits for a user at home, 87 for one whose network is spelt out.
fn part_of([network, ssi, part]: Key) -> (usize, Vec<u8>) {
    let mut words = [0; RECORD_WORDS];
    words[record::PDU_TYPE] = 12;
    words[record::AFFECTED..][..2].copy_from_slice(&[1, ssi]);
    if network != HOME {
        words[record::AFFECTED + 2..][..2].copy_from_slice(&[1, network]);
    }
    words[record::RESULT] = part;
    words[record::SERVICE_COUNT] = 1;
    let mut bytes = vec![0; 307];
    let bits = write(&words, &mut bytes).unwrap();
    bytes.truncate(bits.div_ceil(8));
    (bits, bytes)
}

/// The archive of these keys, captured in their order, each under the day of its place.
fn archive_of(keys: &[Key]) -> Vec<u8> {
    let mut held = vec![0; HEADER];
    empty(HOME, &mut held).unwrap();
    for (day, key) in (0..).zip(keys) {
        let (bits, pdu) = part_of(*key);
        let mut out = vec![0; held.len() + LINE + pdu.len()];
        let length = capture(&held, &pdu, bits, day, &mut out).unwrap();
        out.truncate(length);
        held = out;
    }
    held
}

/// The entry at an index: its key, and its bits and day.
fn at(archive: &[u8], index: usize) -> Result<(Key, Restored), Refused> {
    let mut key = [7; 3];
    entry(archive, index, &mut key).map(|rest| (key, rest))
}

#[test]
fn entries_rise_whatever_the_order_of_captures() {
    let archive = archive_of(&[[7, 4, 2], [1, 6, 1], [1, 5, 2], [0xff_ffff, 0, 1], [1, 5, 1]]);
    let expected = [
        ([1, 5, 1], 63, 4),
        ([1, 5, 2], 63, 2),
        ([1, 6, 1], 63, 1),
        ([7, 4, 2], 87, 0),
        ([0xff_ffff, 0, 1], 87, 3),
    ];
    for (index, (key, bits, day)) in expected.into_iter().enumerate() {
        assert_eq!(at(&archive, index), Ok((key, Restored { bits, day })));
        // It is what restore takes and gives.
        assert_eq!(restore(&archive, key[0], key[1], key[2], &mut [0; 11]), Ok(Restored { bits, day }));
    }
}

#[test]
fn an_index_that_is_not_below_the_count_gives_11() {
    let keys: Vec<Key> = (0..512).map(|ssi| [1, ssi, 2]).collect();
    for count in [0, 1, 64, 512] {
        let archive = archive_of(&keys[..count]);
        for (index, key) in keys[..count].iter().enumerate() {
            assert_eq!(at(&archive, index), Ok((*key, Restored { bits: 63, day: index as u16 })));
        }
        for index in [count, count + 1, 65_536, usize::MAX / LINE + 1, usize::MAX] {
            assert_eq!(at(&archive, index), Err(Refusal::NotHeld.into()));
        }
    }
}

#[test]
fn another_count_of_words_gives_9_before_all_else() {
    let archive = archive_of(&[[1, 5, 1]]);
    for words in [0, 1, 2, 4, 34, 520] {
        let mut key = vec![7; words];
        for (archive, index) in [(&archive[..], 0), (&archive, 1), (&[], 0)] {
            assert_eq!(entry(archive, index, &mut key), Err(Refusal::Range.into()));
        }
        assert_eq!(key, vec![7; words]);
    }
}

#[test]
fn what_is_no_archive_gives_7_before_11() {
    let archive = archive_of(&[[1, 5, 1], [1, 6, 1]]);
    let broken = |place: usize, entry_at_fault: Option<usize>, bit: Option<usize>| {
        let mut changed = archive.clone();
        changed[place] ^= 1;
        for index in [0, 1, 2, usize::MAX] {
            let mut key = [7; 3];
            let expected = Refused { why: Refusal::Archive, entry: entry_at_fault, place: bit };
            assert_eq!(entry(&changed, index, &mut key), Err(expected));
            assert_eq!(key, [7; 3]);
        }
    };
    // The count; the second part; the PDU type of the second body; its last bit, which is not used.
    broken(4, None, None);
    broken(HEADER + LINE + 6, None, None);
    broken(HEADER + 2 * LINE + 8, Some(1), Some(6));
    broken(archive.len() - 1, Some(1), None);
    // A byte more or less.
    for bytes in [&archive[1..], &archive[..archive.len() - 1], &[&archive[..], &[0]].concat()] {
        assert_eq!(at(bytes, 2), Err(Refusal::Archive.into()));
    }
}
