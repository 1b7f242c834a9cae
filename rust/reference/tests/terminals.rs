//! +CTSP lines: which are which, what they set, and the text that puts a table back.

use reference::{terminal_line, terminal_reset, Refusal, PLACES};

type Table = [u8; PLACES];

fn fresh() -> Table {
    let mut table = [255; PLACES];
    terminal_reset(&mut table).unwrap();
    table
}

/// The answer to a line without its CR, on a fresh table and with no room to write.
fn answer(line: &str) -> Result<usize, Refusal> {
    terminal_line(format!("{line}\r").as_bytes(), &mut fresh(), &mut [])
}

/// The places that a line sets in a fresh table, and their profile.
fn set_by(line: &str) -> Vec<(usize, u8)> {
    let mut table = fresh();
    assert_eq!(terminal_line(format!("{line}\r").as_bytes(), &mut table, &mut []), Ok(0), "{line}");
    table.into_iter().enumerate().filter(|&(_, profile)| profile != 2).collect()
}

fn text(table: &Table) -> String {
    let mut out = vec![0; 2_300];
    let length = terminal_line(b"AT+CTSP?\r", &mut table.clone(), &mut out).unwrap();
    String::from_utf8(out[..length].to_vec()).unwrap()
}

#[test]
fn a_table_has_269_places_and_is_reset_to_both() {
    assert_eq!(PLACES, 2 + 5 + 5 + 256 + 1);
    assert_eq!(fresh(), [2; 269]);
    for length in [0, 268, 270] {
        let mut other = vec![7; length];
        assert_eq!(terminal_reset(&mut other), Err(Refusal::Range));
        assert_eq!(other, vec![7; length]);
    }
}

#[test]
fn lines_that_are_none_give_15() {
    for line in ["3,4", "000,000", "2,3,255", "02,003,000", "0,1,10", "?"] {
        assert_ne!(
            answer(&format!("AT+CTSP{}{line}", if line == "?" { "" } else { "=" })),
            Err(Refusal::Syntax)
        );
    }
    for bad in
        ["3", "3,", ",3", "3,4,", "3,,4", "3,0004", "3, 4", "3,4 ", " 3,4", "+3,4", "3,-4", "3;4", "?", ""]
    {
        assert_eq!(answer(&format!("AT+CTSP={bad}")), Err(Refusal::Syntax), "{bad}");
    }
    assert_eq!(answer("AT+CTSP=3,1,10,1,1"), Err(Refusal::Syntax));
    let good = b"AT+CTSP=3,1,10\r";
    for end in 0..good.len() {
        assert_eq!(terminal_line(&good[..end], &mut fresh(), &mut []), Err(Refusal::Syntax));
    }
    for more in
        ["AT+CTSP=3,4\r\n", "AT+CTSP?\r\n", "AT+CTSP?\r\r", "at+ctsp=3,4\r", "AT+CTSP =3,4\r", "AT+CTSP?", ""]
    {
        assert_eq!(terminal_line(more.as_bytes(), &mut fresh(), &mut []), Err(Refusal::Syntax), "{more:?}");
    }
}

#[test]
fn values_give_16_and_what_a_layer_does_not_take_17() {
    let values = [("0,1", "9", "10", "14", "15"), ("0,2", "19", "20", "24", "25")];
    for (line, under, first, last, over) in values {
        for value in [under, over] {
            assert_eq!(answer(&format!("AT+CTSP={line},{value}")), Err(Refusal::Field));
        }
        for value in [first, last] {
            assert_eq!(answer(&format!("AT+CTSP={line},{value}")), Ok(0));
        }
    }
    for line in
        ["4,0", "999,0", "0,5", "0,999", "0,0,2", "0,3,256", "4,4,0", "0,5,0,0", "0,1,15,0", "4,1,10,10"]
    {
        assert_eq!(answer(&format!("AT+CTSP={line}")), Err(Refusal::Field), "{line}");
    }
    for line in ["0,4,0", "0,4,30", "0,4,31", "0,4,999", "0,4,0,0", "0,1,10,0", "0,3,0,999", "2,0,1,1"] {
        assert_eq!(answer(&format!("AT+CTSP={line}")), Err(Refusal::Surplus), "{line}");
    }
}

#[test]
fn what_is_no_table_gives_9_first() {
    for mut table in
        [vec![2; 268], vec![2; 270], [vec![4], vec![2; 268]].concat(), [vec![2; 268], vec![4]].concat()]
    {
        let before = table.clone();
        for line in [&b"AT+CTSP=0,0\r"[..], b"AT+CTSP?\r", b"", b"AT+CTSP=9,9\r"] {
            assert_eq!(terminal_line(line, &mut table, &mut [0; 9]), Err(Refusal::Range));
        }
        assert_eq!(table, before);
    }
}

#[test]
fn a_line_sets_its_place_or_all_of_its_layer() {
    assert_eq!(set_by("AT+CTSP=0,0,0"), [(0, 0)]);
    assert_eq!(set_by("AT+CTSP=1,0,001"), [(1, 1)]);
    assert_eq!(set_by("AT+CTSP=3,1,10"), [(2, 3)]);
    assert_eq!(set_by("AT+CTSP=3,1,14"), [(6, 3)]);
    assert_eq!(set_by("AT+CTSP=0,2,20"), [(7, 0)]);
    assert_eq!(set_by("AT+CTSP=0,2,24"), [(11, 0)]);
    assert_eq!(set_by("AT+CTSP=1,3,0"), [(12, 1)]);
    assert_eq!(set_by("AT+CTSP=1,3,255"), [(267, 1)]);
    assert_eq!(set_by("AT+CTSP=0,4"), [(268, 0)]);
    for (layer, places) in [0..2, 2..7, 7..12, 12..268, 268..269].into_iter().enumerate() {
        let expected: Vec<_> = places.map(|place| (place, 3)).collect();
        assert_eq!(set_by(&format!("AT+CTSP=3,{layer}")), expected);
    }
    assert_eq!(set_by("AT+CTSP=2,3"), []);
}

#[test]
fn the_text_has_the_places_off_both_rising() {
    assert_eq!(text(&fresh()), "");
    let mut table = fresh();
    (table[0], table[6], table[267], table[268]) = (0, 1, 1, 3);
    let expected = "+CTSP: 0,0,0\r\n1,1,14\r\n1,3,255\r\n3,4\r\n";
    assert_eq!(text(&table), expected);
    for room in 0..expected.len() {
        let mut out = vec![9; room];
        assert_eq!(terminal_line(b"AT+CTSP?\r", &mut table, &mut out), Err(Refusal::Room));
        assert_eq!(out, vec![9; room]);
    }
    let mut out = [9; 50];
    assert_eq!(terminal_line(b"AT+CTSP?\r", &mut table, &mut out), Ok(expected.len()));
    assert_eq!(&out[..expected.len()], expected.as_bytes());
    assert_eq!(out[expected.len()..], [9; 50][expected.len()..]);
    assert_eq!(text(&[3; 269]).len(), 2_300);
}

#[test]
fn a_text_puts_its_table_back() {
    for step in 1..40 {
        let mut table: Table = fresh();
        for (place, profile) in table.iter_mut().enumerate().filter(|(place, _)| place % step == 0) {
            *profile = (place / step % 4) as u8;
        }
        let mut back = fresh();
        for line in text(&table).trim_start_matches("+CTSP: ").split_terminator('\n') {
            let line = format!("AT+CTSP={line}");
            assert_eq!(terminal_line(line.as_bytes(), &mut back, &mut []), Ok(0), "{line}");
        }
        assert_eq!(back, table);
    }
}
