use super::*;

#[test]
fn lines_may_follow_where_the_reader_stops() {
    let sections: [(&[&str], &[u8]); 2] = [(&["0\n"], &[]), (&["2\n", "03\n", "20\n"], &[0o03, 0o20])];
    for (section, codes) in sections {
        let text = [&["1\n", "03 MT 4\n", "0\n"][..], section, &["SELECT\n"]].concat();
        let mut lines = text.iter();
        let configuration = Configuration::from_lines(|| lines.next()).unwrap();
        assert_eq!(configuration.channels().count(), 1);
        assert_eq!(configuration.codes(), codes);
        assert_eq!(lines.next(), Some(&"SELECT\n"));
    }
}

/// Behind one channel and one down unit, which are four lines.
fn with_section(section: &str) -> Result<Vec<u8>, BadLine> {
    let text = format!("1\n03 MT 4\n1\n03 01\n{section}");
    Configuration::from_text(text.as_bytes()).map(|configuration| configuration.codes)
}

/// All codes that a packet may fail with, a line each.
fn all_codes() -> Vec<String> {
    let is_failure = |code: &u8| ![0o16, 0o17].contains(code);
    (0o02..=0o77).filter(is_failure).map(|code| format!("{code:02o}\n")).collect()
}

#[test]
fn codes_that_set_interlock() {
    assert_eq!(with_section("0\n"), Ok(vec![]));
    assert_eq!(with_section("1\n02\n"), Ok(vec![2]));
    assert_eq!(with_section("1\n77\n"), Ok(vec![63]));
    assert_eq!(with_section("4\n07\n10\n15\n20\n"), Ok(vec![7, 8, 13, 16]));
    let all = all_codes();
    let read = with_section(&format!("60\n{}", all.concat())).unwrap();
    assert_eq!((all.len(), read.len(), read[0], read[59]), (60, 60, 0o02, 0o77));
    assert!(read.windows(2).all(|pair| pair[0] < pair[1]));
    let configuration = Configuration { codes: vec![0o02, 0o15, 0o77], ..Configuration::default() };
    let setting: Vec<u8> = (0..=u8::MAX).filter(|&code| configuration.sets_interlock(code)).collect();
    assert_eq!(setting, [0o02, 0o15, 0o77]);
}

#[test]
fn the_third_section_is_needed_and_nothing_follows_it() {
    assert_eq!(with_section(""), Err(BadLine(5)));
    assert_eq!(with_section("0\n\n"), Err(BadLine(6)));
    assert_eq!(with_section("0\n02\n"), Err(BadLine(6)));
    assert_eq!(with_section("1\n02\n03\n"), Err(BadLine(7)));
    assert_eq!(with_section("1\n02\nSELECT"), Err(BadLine(7)));
    // Without down lines, without channels: all three counts are needed.
    assert_eq!(Configuration::from_text(b"0\n0\n0\n"), Ok(Configuration::default()));
    assert_eq!(Configuration::from_text(b"0\n0\n"), Err(BadLine(3)));
    assert_eq!(Configuration::from_text(b"0\n0\n1\n"), Err(BadLine(4)));
}

#[test]
fn counts_of_codes_that_are_bad() {
    let all = all_codes().concat();
    for count in ["61", "62", "60 ", " 60", "060", "+60", "60\r", "", "x", "6o", "74", "316", "4294967356"] {
        assert_eq!(with_section(&format!("{count}\n{all}")), Err(BadLine(5)), "{count:?}");
    }
    for count in ["00", "0 ", "-0", "# no section", "SELECT", "03 02"] {
        assert_eq!(with_section(&format!("{count}\n")), Err(BadLine(5)), "{count:?}");
    }
    assert_eq!(with_section("0"), Err(BadLine(5)));
    // One line too few, and one too many.
    assert_eq!(with_section(&format!("60\n{}", &all[..59 * 3])), Err(BadLine(65)));
    assert_eq!(with_section(&format!("59\n{all}")), Err(BadLine(65)));
    assert_eq!(with_section(&format!("60\n{all}77\n")), Err(BadLine(66)));
}

#[test]
fn codes_that_are_bad() {
    for code in [
        "00", "01", "16", "17", "08", "09", "18", "78", "79", "80", "87", "99", "2", "7", "002", "077", "100", "177",
        "", " 2", "2 ", "02 ", " 02", "0 2", "02 03", "02\r", "02\t", "+2", "-2", "0x", "0A", "1F", "1f", "o2", "0o2",
        "２",
    ] {
        assert_eq!(with_section(&format!("1\n{code}\n")), Err(BadLine(6)), "{code:?}");
        assert_eq!(with_section(&format!("3\n02\n{code}\n77\n")), Err(BadLine(7)), "{code:?}");
    }
    // 16 and 17 in the place where they would ascend.
    assert_eq!(with_section("3\n15\n16\n20\n"), Err(BadLine(7)));
    assert_eq!(with_section("3\n15\n17\n20\n"), Err(BadLine(7)));
    // Strictly ascending: equal, descending, and equal to one before the last.
    assert_eq!(with_section("2\n02\n02\n"), Err(BadLine(7)));
    assert_eq!(with_section("2\n10\n07\n"), Err(BadLine(7)));
    assert_eq!(with_section("3\n02\n03\n02\n"), Err(BadLine(8)));
    // The last line without LF, and a missing one.
    assert_eq!(with_section("2\n02\n03"), Err(BadLine(7)));
    assert_eq!(with_section("2\n02\n"), Err(BadLine(7)));
}

#[test]
fn every_kind_has_a_code_of_its_own() {
    for kind in Kind::WITH_UNITS {
        for count in [1, 16] {
            let text = format!("1\n09 {} {count}\n0\n0\n", kind.letters());
            let configuration = Configuration::from_text(text.as_bytes()).unwrap();
            assert_eq!(configuration.channel(ChannelNumber(9)), Some(Channel::Units { kind, count }));
        }
        for count in ["0", "17", "01", "35330", ""] {
            let text = format!("1\n09 {} {count}\n0\n0\n", kind.letters());
            assert_eq!(Configuration::from_text(text.as_bytes()), Err(BadLine(2)), "{text}");
        }
    }
    // The bulletin's other codes are no kinds, and a kind is two capitals.
    for code in ["CP", "HP", "PP", "JP", "PC", "TP", "RC", "CM", "mc", "Cr", "pT", "M", "MCC", "CR1", "IB", ""] {
        let text = format!("1\n09 {code} 1\n0\n0\n");
        assert_eq!(Configuration::from_text(text.as_bytes()), Err(BadLine(2)), "{text}");
    }
}

#[test]
fn first_bad_or_missing_line() {
    for (text, line) in [
        (&b""[..], 1),
        (b"17\n", 1),
        (b"00\n", 1),
        (b"1\n", 2),
        (b"1\n3 MT 4\n0\n", 2),
        (b"1\n03 MT 4\n", 3),
        (b"1\n03 MT 4\n0", 3),
        (b"1\n03 MT 4\n0\n\n", 4),
        (b"1\n03 MT 4\n0\n0\n\n", 5),
        (b"2\n15 MT 4\n0\n", 3),
        // A down count that is one too high takes the count of codes for a down unit.
        (b"1\n03 MT 4\n1\n0\n", 4),
        (b"1\n03 MT 4\n2\n03 00\n1\n02\n", 5),
        (b"1\n03 MT 4\n257\n", 3),
        (b"1\n03 MT 4\n2\n03 00\n03 00\n", 5),
        (b"1\n03 MD 35330\n1\n03 00\n", 4),
    ] {
        assert_eq!(Configuration::from_text(text), Err(BadLine(line)), "{}", String::from_utf8_lossy(text));
    }
}
