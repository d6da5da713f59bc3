use super::*;

fn words(line: &[u8]) -> Vec<&[u8]> {
    Words::of(line).words.collect()
}

fn as_u64(word: &[u8]) -> Option<u64> {
    number(word, "N").ok()
}

#[test]
fn words_are_parted_by_spaces_and_tabs_alone() {
    let expected: [&[u8]; 3] = [b"a", b"bc", b"d"];
    assert_eq!(words(b"a bc d"), expected);
    assert_eq!(words(b"\t a\t\tbc  d \t"), expected);
    assert_eq!(words(b"a\x0Bb\x0Cc\rd\xC2\xA0e").len(), 1);
    assert_eq!(words(b"\0 \xFF\xFE").len(), 2);
}

#[test]
fn a_comment_starts_anywhere() {
    let expected: [&[u8]; 2] = [b"a", b"b"];
    assert_eq!(words(b"a b#c d"), expected);
    assert_eq!(words(b"a b # c # d"), expected);
    for line in ["", " \t", "#", " # a", "#a b"] {
        assert!(words(line.as_bytes()).is_empty(), "{}", line);
    }
}

#[test]
fn one_carriage_return_goes_with_a_line_end() {
    assert_eq!(without_line_end(b"a b\n"), b"a b");
    assert_eq!(without_line_end(b"a b\r\n"), b"a b");
    assert_eq!(without_line_end(b"a b\r\r\n"), b"a b\r");
    assert_eq!(without_line_end(b"a\rb\n"), b"a\rb");
    assert_eq!(without_line_end(b"a b"), b"a b");
    assert_eq!(without_line_end(b"a b\r"), b"a b\r");
    assert_eq!(without_line_end(b"\r\n"), b"");
    assert_eq!(without_line_end(b"\n"), b"");
}

#[test]
fn numbers_are_decimal_or_hexadecimal() {
    assert_eq!(as_u64(b"0"), Some(0));
    assert_eq!(as_u64(b"1234567890"), Some(1_234_567_890));
    assert_eq!(as_u64(b"0x1234abCDef"), Some(0x12_34AB_CDEF));
    assert_eq!(as_u64(b"010"), Some(10));
    assert_eq!(as_u64(b"0x010"), Some(16));
    let zeros = [b"0".repeat(100_000), b"7".to_vec()].concat();
    assert_eq!(as_u64(&zeros), Some(7));
    assert_eq!(as_u64(&[b"0x", &zeros[..]].concat()), Some(7));
}

#[test]
fn what_is_no_number() {
    for word in [
        "", "0x", "x1", "0X1", "0x0x1", "00x1", "1a", "a", "-", "-1", "+1", "0x-1", "0x+1", "1_0",
        "1.0", "1:", "0xg", "\u{661}",
    ] {
        assert_eq!(as_u64(word.as_bytes()), None, "{}", word);
    }
    assert_eq!(as_u64(b"1\xFF"), None);
    assert_eq!(as_u64(b"1\r"), None);
}

#[test]
fn numbers_have_their_width() {
    assert_eq!(number::<u8>(b"255", "N"), Ok(255));
    assert!(number::<u8>(b"256", "N").is_err());
    assert!(number::<u8>(b"0x100", "N").is_err());
    assert_eq!(number::<u16>(b"65535", "N"), Ok(65_535));
    assert!(number::<u16>(b"65536", "N").is_err());
    assert_eq!(number::<u32>(b"0xffffffff", "N"), Ok(u32::MAX));
    assert!(number::<u32>(b"0x100000000", "N").is_err());
    assert_eq!(as_u64(b"18446744073709551615"), Some(u64::MAX));
    assert_eq!(as_u64(b"18446744073709551616"), None);
    assert_eq!(as_u64(b"0xffffffffffffffff"), Some(u64::MAX));
    assert_eq!(as_u64(b"0x10000000000000000"), None);
    assert_eq!(as_u64(&b"9".repeat(100_000)), None);
    // one that would come back to 0 in 64 bits
    assert!(number::<u8>(b"0x100000000000000000", "N").is_err());
}

#[test]
fn bytes_are_pairs_of_digits_or_a_dash() {
    assert_eq!(hex(b"-", "H"), Ok(vec![]));
    assert_eq!(hex(b"00ffAbcD", "H"), Ok(vec![0, 0xFF, 0xAB, 0xCD]));
    for word in [
        "0", "000", "0x00", "0g", "g0", "--", "-00", "00-", "+1", "0 ",
    ] {
        assert!(hex(word.as_bytes(), "H").is_err(), "{}", word);
    }
    let long = b"5a".repeat(131_072);
    assert_eq!(hex(&long, "H"), Ok(vec![0x5A; 131_072]));
}

#[test]
fn bytes_may_have_a_length_that_they_need() {
    let of = |line: &'static [u8]| Words::of(line).hex_of::<2>("H").ok();
    assert_eq!(of(b"0102"), Some([1, 2]));
    assert_eq!(of(b"01"), None);
    assert_eq!(of(b"010203"), None);
    assert_eq!(of(b"-"), None);
}

#[test]
fn a_guid_has_its_first_three_fields_little_endian() {
    let footer = [
        0xDE, 0x82, 0xB5, 0x96, 0xB2, 0x1F, 0xF7, 0x45, 0xBA, 0xEA, 0xA3, 0x66, 0xC5, 0x5A, 0x08,
        0x2D,
    ];
    assert_eq!(guid(b"96b582de-1fb2-45f7-baea-a366c55a082d"), Ok(footer));
    assert_eq!(guid(b"96B582DE-1fb2-45F7-BAEA-A366C55A082D"), Ok(footer));
    for word in [
        "96b582de-1fb2-45f7-baea-a366c55a082",
        "96b582de-1fb2-45f7-baea-a366c55a082d0",
        "96b582de1fb245f7baeaa366c55a082d",
        "96b582de-1fb2-45f7-baeaa366c55a082d",
        "96b582de-1fb2-45f7-baea-a366c55a082d-",
        "96b582d-e1fb2-45f7-baea-a366c55a082d",
        "96b582dg-1fb2-45f7-baea-a366c55a082d",
        "{96b582de-1fb2-45f7-baea-a366c55a082d}",
        "0x96b582-1fb2-45f7-baea-a366c55a082d",
        "-",
    ] {
        assert!(guid(word.as_bytes()).is_err(), "{}", word);
    }
}

#[test]
fn names_are_letters_digits_and_underscores() {
    let name = |word: &'static [u8]| Words::of(word).name("NAME").is_ok();
    assert!(name(b"a"));
    assert!(name(b"_"));
    assert!(name(b"0x10"));
    assert!(name(b"AZaz09_"));
    for word in ["a-b", "a.b", "-", "a:b", "\u{e9}", "a/b", "a\r", "a\0"] {
        let mut words = Words::of(word.as_bytes());
        assert!(words.name("NAME").is_err(), "{}", word);
    }
    assert!(!name(b"a\xFF"));
    assert!(!name(b""));
}

#[test]
fn too_few_and_too_many_words_are_told() {
    let mut words = Words::of(b"one 2");
    assert_eq!(words.word("FIRST"), Ok(&b"one"[..]));
    assert_eq!(words.number::<u8>("SECOND"), Ok(2));
    assert_eq!(words.end(), Ok(()));
    let BadLine(reason) = words.word("THIRD").unwrap_err();
    assert_eq!(reason, "too few words; THIRD is missing");
    assert!(Words::of(b"x").end().is_err());
}

#[test]
fn a_reason_repeats_a_word_in_printable_ascii_and_not_all_of_a_long_one() {
    assert_eq!(quoted(b"abc"), "'abc'");
    assert_eq!(quoted(b"\xFF\r\n\0"), "'\\xff\\r\\n\\x00'");
    assert_eq!(quoted(&[b'a'; 40]), format!("'{}'", "a".repeat(40)));
    assert_eq!(quoted(&[b'a'; 41]), format!("'{}...'", "a".repeat(40)));
}

#[test]
fn bytes_are_shown_in_lower_case() {
    assert_eq!(shown(&[]), "-");
    assert_eq!(shown(&[0, 0x0A, 0xFF, 0x9C]), "000aff9c");
}
