use super::*;

const SEV_HASHES: Guid = [
    0x1F, 0x37, 0x55, 0x72, 0x3B, 0x3A, 0x04, 0x4B, 0x92, 0x7B, 0x1D, 0xA6, 0xEF, 0xA8, 0xD4, 0x54,
];
const SEV_SECRET: Guid = [
    0x61, 0xB3, 0x2E, 0x4C, 0x9B, 0x7D, 0xC3, 0x4C, 0x80, 0x81, 0x12, 0x7C, 0x90, 0xD3, 0xD2, 0x94,
];
const RESET_BLOCK: Guid = [
    0xDE, 0x71, 0xF7, 0x00, 0x7E, 0x1A, 0xCB, 0x4F, 0x89, 0x0E, 0x68, 0xC7, 0x7E, 0x2F, 0xB4, 0x4E,
];
const OTHER: Guid = [7; 16];

/// An image of that length with that total, zero but for the footer.
fn image_with(length: usize, total: u16) -> Vec<u8> {
    let mut image = vec![0; length];
    put(&mut image, length - 48, &FOOTER);
    put(&mut image, length - 50, &total.to_le_bytes());
    image
}

/// Writes an entry whose last byte stands before `end`; gives where it begins.
fn put_entry(image: &mut [u8], end: usize, data: &[u8], guid: &Guid) -> usize {
    put(image, end - 16, guid);
    put(image, end - 18, &(data.len() as u16 + 18).to_le_bytes());
    put(image, end - 18 - data.len(), data);
    end - 18 - data.len()
}

/// The last 0x80 bytes of an image as source 004 lays them out.
fn source_004(total: u16) -> Vec<u8> {
    let mut image = image_with(0x80, total);
    let end = put_entry(&mut image, 0x80 - 50, &[1; 4], &RESET_BLOCK);
    let end = put_entry(&mut image, end, &[2; 8], &SEV_SECRET);
    let end = put_entry(&mut image, end, &[3; 8], &SEV_HASHES);
    assert_eq!(end, 4);
    image
}

fn number<T: std::fmt::Debug>(result: Result<T, Refusal>) -> u8 {
    let refusal = result.expect_err("accepted");
    assert_eq!(refusal.tested, None);
    refusal.number
}

fn found(place: usize, length: usize, tested: u64) -> Result<Found, Refusal> {
    Ok(Found {
        place,
        length,
        tested,
    })
}

// Reading

#[test]
fn m9_a_total_of_18_is_an_empty_table() {
    let image = image_with(50, 18);
    let summary = Summary {
        total: 18,
        entries: 0,
    };
    assert_eq!(read(&image), Ok(summary));
    assert_eq!(find(&image, &OTHER), Err(Refusal::not_found(0)));
}

#[test]
fn m10_a_total_of_17_is_3() {
    assert_eq!(number(read(&image_with(50, 17))), 3);
    assert_eq!(number(read(&image_with(5000, 17))), 3);
    assert_eq!(number(read(&image_with(50, 0))), 3);
}

#[test]
fn source_004_has_three_entries_and_0x5c_bytes() {
    let image = source_004(0x5C);
    let summary = Summary {
        total: 0x5C,
        entries: 3,
    };
    assert_eq!(read(&image), Ok(summary));
    assert_eq!(find(&image, &RESET_BLOCK), found(0x38, 4, 1));
    assert_eq!(find(&image, &SEV_SECRET), found(0x1E, 8, 2));
    assert_eq!(find(&image, &SEV_HASHES), found(4, 8, 3));
    assert_eq!(find(&image, &OTHER), Err(Refusal::not_found(3)));
    // the footer is no entry
    assert_eq!(find(&image, &FOOTER), Err(Refusal::not_found(3)));
}

#[test]
fn an_entry_is_counted_from_the_footer_and_behind_the_last_is_8_alone() {
    let image = source_004(0x5C);
    for (index, guid, place, length) in [
        (0, RESET_BLOCK, 0x38, 4),
        (1, SEV_SECRET, 0x1E, 8),
        (2, SEV_HASHES, 4, 8),
    ] {
        let found = Entry {
            guid,
            place,
            length,
        };
        assert_eq!(entry(&image, index), Ok(found));
    }
    for index in [3, 4, 1 << 32, usize::MAX] {
        assert_eq!(number(entry(&image, index)), 8);
    }
    assert_eq!(number(entry(&image_with(50, 18), 0)), 8);
    // a table that is refused, whatever the index
    for index in [0, 3] {
        assert_eq!(number(entry(&image[..49], index)), 1);
        assert_eq!(number(entry(&image[1..0x7F], index)), 2);
        assert_eq!(number(entry(&source_004(17), index)), 3);
        assert_eq!(number(entry(&source_004(0x5B), index)), 6);
    }
}

#[test]
fn a_total_of_0x72_is_6_with_zeros_before_and_good_with_a_fourth_entry() {
    let mut image = vec![0; 0x80];
    image.extend(source_004(0x72));
    assert_eq!(number(read(&image)), 6);
    assert_eq!(number(find(&image, &RESET_BLOCK)), 6);
    put_entry(&mut image, 0x84, &[4; 4], &OTHER);
    let summary = Summary {
        total: 0x72,
        entries: 4,
    };
    assert_eq!(read(&image), Ok(summary));
    assert_eq!(find(&image, &OTHER), found(0x6E, 4, 4));
}

#[test]
fn a_short_image_is_1_and_the_footer_comes_before_the_total() {
    let image = image_with(50, 17);
    assert_eq!(number(read(&[])), 1);
    assert_eq!(number(read(&image[1..])), 1);
    assert_eq!(number(read(&[0; 49])), 1);
    assert_eq!(number(read(&[0; 50])), 2);
    for k in 2..18 {
        let mut wrong = image.clone();
        wrong[k] ^= 0x10;
        assert_eq!(number(read(&wrong)), 2);
    }
    assert_eq!(number(read(&image)), 3);
}

#[test]
fn the_total_is_at_most_the_length_less_32() {
    let mut image = image_with(50 + 22, 40);
    put_entry(&mut image, 22, &[9; 4], &OTHER);
    assert_eq!(read(&image).map(|t| t.entries), Ok(1));
    put(&mut image, 22, &[41, 0]);
    assert_eq!(number(read(&image)), 3);
    assert_eq!(number(read(&image_with(50, 19))), 3);
    assert_eq!(number(read(&image_with(50, 65_535))), 3);
}

#[test]
fn a_total_from_19_to_35_is_6() {
    let mut image = image_with(300, 18);
    put_entry(&mut image, 250, &[], &OTHER);
    for total in 19..=35u16 {
        put(&mut image, 250, &total.to_le_bytes());
        assert_eq!(number(read(&image)), 6);
    }
    put(&mut image, 250, &[36, 0]);
    assert_eq!(read(&image).map(|t| t.entries), Ok(1));
    put(&mut image, 250, &[37, 0]);
    assert_eq!(number(read(&image)), 6);
}

#[test]
fn fewer_than_18_bytes_left_are_6_at_the_image_start_too() {
    for left in 1..=17u16 {
        let image = image_with(50 + usize::from(left), 18 + left);
        assert_eq!(number(read(&image)), 6);
    }
    let mut image = image_with(50 + 18, 18 + 18);
    put_entry(&mut image, 18, &[], &OTHER);
    assert_eq!(find(&image, &OTHER), found(0, 0, 1));
}

#[test]
fn an_entry_length_is_from_18_to_what_is_left() {
    let mut image = image_with(300, 18 + 30);
    put_entry(&mut image, 250, &[1; 12], &OTHER);
    assert_eq!(find(&image, &OTHER), found(220, 12, 1));
    for length in [0, 1, 17, 18, 29, 31, 48, 65_535u16] {
        put(&mut image, 232, &length.to_le_bytes());
        assert_eq!(number(read(&image)), 6, "{}", length);
    }
}

#[test]
fn all_is_checked_before_a_lookup() {
    let mut image = source_004(0x5C);
    assert!(find(&image, &RESET_BLOCK).is_ok());
    image[12] = 17;
    assert_eq!(number(find(&image, &RESET_BLOCK)), 6);
}

#[test]
fn the_nearest_to_the_footer_is_found_and_data_may_be_empty() {
    let mut image = image_with(200, 18 + 18 + 20 + 18);
    let end = put_entry(&mut image, 150, &[], &OTHER);
    let end = put_entry(&mut image, end, &[5, 6], &SEV_SECRET);
    put_entry(&mut image, end, &[], &SEV_SECRET);
    assert_eq!(find(&image, &OTHER), found(132, 0, 1));
    assert_eq!(find(&image, &SEV_SECRET), found(112, 2, 2));
}

#[test]
fn the_largest_table_is_read() {
    let length = 65_535 + 32;
    let mut image = image_with(length, 65_535);
    put_entry(&mut image, length - 50, &[1; 65_535 - 36], &OTHER);
    assert_eq!(find(&image, &OTHER), found(0, 65_499, 1));
    assert_eq!(number(read(&image[1..])), 3);
}

// Writing

#[test]
fn a_start_writes_footer_and_total_only() {
    for length in [50, 51, 200] {
        let mut image = vec![0xA5; length];
        assert_eq!(start(&mut image), Ok(()));
        let mut expected = vec![0xA5; length - 50];
        expected.extend([18, 0]);
        expected.extend(FOOTER);
        expected.extend([0xA5; 32]);
        assert_eq!(image, expected);
    }
    let mut short = [0xA5; 49];
    assert_eq!(number(start(&mut short)), 12);
    assert_eq!(short, [0xA5; 49]);
    assert_eq!(number(start(&mut [])), 12);
}

#[test]
fn extending_builds_the_table_of_source_004() {
    let mut image = vec![0; 0x80];
    start(&mut image).unwrap();
    assert_eq!(extend(&mut image, &RESET_BLOCK, &[1; 4]), Ok(0x28));
    assert_eq!(extend(&mut image, &SEV_SECRET, &[2; 8]), Ok(0x42));
    assert_eq!(extend(&mut image, &SEV_HASHES, &[3; 8]), Ok(0x5C));
    assert_eq!(image, source_004(0x5C));
}

#[test]
fn only_the_total_and_the_entry_are_written() {
    let mut image = vec![0xA5; 200];
    start(&mut image).unwrap();
    image[100..150].fill(0);
    let before = image.clone();
    assert_eq!(extend(&mut image, &OTHER, &[1; 32]), Ok(68));
    assert_eq!(image[..100], before[..100]);
    assert_eq!(image[100..132], [1; 32]);
    assert_eq!(image[132..134], [50, 0]);
    assert_eq!(image[134..150], OTHER);
    assert_eq!(image[150..152], [68, 0]);
    assert_eq!(image[152..], before[152..]);
}

#[test]
fn a_guid_may_be_repeated_and_the_first_one_is_found() {
    let mut image = vec![0; 200];
    start(&mut image).unwrap();
    assert_eq!(extend(&mut image, &OTHER, &[1]), Ok(37));
    assert_eq!(extend(&mut image, &OTHER, &[]), Ok(55));
    assert_eq!(extend(&mut image, &FOOTER, &[]), Ok(73));
    assert_eq!(find(&image, &OTHER), found(131, 1, 1));
    assert_eq!(find(&image, &FOOTER), found(95, 0, 3));
}

#[test]
fn extending_needs_a_good_table() {
    let mut short = [0; 49];
    assert_eq!(number(extend(&mut short, &OTHER, &[])), 1);
    assert_eq!(number(extend(&mut [0; 50], &OTHER, &[])), 2);
    assert_eq!(number(extend(&mut image_with(50, 17), &OTHER, &[])), 3);
    // before the 3 of a new total that is too large
    let mut broken = image_with(100, 36);
    assert_eq!(number(extend(&mut broken, &OTHER, &[0; 65_535])), 6);
}

#[test]
fn a_new_total_above_65535_is_3_before_12_and_13() {
    let refused = |length: usize, data: usize| {
        let mut image = vec![0xA5; length];
        start(&mut image).unwrap();
        let before = image.clone();
        let number = number(extend(&mut image, &OTHER, &vec![1; data]));
        assert_eq!(image, before);
        number
    };
    assert_eq!(refused(100, 65_536 - 36), 3);
    assert_eq!(refused(100, 100_000), 3);
    assert_eq!(refused(100, 65_535 - 36), 12);
    assert_eq!(refused(100_000, 65_536 - 36), 3);
    assert_eq!(refused(100_000, 65_535 - 36), 13);
    let mut image = vec![0; 100_000];
    start(&mut image).unwrap();
    let data = [1; 65_535 - 36];
    assert_eq!(extend(&mut image, &OTHER, &data), Ok(65_535));
    assert_eq!(read(&image).map(|t| (t.total, t.entries)), Ok((65_535, 1)));
    assert_eq!(number(extend(&mut image, &OTHER, &[])), 3);
}

#[test]
fn room_is_up_to_the_image_start_and_12_comes_before_13() {
    let mut image = vec![0; 50 + 30];
    start(&mut image).unwrap();
    image[12] = 1;
    assert_eq!(number(extend(&mut image, &OTHER, &[1; 13])), 12);
    assert_eq!(number(extend(&mut image, &OTHER, &[1; 12])), 13);
    image[12] = 0;
    assert_eq!(number(extend(&mut image, &OTHER, &[1; 13])), 12);
    assert_eq!(extend(&mut image, &OTHER, &[1; 12]), Ok(48));
    assert_eq!(number(extend(&mut image, &OTHER, &[])), 12);
}

#[test]
fn every_byte_to_be_used_must_be_zero_and_no_other() {
    let (first, end) = (150 - 18 - 5, 150);
    for at in first - 1..end {
        let mut image = vec![0; 200];
        start(&mut image).unwrap();
        image[at] = 0x80;
        let before = image.clone();
        let result = extend(&mut image, &OTHER, &[1; 5]);
        if at < first {
            assert_eq!(result, Ok(41));
        } else {
            assert_eq!(number(result), 13);
            assert_eq!(image, before);
        }
    }
}
