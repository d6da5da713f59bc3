use super::*;

mod places;

/// Length of the short image of most tests: of the EFS candidates its window holds the first alone.
const L: usize = 0x8_0000;
/// Where that candidate and the two directories lie in it.
const EFS: usize = 0x2_0000;
const ONE: usize = 0x2_1000;
const TWO: usize = 0x2_2000;

const MIB: usize = 1 << 20;
/// The lengths of flash parts that boards have.
const PARTS: [usize; 3] = [4 * MIB, 8 * MIB, 16 * MIB];
/// The EFS candidates of document 01, in its order.
const CANDIDATES: [u64; 6] = [
    0xFFFA_0000,
    0xFFF2_0000,
    0xFFE2_0000,
    0xFFC2_0000,
    0xFF82_0000,
    0xFF02_0000,
];
const FOUR_GIB: u64 = 0x1_0000_0000;

/// Fletcher's sum by two running sums: another way to it than the one under test.
fn running_sums(bytes: &[u8]) -> u32 {
    let (mut s, mut t) = (0u32, 0u32);
    for pair in bytes.chunks(2) {
        s = (s + u32::from(pair[0]) + 256 * u32::from(pair[1])) % 65_535;
        t = (t + s) % 65_535;
    }
    let nonzero = |half: u32| if half == 0 { 65_535 } else { half };
    nonzero(t) * 65_536 + nonzero(s)
}

/// An entry's bytes, written field by field.
fn raw(kind: u8, subprogram: u8, size: u32, location: u64, mode: u8) -> [u8; 16] {
    let mut bytes = [0; 16];
    bytes[0] = kind;
    bytes[1] = subprogram;
    bytes[4..8].copy_from_slice(&size.to_le_bytes());
    bytes[8..16].copy_from_slice(&location.to_le_bytes());
    bytes[15] |= mode << 6;
    bytes
}

/// Entries of which no two have the same type and subprogram: 256 of type 1, then of type 2, and so on.
fn different(amount: usize) -> Vec<[u8; 16]> {
    let entry = |k: usize| raw(1 + (k / 256) as u8, (k % 256) as u8, 0, 0, 1);
    (0..amount).map(entry).collect()
}

fn put_efs(image: &mut [u8], at: usize, at_14: u32, at_10: u32) {
    put(image, at, &[0xAA, 0x55, 0xAA, 0x55]);
    put(image, at + 0x10, &at_10.to_le_bytes());
    put(image, at + 0x14, &at_14.to_le_bytes());
}

fn put_directory(image: &mut [u8], o: usize, cookie: &[u8; 4], entries: &[[u8; 16]]) {
    put(image, o, cookie);
    put(image, o + 8, &(entries.len() as u32).to_le_bytes());
    put(image, o + 12, &[0; 4]);
    put(image, o + 16, &entries.concat());
    seal(image, o);
}

/// Writes the checksum that fits the directory's bytes.
fn seal(image: &mut [u8], o: usize) {
    let end = o + 16 + 16 * u32_at(image, o + 8) as usize;
    let sum = running_sums(&image[o + 8..end]);
    put(image, o + 4, &sum.to_le_bytes());
}

/// The physical address of the first byte of an image of that length.
fn physical(length: usize) -> u64 {
    FOUR_GIB - length as u64
}

/// An image of that length with an EFS at the first candidate and these entries in level one at `ONE`.
fn image_of_length(length: usize, entries: &[[u8; 16]]) -> Vec<u8> {
    let mut image = vec![0; length];
    put_efs(&mut image, length - 0x6_0000, ONE as u32, 0);
    put_directory(&mut image, ONE, b"$PSP", entries);
    image
}

/// A short image with these entries in level one.
fn image_of(entries: &[[u8; 16]]) -> Vec<u8> {
    image_of_length(L, entries)
}

/// A short image with level two behind a 0x40 entry between two others.
fn image_of_two(level_two: &[[u8; 16]]) -> Vec<u8> {
    let mut image = image_of(&[
        raw(1, 0, 0, 0, 1),
        raw(0x40, 0, 0, TWO as u64, 1),
        raw(2, 0, 0, 0, 1),
    ]);
    put_directory(&mut image, TWO, b"$PL2", level_two);
    image
}

/// The refusal's number, which must come without a count.
fn number<T: std::fmt::Debug>(result: Result<T, Refusal>) -> u8 {
    let refusal = result.expect_err("accepted");
    assert_eq!(refusal.tested, None);
    refusal.number
}

fn entry_of(kind: u8, location: u64, mode: u32) -> Entry {
    Entry {
        kind,
        subprogram: 0,
        size: 0,
        location,
        mode,
    }
}

// The window

#[test]
fn the_window_ends_at_four_gibibytes_and_is_as_long_as_the_image() {
    for (length, first) in [
        (1, 0xFFFF_FFFF),
        (2, 0xFFFF_FFFE),
        (0x5_FFFF, 0xFFFA_0001),
        (0x6_0000, 0xFFFA_0000),
        (4 * MIB, 0xFFC0_0000),
        (8 * MIB, 0xFF80_0000),
        (16 * MIB - 1, 0xFF00_0001),
        (16 * MIB, 0xFF00_0000),
    ] {
        let offset = |address| PhysicalAddress(address).flash_offset(length);
        let last = length as u64 - 1;
        assert_eq!(offset(first), Ok(FlashOffset(0)));
        assert_eq!(offset(first + last / 2), Ok(FlashOffset(last / 2)));
        assert_eq!(offset(0xFFFF_FFFF), Ok(FlashOffset(last)));
        for outside in [0, last, 0xFEFF_FFFF, first - 1, FOUR_GIB, u64::MAX] {
            assert_eq!(number(offset(outside)), 7, "{length:#x} {outside:#x}");
        }
    }
}

#[test]
fn the_fifth_candidate_lies_at_0x20000_in_eight_mebibytes() {
    let offset = |length| PhysicalAddress(0xFF82_0000).flash_offset(length);
    assert_eq!(offset(8 * MIB), Ok(FlashOffset(0x2_0000)));
    assert_eq!(offset(16 * MIB), Ok(FlashOffset(0x82_0000)));
    assert_eq!(number(offset(4 * MIB)), 7);
}

// Level, image length, EFS

#[test]
fn the_level_comes_before_the_image_length() {
    for level in [0, 3, u32::MAX] {
        assert_eq!(number(directory(&[], level)), 9);
        assert_eq!(number(entry(&[], level, 0)), 9);
        assert_eq!(number(bytes(&[], level, 0)), 9);
        assert_eq!(number(find(&[], level, 0, 0)), 9);
        assert_eq!(number(View::of(&[], level)), 9);
    }
    for level in [1, 2] {
        assert_eq!(number(directory(&[], level)), 15);
    }
}

#[test]
fn the_image_length_has_both_limits() {
    assert_eq!(number(find_image(&[], 0, 0)), 15);
    assert_eq!(number(find_image(&[0], 0, 0)), 2);
    let longest = image_of_length(LONGEST_IMAGE, &[]);
    assert_eq!(directory(&longest, 1).map(|d| d.place), Ok(ONE as u64));
    let too_long = image_of_length(LONGEST_IMAGE + 1, &[]);
    assert_eq!(number(directory(&too_long, 1)), 15);
}

#[test]
fn each_candidate_counts_from_the_length_on_that_brings_it_into_the_window() {
    for candidate in CANDIDATES {
        let length = (FOUR_GIB - candidate) as usize;
        let mut image = vec![0; length];
        put_efs(&mut image, 0, 0x1000, 0);
        put_directory(&mut image, 0x1000, b"$PSP", &[]);
        let place = directory(&image, 1).map(|d| d.place);
        assert_eq!(place, Ok(0x1000), "{candidate:#x}");
        assert_eq!(efs(&image).map(|efs| efs.place), Ok(0));
        // a byte less, at either end of the image: the candidate lies below the window and is passed over
        assert_eq!(number(directory(&image[1..], 1)), 2, "{candidate:#x}");
        image.pop();
        assert_eq!(number(directory(&image, 1)), 2, "{candidate:#x}");
        // a byte more: the candidate lies at 1
        let longer = [&[0], &image[..], &[0]].concat();
        if longer.len() <= LONGEST_IMAGE {
            assert_eq!(efs(&longer).map(|efs| efs.place), Ok(1));
        }
    }
}

#[test]
fn no_image_below_0x60000_bytes_has_an_efs() {
    for length in [1, 0x24, 0x2_0000, 0x2_0024, 0x5_FFFF] {
        // the signature everywhere, so that any place would do
        let image: Vec<u8> = EFS_SIGNATURE.into_iter().cycle().take(length).collect();
        assert_eq!(number(efs(&image)), 2, "{length:#x}");
    }
    let image: Vec<u8> = EFS_SIGNATURE.into_iter().cycle().take(0x6_0000).collect();
    assert_eq!(efs(&image).map(|efs| efs.place), Ok(0));
}

#[test]
fn an_efs_needs_each_byte_of_its_signature() {
    let good = image_of(&[]);
    assert!(directory(&good, 1).is_ok());
    for k in 0..4 {
        let mut image = good.clone();
        image[EFS + k] ^= 1;
        assert_eq!(number(directory(&image, 1)), 2);
    }
}

#[test]
fn the_candidates_in_the_window_are_tried_in_the_order_of_the_paper() {
    for (length, in_window) in [(L, 1), (MIB, 2), (4 * MIB, 4), (8 * MIB, 5), (16 * MIB, 6)] {
        let at = |k: usize| (CANDIDATES[k] - physical(length)) as usize;
        let mut image = vec![0; length];
        for k in 0..in_window {
            let o = 0x1000 * (k + 1);
            put_efs(&mut image, at(k), o as u32, 0);
            put_directory(&mut image, o, b"$PSP", &[]);
        }
        for k in 0..in_window {
            let place = 0x1000 * (k as u64 + 1);
            assert_eq!(directory(&image, 1).map(|d| d.place), Ok(place));
            image[at(k)] = 0;
        }
        assert_eq!(number(directory(&image, 1)), 2);
    }
}

#[test]
fn an_efs_where_16_mebibytes_would_have_it_is_none_in_a_shorter_image() {
    // in none of these lengths does a candidate lie at such an offset by its own window
    for length in [0x2_0024, 0x7_0000, 3 * MIB, 11 * MIB] {
        let mut image = vec![0; length];
        put_directory(&mut image, 0x1000, b"$PSP", &[]);
        for candidate in CANDIDATES {
            let o = (candidate - 0xFF00_0000) as usize;
            if o + 0x24 <= length {
                put_efs(&mut image, o, 0x1000, 0);
            }
        }
        assert_eq!(number(directory(&image, 1)), 2, "{length:#x}");
    }
}

#[test]
fn a_bad_first_efs_does_not_lead_to_the_next() {
    let mut image = vec![0; MIB];
    let [first, second] = [0xA_0000, EFS];
    put_efs(&mut image, second, ONE as u32, 0);
    put_directory(&mut image, ONE, b"$PSP", &[]);
    assert!(directory(&image, 1).is_ok());
    put_efs(&mut image, first, 0, 0);
    assert_eq!(number(directory(&image, 1)), 8);
    put_efs(&mut image, first, 0x1234_5678, 0);
    assert_eq!(number(directory(&image, 1)), 7);
    image[first + 3] = 0;
    assert!(directory(&image, 1).is_ok());
}

// Pointers

#[test]
fn the_later_pointer_wins_and_the_early_one_stands_in_for_it() {
    let mut image = image_of(&[]);
    put_directory(&mut image, 0x100, b"$PSP", &[]);
    let place = |image: &[u8]| directory(image, 1).map(|d| d.place);
    put_efs(&mut image, EFS, ONE as u32, 0x100);
    assert_eq!(place(&image), Ok(ONE as u64));
    for absent in [0, 0xFFFF_FFFF] {
        put_efs(&mut image, EFS, absent, 0x100);
        assert_eq!(place(&image), Ok(0x100));
        for early in [0, 0xFFFF_FFFF] {
            put_efs(&mut image, EFS, absent, early);
            assert_eq!(number(place(&image)), 8);
        }
    }
}

#[test]
fn a_wrong_later_pointer_does_not_lead_to_the_early_one() {
    let mut image = image_of(&[]);
    let first = physical(L) as u32;
    for wrong in [0x1234_5678, L as u32, 0x0100_0000, 0xFF00_0000, first - 1] {
        put_efs(&mut image, EFS, wrong, ONE as u32);
        assert_eq!(number(directory(&image, 1)), 7, "{:#x}", wrong);
    }
    // taken, but too near to the image's end
    put_efs(&mut image, EFS, 0xFFFF_FFFE, ONE as u32);
    assert_eq!(number(directory(&image, 1)), 1);
}

#[test]
fn pointers_are_physical_or_offsets_by_the_length_of_the_image() {
    for length in [0x6_0000, L, PARTS[0], PARTS[1], PARTS[2]] {
        let mut image = image_of_length(length, &[]);
        let last = length - 16;
        let efs = length - 0x6_0000;
        // an EFS at 0 leaves no room for a directory there
        let low = if efs == 0 { 0x100 } else { 0 };
        put_directory(&mut image, low, b"$PSP", &[]);
        put_directory(&mut image, last, b"$PSP", &[]);
        let mut place = |pointer: u64| {
            put_efs(&mut image, efs, pointer as u32, 0);
            directory(&image, 1)
                .map(|d| d.place as usize)
                .map_err(|refusal| refusal.number)
        };
        let (first, length) = (physical(length), length as u64);
        for (pointer, expected) in [
            // physical, from the first address of the window on
            (first + low as u64, Ok(low)),
            (first + last as u64, Ok(last)),
            (first + last as u64 + 1, Err(1)),
            (0xFFFF_FFFE, Err(1)),
            // a flash offset, to the image's last byte
            (last as u64, Ok(last)),
            (last as u64 + 1, Err(1)),
            (length - 1, Err(1)),
            // neither
            (length, Err(7)),
            (length + 1, Err(7)),
            (0x7FFF_FFFF, Err(7)),
            (first - 1, Err(7)),
        ] {
            assert_eq!(place(pointer), expected, "{length:#x} {pointer:#x}");
        }
        // what a window of 16 MiB would take
        if length < 16 * MIB as u64 {
            for pointer in [0xFF00_0000, 0xFF00_0000 + last as u64, 0x00FF_FFFF] {
                assert_eq!(place(pointer), Err(7), "{length:#x} {pointer:#x}");
            }
        }
    }
}

#[test]
fn a_pointer_at_the_first_address_of_the_window_leads_to_offset_0() {
    for length in PARTS {
        let mut image = image_of_length(length, &[]);
        // no directory is there yet
        put_efs(&mut image, length - 0x6_0000, physical(length) as u32, 0);
        assert_eq!(number(directory(&image, 1)), 2);
        put_directory(&mut image, 0, b"$PSP", &different(3));
        assert_eq!(directory(&image, 1).map(|d| (d.place, d.total)), Ok((0, 3)));
    }
}

// The directory

#[test]
fn m1_and_m2_checksums() {
    assert_eq!(checksum(&[0; 8]), 0xFFFF_FFFF);
    let mut body = vec![1, 0, 0, 0, 0, 0, 0, 0];
    body.extend(raw(1, 0, 0x100, 0x1000, 1));
    assert_eq!(checksum(&body), 0x8614_5102);
}

#[test]
fn the_weights_fall_from_m_to_1() {
    // words 1, 2, 3, 4: S = 10, T = 4*1 + 3*2 + 2*3 + 1*4
    assert_eq!(checksum(&[1, 0, 2, 0, 3, 0, 4, 0]), 20 << 16 | 10);
}

#[test]
fn each_half_has_65535_for_0() {
    // words 0xFFFE, 0, 0, 1: S = 65,535, T = 4*0xFFFE + 1 = -4 + 1
    assert_eq!(checksum(&[0xFE, 0xFF, 0, 0, 0, 0, 1, 0]), 0xFFFC_FFFF);
    // words 1, 0, 0, 0xFFFB: S = 0xFFFC, T = 4 + 0xFFFB = 65,535
    assert_eq!(checksum(&[1, 0, 0, 0, 0, 0, 0xFB, 0xFF]), 0xFFFF_FFFC);
}

#[test]
fn the_checksum_is_the_running_sums_over_full_directories_too() {
    let mut body = vec![0xFF; 8 + 16 * 512];
    assert_eq!(checksum(&body), running_sums(&body));
    let mut state = 1u32;
    for byte in &mut body {
        state = state.wrapping_mul(1_103_515_245).wrapping_add(12_345);
        *byte = (state >> 16) as u8;
    }
    assert_eq!(checksum(&body), running_sums(&body));
}

#[test]
fn a_stored_half_of_0_never_matches() {
    let mut image = image_of(&[]);
    assert_eq!(u32_at(&image, ONE + 4), 0xFFFF_FFFF);
    assert!(directory(&image, 1).is_ok());
    for stored in [0, 0xFFFF_0000u32, 0x0000_FFFF] {
        put(&mut image, ONE + 4, &stored.to_le_bytes());
        assert_eq!(number(directory(&image, 1)), 4);
    }
}

/// A directory of level two as a view meets it, every fault in it, the faults then put right one
/// after the other: the numbers come in the order of the paper.
#[test]
fn the_directory_checks_come_in_their_order() {
    let o = L - 48;
    let mut image = image_of(&[raw(0x40, 0, 0, o as u64, 1)]);
    put(&mut image, o, b"$PSP");
    put(&mut image, o + 8, &513u32.to_le_bytes());
    put(&mut image, o + 12, &[0, 0, 0, 1]);
    let mut bad_entry = raw(0x40, 0, 0, 0, 0);
    bad_entry[3] = 0x80;
    put(&mut image, o + 16, &bad_entry);
    put(&mut image, o + 32, &bad_entry);
    let full = image.clone();
    // too short for the header, whatever its bytes are
    put(&mut image, ONE + 24, &(L as u64 - 15).to_le_bytes());
    image[ONE + 31] |= 1 << 6;
    seal(&mut image, ONE);
    assert_eq!(number(directory(&image, 2)), 1);

    let mut image = full;
    assert_eq!(number(directory(&image, 2)), 2);
    put(&mut image, o, b"$PL2");
    assert_eq!(number(directory(&image, 2)), 3);
    put(&mut image, o + 8, &3u32.to_le_bytes());
    assert_eq!(number(directory(&image, 2)), 1);
    put(&mut image, o + 8, &2u32.to_le_bytes());
    assert_eq!(number(directory(&image, 2)), 4);
    seal(&mut image, o);
    assert_eq!(number(directory(&image, 2)), 5);
    put(&mut image, o + 12, &[0; 4]);
    seal(&mut image, o);
    assert_eq!(number(directory(&image, 2)), 5);
    image[o + 16 + 3] = 0;
    seal(&mut image, o);
    // entry by entry: the first one's 14 before the second one's 5
    assert_eq!(number(directory(&image, 2)), 14);
    image[o + 16] = 1;
    seal(&mut image, o);
    assert_eq!(number(directory(&image, 2)), 5);
    image[o + 32 + 3] = 0;
    seal(&mut image, o);
    assert_eq!(number(directory(&image, 2)), 14);
    // now the second entry is as the first
    image[o + 32] = 1;
    seal(&mut image, o);
    assert_eq!(number(directory(&image, 2)), 18);
    image[o + 32] = 2;
    seal(&mut image, o);
    assert_eq!(directory(&image, 2).map(|d| d.total), Ok(2));
}

#[test]
fn the_cookie_is_that_of_the_level_asked_for() {
    let mut image = image_of_two(&[]);
    assert_eq!(directory(&image, 1).map(|d| d.level), Ok(Level::One));
    assert_eq!(directory(&image, 2).map(|d| d.level), Ok(Level::Two));
    put(&mut image, TWO, b"$PSP");
    assert_eq!(number(directory(&image, 2)), 2);
    put(&mut image, ONE, b"$PL2");
    assert_eq!(number(directory(&image, 1)), 2);
    put(&mut image, ONE, b"$psp");
    assert_eq!(number(directory(&image, 1)), 2);
}

#[test]
fn n_is_at_most_512() {
    let mut image = vec![0; L];
    put_efs(&mut image, EFS, 0x100, 0);
    put_directory(&mut image, 0x100, b"$PSP", &different(512));
    assert_eq!(directory(&image, 1).map(|d| d.total), Ok(512));
    put_directory(&mut image, 0x100, b"$PSP", &different(513));
    assert_eq!(number(directory(&image, 1)), 3);
    // the total comes before entries that repeat
    put_directory(&mut image, 0x100, b"$PSP", &[raw(1, 2, 3, 4, 1); 513]);
    assert_eq!(number(directory(&image, 1)), 3);
    put(&mut image, 0x108, &u32::MAX.to_le_bytes());
    assert_eq!(number(directory(&image, 1)), 3);
}

#[test]
fn too_large_a_total_is_3_even_at_the_image_end() {
    let mut image = image_of(&[]);
    put_efs(&mut image, EFS, (L - 16) as u32, 0);
    put_directory(&mut image, L - 16, b"$PSP", &[]);
    assert_eq!(directory(&image, 1).map(|d| d.total), Ok(0));
    for (n, expected) in [(1u32, 1), (512, 1), (513, 3)] {
        put(&mut image, L - 8, &n.to_le_bytes());
        assert_eq!(number(directory(&image, 1)), expected);
    }
}

#[test]
fn all_entries_are_present_to_the_last_byte() {
    let o = L - 16 - 5 * 16;
    let mut image = image_of(&[]);
    put_efs(&mut image, EFS, o as u32, 0);
    put_directory(&mut image, o, b"$PSP", &different(5));
    assert_eq!(directory(&image, 1).map(|d| d.total), Ok(5));
    // the same bytes one place further on, where the last one has no room
    image.copy_within(o..L - 1, o + 1);
    put_efs(&mut image, EFS, o as u32 + 1, 0);
    assert_eq!(number(directory(&image, 1)), 1);
}

#[test]
fn reserved_bits_of_header_and_entries_are_5() {
    let good = image_of(&[raw(1, 0, 0, 0, 1), raw(2, 0, 0, 0, 1)]);
    for at in [12, 13, 14, 15, 18, 19, 34, 35] {
        for bit in [0x01, 0x80] {
            let mut image = good.clone();
            image[ONE + at] = bit;
            seal(&mut image, ONE);
            assert_eq!(number(directory(&image, 1)), 5);
        }
    }
}

#[test]
fn a_0x40_is_misplaced_in_level_two_alone() {
    let image = image_of_two(&[raw(7, 0, 0, 0, 0), raw(0x40, 9, 0, 0, 3)]);
    assert_eq!(directory(&image, 1).map(|d| d.total), Ok(3));
    assert_eq!(number(directory(&image, 2)), 14);
    assert_eq!(number(find_image(&image, 7, 0)), 14);
}

// Entries that repeat

/// Where the directories of `image_with` lie, with room for 512 entries in each.
const WIDE_ONE: usize = 0x1000;
const WIDE_TWO: usize = 0x8000;

/// An image with these entries in that level. Behind them in level one, or alone there, stands a lead to level two.
fn image_with(level: u32, entries: &[[u8; 16]]) -> Vec<u8> {
    let lead = [raw(0x40, 0xFF, 0, WIDE_TWO as u64, 1)];
    let (one, two) = match level {
        1 => ([entries, &lead].concat(), vec![]),
        _ => (lead.to_vec(), entries.to_vec()),
    };
    let mut image = vec![0; L];
    put_efs(&mut image, EFS, WIDE_ONE as u32, 0);
    put_directory(&mut image, WIDE_ONE, b"$PSP", &one);
    put_directory(&mut image, WIDE_TWO, b"$PL2", &two);
    image
}

/// The number with which every call that reads a directory of that level is refused, which is one for all of them.
fn refused_by_all(image: &[u8], level: u32) -> u8 {
    let place = if level == 1 { WIDE_ONE } else { WIDE_TWO } as u64;
    let view = View { image, place };
    let numbers = [
        number(directory(image, level)),
        number(entry(image, level, 0)),
        number(bytes(image, level, 0)),
        number(find(image, level, 1, 0)),
        number(View::of(image, level)),
        number(view.entry(0)),
        number(view.bytes(0)),
        // A lookup in the whole image for what is in neither level.
        number(find_image(image, 0xEE, 0xEE)),
    ];
    assert_eq!(numbers, [numbers[0]; 8]);
    numbers[0]
}

/// Reserved bits are set in the entry.
fn with_reserved(mut entry: [u8; 16]) -> [u8; 16] {
    entry[3] = 0x80;
    entry
}

#[test]
fn an_entry_that_repeats_any_earlier_one_is_18() {
    for level in [1, 2] {
        // level one has a lead behind the others, which makes 512
        let most = if level == 1 { 511 } else { 512 };
        let good = different(most);
        assert!(directory(&image_with(level, &good), level).is_ok());
        for (earlier, later) in [
            (0, 1),
            (0, 2),
            (0, most - 1),
            (1, most - 1),
            (100, 300),
            (255, 256),
            (most - 2, most - 1),
        ] {
            let mut entries = good.clone();
            // all but the type and the subprogram differs
            let [kind, subprogram] = [good[earlier][0], good[earlier][1]];
            entries[later] = raw(kind, subprogram, 0x1234, 0x5678, 2);
            let image = image_with(level, &entries);
            assert_eq!(refused_by_all(&image, level), 18, "{earlier} {later}");
        }
    }
}

#[test]
fn the_type_and_the_subprogram_must_both_be_the_same() {
    for level in [1, 2] {
        let [a, b] = [raw(1, 2, 0, 0, 1), raw(2, 1, 0, 0, 1)];
        let same_type = raw(1, 3, 0, 0, 1);
        let same_subprogram = raw(3, 2, 0, 0, 1);
        for entries in [
            vec![a, same_type],
            vec![a, same_subprogram],
            vec![a, b],
            vec![raw(0, 0, 0, 0, 1), raw(0, 0xFF, 0, 0, 1)],
            vec![raw(0xFF, 0, 0, 0, 1), raw(0, 0, 0, 0, 1)],
            vec![a, b, same_type, same_subprogram],
        ] {
            let image = image_with(level, &entries);
            assert!(directory(&image, level).is_ok(), "{entries:?}");
            let again = [&entries[..], &entries[..1]].concat();
            let image = image_with(level, &again);
            assert_eq!(refused_by_all(&image, level), 18, "{again:?}");
        }
    }
}

#[test]
fn levels_one_and_two_may_share_a_type_and_subprogram() {
    let image = image_of_two(&[raw(2, 0, 0, 0, 1), raw(1, 0, 0, 0, 1)]);
    let found = |kind| find_image(&image, kind, 0).map(|f| (f.level, f.index, f.tested));
    assert_eq!(found(1), Ok((Level::One, 0, 1)));
    assert_eq!(found(2), Ok((Level::Two, 0, 3)));
    // and two directories of level two may
    let mut image = image_of(&[
        raw(0x40, 0, 0, TWO as u64, 1),
        raw(0x40, 1, 0, TWO as u64 + 0x100, 1),
    ]);
    put_directory(&mut image, TWO, b"$PL2", &different(3));
    put_directory(&mut image, TWO + 0x100, b"$PL2", &different(4));
    assert_eq!(
        find_image(&image, 1, 3).map(|f| (f.place, f.tested)),
        Ok((TWO as u64 + 0x100, 9))
    );
}

#[test]
fn what_repeats_in_level_one_is_18_for_level_two_as_well() {
    let lead = raw(0x40, 0, 0, WIDE_TWO as u64, 1);
    assert!(directory(&image_with(1, &[lead]), 2).is_ok());
    let image = image_with(1, &[lead, lead]);
    assert_eq!(refused_by_all(&image, 1), 18);
    assert_eq!(number(directory(&image, 2)), 18);
    // even where the match comes first of all
    assert_eq!(number(find_image(&image, 0x40, 0)), 18);
}

#[test]
fn the_first_entry_that_repeats_is_named_with_the_first_that_it_repeats() {
    let [a, b, c] = [raw(1, 2, 0, 0, 1), raw(1, 3, 0, 0, 1), raw(3, 2, 7, 8, 2)];
    for level in [1, 2] {
        for (entries, expected) in [
            (vec![a, b, c], None),
            (vec![a, b, c, b], Some((3, 1, 1, 3))),
            (vec![a, b, a, b, a], Some((2, 0, 1, 2))),
            (vec![c, a, b, b, a, c], Some((3, 2, 1, 3))),
        ] {
            let image = image_with(level, &entries);
            let expected = expected
                .map(|(index, earlier, kind, subprogram)| Repeat {
                    index,
                    earlier,
                    kind,
                    subprogram,
                })
                .ok_or(Refusal::of(8));
            assert_eq!(repeated(&image, level), expected, "{entries:?}");
        }
        // any other refusal is that of the directory
        let image = image_with(level, &[with_reserved(a), a]);
        assert_eq!(number(repeated(&image, level)), 5);
    }
    // level two is not reached
    let image = image_with(1, &[a, a]);
    assert_eq!(number(repeated(&image, 2)), 18);
    assert_eq!(number(repeated(&image, 3)), 9);
    assert_eq!(number(repeated(&[], 1)), 15);
}

#[test]
fn a_level_two_that_repeats_is_met_where_the_walk_comes_to_it() {
    let image = image_of_two(&[raw(9, 0, 0, 0, 1), raw(9, 0, 0, 0, 1)]);
    assert_eq!(find_image(&image, 1, 0).map(|f| f.tested), Ok(1));
    assert_eq!(find_image(&image, 0x40, 0).map(|f| f.tested), Ok(2));
    assert_eq!(number(find_image(&image, 9, 0)), 18);
    assert_eq!(number(find_image(&image, 2, 0)), 18);
    assert_eq!(find(&image, 1, 2, 0).map(|f| f.tested), Ok(3));
}

#[test]
fn the_first_entry_with_a_fault_decides_and_in_it_5_then_14_then_18() {
    let a = raw(1, 0, 0, 0, 1);
    let b = raw(2, 0, 0, 0, 1);
    let lead = raw(0x40, 0, 0, 0, 1);
    for (level, entries, expected) in [
        // a repeat before another fault, and behind it
        (1, vec![a, a, with_reserved(b)], 18),
        (1, vec![a, with_reserved(b), a], 5),
        (2, vec![a, a, with_reserved(b)], 18),
        (2, vec![a, with_reserved(b), a], 5),
        (2, vec![a, a, lead], 18),
        (2, vec![a, lead, a], 14),
        // both at one entry
        (1, vec![a, with_reserved(a)], 5),
        (2, vec![a, b, with_reserved(a)], 5),
        (2, vec![lead, lead], 14),
        (2, vec![a, with_reserved(lead), lead], 5),
        // what is wrong with the earlier of two comes before its repeat
        (1, vec![with_reserved(a), a], 5),
        // in level one a second lead is a repeat and nothing else
        (1, vec![lead, a, lead], 18),
        (1, vec![lead, a, with_reserved(lead)], 5),
    ] {
        let image = image_with(level, &entries);
        assert_eq!(refused_by_all(&image, level), expected, "{entries:?}");
    }
    // the checks before the entries come first: total, checksum, the header's reserved bits
    let mut image = image_with(2, &[a, a]);
    image[WIDE_TWO + 12] = 1;
    assert_eq!(refused_by_all(&image, 2), 4);
    seal(&mut image, WIDE_TWO);
    assert_eq!(refused_by_all(&image, 2), 5);
}

#[test]
fn all_512_entries_may_differ_by_the_least_bit_or_the_highest() {
    for level in [1, 2] {
        let mut buffer = vec![0; 16 + 16 * 512];
        // types 0x01 and 0x81, with all subprograms
        let entries: Vec<[u8; 16]> = (0..512u32)
            .map(|k| raw(1 | (k % 2 * 0x80) as u8, (k / 2) as u8, 0, 0, 0))
            .collect();
        let level = Level::numbered(level).unwrap();
        put_directory(&mut buffer, 0, level.cookie(), &entries);
        let read = checked_directory(&buffer, 0, level).unwrap();
        assert_eq!(read.total, 512);
        for (index, entry) in (0..).zip(&entries) {
            let found = read.find(entry[0], entry[1]);
            assert_eq!(found.map(|f| f.index), Ok(index));
        }
    }
}

#[test]
fn extending_by_what_is_there_is_18_and_changes_nothing() {
    for cookie in [b"$PSP", b"$PL2"] {
        let mut buffer = vec![0xA5; 16 + 16 * 6];
        put_directory(&mut buffer, 0, cookie, &different(3));
        let before = buffer.clone();
        let wanted = |kind, subprogram, mode| Entry {
            kind,
            subprogram,
            size: 7,
            location: 9,
            mode,
        };
        // each entry that is there, by type and subprogram alone
        for subprogram in 0..3 {
            assert_eq!(number(extend(&mut buffer, &wanted(1, subprogram, 3))), 18);
            assert_eq!(number(extend(&mut buffer, &wanted(1, subprogram, 4))), 5);
        }
        assert_eq!(buffer, before);
        assert_eq!(extend(&mut buffer, &wanted(1, 3, 3)), Ok(4));
        assert_eq!(extend(&mut buffer, &wanted(2, 1, 3)), Ok(5));
        // what was added counts from then on
        assert_eq!(number(extend(&mut buffer, &wanted(2, 1, 0))), 18);
        assert_eq!(extend(&mut buffer, &wanted(0, 1, 0)), Ok(6));
        // no room is left: 12, but 18 first
        assert_eq!(number(extend(&mut buffer, &wanted(0, 1, 0))), 18);
        assert_eq!(number(extend(&mut buffer, &wanted(0, 2, 0))), 12);
    }
}

#[test]
fn a_second_lead_is_18_in_level_one_and_14_in_level_two() {
    let mut buffer = vec![0; 64];
    start(&mut buffer, 1).unwrap();
    assert_eq!(extend(&mut buffer, &entry_of(0x40, 0, 0)), Ok(1));
    assert_eq!(number(extend(&mut buffer, &entry_of(0x40, 1, 1))), 18);
    // A level two never holds a lead, so there an extend by one is a 14 and no repeat.
    start(&mut buffer, 2).unwrap();
    assert_eq!(number(extend(&mut buffer, &entry_of(0x40, 0, 0))), 14);
}

// Opening level two

#[test]
fn level_two_is_where_the_lowest_0x40_leads() {
    let image = image_of_two(&[raw(5, 0, 0, 0, 0)]);
    let two = directory(&image, 2).unwrap();
    assert_eq!((two.place, two.total), (TWO as u64, 1));
    let none = image_of(&[raw(1, 0, 0, 0, 1)]);
    assert_eq!(number(directory(&none, 2)), 8);
    assert_eq!(number(View::of(&none, 2)), 8);
}

#[test]
fn only_the_lowest_0x40_counts_even_if_it_alone_is_bad() {
    let mut image = image_of(&[
        raw(0x40, 5, 0, L as u64 + 1, 1),
        raw(0x40, 0, 0, TWO as u64, 1),
    ]);
    put_directory(&mut image, TWO, b"$PL2", &[]);
    assert_eq!(number(directory(&image, 2)), 7);
    put(&mut image, ONE + 16, &raw(0x40, 5, 0, TWO as u64, 1));
    put(&mut image, ONE + 32, &raw(0x40, 0, 0, L as u64 + 1, 3));
    seal(&mut image, ONE);
    assert!(directory(&image, 2).is_ok());
}

#[test]
fn level_one_is_checked_whole_before_it_leads() {
    let mut image = image_of_two(&[]);
    image[ONE + 16 + 32 + 2] = 1;
    seal(&mut image, ONE);
    assert_eq!(number(directory(&image, 2)), 5);
}

#[test]
fn a_0x40_leads_by_its_mode_and_its_size_is_not_used() {
    let (one, two) = (ONE as u64, TWO as u64);
    for length in [L, PARTS[0], PARTS[1], PARTS[2]] {
        let (first, end) = (physical(length), length as u64);
        for (location, mode, expected) in [
            (two, 1, Ok(two)),
            (first + two, 0, Ok(two)),
            (two - one, 2, Ok(two)),
            (two, 3, Err(16)),
            (end + 1, 3, Err(16)),
            (end, 1, Err(1)),
            (end + 1, 1, Err(7)),
            (end - one, 2, Err(1)),
            (end - one + 1, 2, Err(7)),
            ((1 << 62) - 1, 1, Err(7)),
            ((1 << 62) - 1, 2, Err(7)),
            (one, 1, Err(2)),
            // the window's first byte and its last, and what lies outside
            (first, 0, Err(2)),
            (first - 1, 0, Err(7)),
            (FOUR_GIB - 16, 0, Err(2)),
            (FOUR_GIB - 1, 0, Err(1)),
            (FOUR_GIB, 0, Err(7)),
            (FOUR_GIB + 1, 0, Err(7)),
            (two, 0, Err(7)),
            (two + FOUR_GIB, 0, Err(7)),
            ((1 << 62) - 1, 0, Err(7)),
        ] {
            let mut image = image_of_length(length, &[raw(0x40, 0, u32::MAX, location, mode)]);
            put_directory(&mut image, TWO, b"$PL2", &[]);
            let place = directory(&image, 2).map(|d| d.place);
            assert_eq!(place.map_err(|r| r.number), expected, "{:#x}", location);
            let found = find_image(&image, 1, 1).map_err(|r| r.number);
            assert_eq!(found, Err(expected.err().unwrap_or(8)));
        }
    }
}

#[test]
fn a_physical_location_goes_by_the_length_of_the_image() {
    // where level two of 16 MiB begins, and a part of 16 MiB: in 8 MiB neither address has a byte
    let lead = raw(0x40, 0, 0, 0xFF00_0000 + TWO as u64, 0);
    let part = raw(1, 0, 4, 0xFF00_0000 + TWO as u64, 0);
    for (length, expected) in [
        (16 * MIB, Ok(TWO as u64)),
        (16 * MIB - 1, Ok(TWO as u64 - 1)),
        (16 * MIB - TWO, Ok(0)),
        (16 * MIB - TWO - 1, Err(7)),
        (8 * MIB, Err(7)),
    ] {
        let mut image = image_of_length(length, &[lead, part]);
        if let Ok(place) = expected {
            put_directory(&mut image, place as usize, b"$PL2", &[]);
        }
        let two = directory(&image, 2).map(|d| d.place);
        assert_eq!(two.map_err(|r| r.number), expected, "{length:#x}");
        let part = bytes(&image, 1, 1).map(|part| part.place);
        assert_eq!(part.map_err(|r| r.number), expected, "{length:#x}");
        let place = ONE as u64;
        let view = View {
            image: &image,
            place,
        };
        assert_eq!(view.bytes(1), bytes(&image, 1, 1));
    }
}

// Entries and their bytes

#[test]
fn an_entry_has_its_fields() {
    let image = image_of(&[
        raw(0x0B, 0xFE, 0x8765_4321, (1 << 62) - 1, 3),
        raw(1, 2, 3, 4, 2),
    ]);
    assert_eq!(
        entry(&image, 1, 0),
        Ok(Entry {
            kind: 0x0B,
            subprogram: 0xFE,
            size: 0x8765_4321,
            location: 0x3FFF_FFFF_FFFF_FFFF,
            mode: 3
        })
    );
    assert_eq!(entry(&image, 1, 1).map(|e| e.mode), Ok(2));
    assert_eq!(entry(&image, 1, 1).map(|e| e.location), Ok(4));
}

#[test]
fn entry_12_of_12_is_8_whatever_follows() {
    let mut image = image_of(&different(13));
    put(&mut image, ONE + 8, &12u32.to_le_bytes());
    seal(&mut image, ONE);
    assert!(entry(&image, 1, 11).is_ok());
    for index in [12, 13, 1 << 32, 1 << 60, u64::MAX] {
        assert_eq!(number(entry(&image, 1, index)), 8);
        assert_eq!(number(bytes(&image, 1, index)), 8);
        let view = View {
            image: &image,
            place: ONE as u64,
        };
        assert_eq!(number(view.entry(index)), 8);
        assert_eq!(number(view.bytes(index)), 8);
    }
}

#[test]
fn bytes_are_refused_by_8_then_17_then_16_then_7() {
    let image = image_of(&[
        raw(0x0B, 0, u32::MAX, (1 << 62) - 1, 3),
        raw(0x0C, 0, u32::MAX, (1 << 62) - 1, 3),
        raw(0x0C, 1, u32::MAX, (1 << 62) - 1, 2),
    ]);
    let numbers = [3, 0, 1, 2].map(|index| number(bytes(&image, 1, index)));
    assert_eq!(numbers, [8, 17, 16, 7]);
    assert!(entry(&image, 1, 0).is_ok());
}

#[test]
fn bytes_lie_where_location_and_mode_say() {
    let one = ONE as u64;
    for length in [L, PARTS[0], PARTS[1], PARTS[2]] {
        let (first, end) = (physical(length), length as u64);
        for (size, location, mode, expected) in [
            (0x100, 0x1000, 1, Ok(0x1000)),
            (0x100, first + 0x1000, 0, Ok(0x1000)),
            (0x100, 0x1000, 2, Ok(one + 0x1000)),
            (length as u32, 0, 1, Ok(0)),
            (length as u32 + 1, 0, 1, Err(7)),
            (length as u32, first, 0, Ok(0)),
            (length as u32 + 1, first, 0, Err(7)),
            // the image's last byte, and one more
            (0x100, end - 0x100, 1, Ok(end - 0x100)),
            (0x101, end - 0x100, 1, Err(7)),
            (0x100, FOUR_GIB - 0x100, 0, Ok(end - 0x100)),
            (0x101, FOUR_GIB - 0x100, 0, Err(7)),
            (1, FOUR_GIB - 1, 0, Ok(end - 1)),
            (2, FOUR_GIB - 1, 0, Err(7)),
            (0x100, end - one - 0x100, 2, Ok(end - 0x100)),
            (0x101, end - one - 0x100, 2, Err(7)),
            // no bytes at the image's end, and one behind it; no physical address is there
            (0, end, 1, Ok(end)),
            (0, end + 1, 1, Err(7)),
            (0, end - one, 2, Ok(end)),
            (0, end - one + 1, 2, Err(7)),
            (0, FOUR_GIB - 1, 0, Ok(end - 1)),
            (0, FOUR_GIB, 0, Err(7)),
            (0, FOUR_GIB + 1, 0, Err(7)),
            // outside the window
            (0, 0x1000, 0, Err(7)),
            (0, first - 1, 0, Err(7)),
            (0, first, 0, Ok(0)),
            (u32::MAX, (1 << 62) - 1, 0, Err(7)),
            (u32::MAX, (1 << 62) - 1, 1, Err(7)),
            (u32::MAX, (1 << 62) - 1, 2, Err(7)),
        ] {
            let image = image_of_length(length, &[raw(1, 0, size, location, mode)]);
            let length = u64::from(size);
            let expected = expected.map(|place| Part { place, length });
            let part = bytes(&image, 1, 0).map_err(|r| r.number);
            assert_eq!(part, expected, "{:#x} {:#x} {}", size, location, mode);
        }
    }
}

#[test]
fn mode_2_counts_from_the_directory_that_has_the_entry() {
    let image = image_of_two(&[raw(1, 0, 4, 8, 2)]);
    let place = TWO as u64 + 8;
    assert_eq!(bytes(&image, 2, 0), Ok(Part { place, length: 4 }));
}

// Lookup in one directory

#[test]
fn a_lookup_gives_the_match_and_how_many_were_tested() {
    let image = image_of(&[
        raw(1, 0, 0, 0, 1),
        raw(2, 1, 0, 0, 1),
        raw(2, 0, 0, 0, 1),
        raw(2, 2, 0, 0, 1),
    ]);
    let found = |index| {
        Ok(Found {
            index,
            tested: index + 1,
        })
    };
    assert_eq!(find(&image, 1, 1, 0), found(0));
    assert_eq!(find(&image, 1, 2, 1), found(1));
    assert_eq!(find(&image, 1, 2, 0), found(2));
    assert_eq!(find(&image, 1, 1, 1), Err(Refusal::not_found(4)));
    assert_eq!(find(&image, 1, 0, 2), Err(Refusal::not_found(4)));
}

#[test]
fn a_lookup_in_an_absent_directory_carries_0() {
    let mut image = image_of(&[raw(1, 0, 0, 0, 1)]);
    assert_eq!(find(&image, 2, 1, 0), Err(Refusal::not_found(0)));
    put_directory(&mut image, ONE, b"$PSP", &[]);
    assert_eq!(find(&image, 1, 1, 0), Err(Refusal::not_found(0)));
    put_efs(&mut image, EFS, 0, u32::MAX);
    for level in [1, 2] {
        assert_eq!(find(&image, level, 1, 0), Err(Refusal::not_found(0)));
        assert_eq!(number(directory(&image, level)), 8);
        assert_eq!(number(entry(&image, level, 0)), 8);
    }
    assert_eq!(find_image(&image, 1, 0), Err(Refusal::not_found(0)));
}

#[test]
fn a_fault_behind_the_match_refuses_the_lookup() {
    let mut image = image_of(&[raw(1, 0, 0, 0, 1), raw(2, 0, 0, 0, 1)]);
    assert!(find(&image, 1, 1, 0).is_ok());
    image[ONE + 34] = 1;
    seal(&mut image, ONE);
    assert_eq!(number(find(&image, 1, 1, 0)), 5);
    assert_eq!(number(find_image(&image, 1, 0)), 5);
}

#[test]
fn a_lookup_in_level_one_enters_nothing() {
    let image = image_of(&[raw(0x40, 0, 0, u64::MAX >> 2, 3), raw(1, 0, 0, 0, 1)]);
    assert_eq!(find(&image, 1, 1, 0).map(|f| f.tested), Ok(2));
}

// Lookup in the whole image

#[test]
fn level_two_is_walked_before_the_next_entry() {
    let image = image_of_two(&[raw(9, 0, 0, 0, 1), raw(2, 0, 0, 0, 1)]);
    let found = |place: usize, level, index, tested| {
        Ok(FoundInImage {
            place: place as u64,
            level,
            index,
            tested,
        })
    };
    assert_eq!(find_image(&image, 1, 0), found(ONE, Level::One, 0, 1));
    assert_eq!(find_image(&image, 0x40, 0), found(ONE, Level::One, 1, 2));
    assert_eq!(find_image(&image, 9, 0), found(TWO, Level::Two, 0, 3));
    assert_eq!(find_image(&image, 2, 0), found(TWO, Level::Two, 1, 4));
    assert_eq!(find_image(&image, 2, 1), Err(Refusal::not_found(5)));
}

#[test]
fn a_match_behind_level_two_counts_its_entries() {
    // of type 1 with subprograms 0 to 6: none is what is asked for, and the first is also in level one
    let image = image_of_two(&different(7));
    assert_eq!(
        find_image(&image, 2, 0),
        Ok(FoundInImage {
            place: ONE as u64,
            level: Level::One,
            index: 2,
            tested: 10
        })
    );
}

#[test]
fn a_0x40_that_does_not_match_in_its_subprogram_is_entered() {
    let mut image = image_of_two(&[]);
    image[ONE + 32 + 1] = 3;
    put(&mut image, ONE + 16 + 32, &raw(0x40, 4, 0, L as u64 + 1, 1));
    seal(&mut image, ONE);
    // the second is found before it is entered
    assert_eq!(find_image(&image, 0x40, 4).map(|f| f.tested), Ok(3));
    image[TWO] = 0;
    assert_eq!(number(find_image(&image, 0x40, 4)), 2);
    assert_eq!(find_image(&image, 0x40, 3).map(|f| f.tested), Ok(2));
}

#[test]
fn every_0x40_is_entered_and_counted_each_time() {
    let leading = |subprogram| raw(0x40, subprogram, 0, TWO as u64, 1);
    let between = raw(9, 0, 0, 0, 1);
    let mut image = image_of(&[leading(0), leading(7), between, leading(1)]);
    put_directory(&mut image, TWO, b"$PL2", &different(5));
    assert_eq!(find_image(&image, 9, 0).map(|f| f.tested), Ok(13));
    assert_eq!(find_image(&image, 8, 0), Err(Refusal::not_found(19)));
}

#[test]
fn the_first_fault_before_a_match_is_the_answer() {
    let mut image = image_of_two(&[raw(9, 0, 0, 0, 1), raw(8, 0, 0, 0, 1)]);
    // a fault in level two, behind a match in it
    image[TWO + 34] = 1;
    seal(&mut image, TWO);
    assert_eq!(find_image(&image, 1, 0).map(|f| f.index), Ok(0));
    assert_eq!(number(find_image(&image, 9, 0)), 5);
    assert_eq!(number(find_image(&image, 2, 0)), 5);
    // two faults on the way
    image[ONE + 16 + 32..ONE + 16 + 48].copy_from_slice(&raw(0x40, 1, 0, 0, 3));
    seal(&mut image, ONE);
    assert_eq!(number(find_image(&image, 3, 0)), 5);
    image[TWO + 34] = 0;
    seal(&mut image, TWO);
    assert_eq!(number(find_image(&image, 3, 0)), 16);
    assert_eq!(find_image(&image, 8, 0).map(|f| f.tested), Ok(4));
}

#[test]
fn the_longest_walk_follows_256_leads_into_512_entries_each() {
    let mut image = vec![0; L];
    put_efs(&mut image, EFS, 0x3_0000, 0);
    // no more than 256 entries of one type differ in their subprogram
    let leads = (0..=255).map(|subprogram| raw(0x40, subprogram, 0, 0x100, 1));
    let mut one: Vec<[u8; 16]> = leads.collect();
    one.extend(different(256));
    put_directory(&mut image, 0x3_0000, b"$PSP", &one);
    put_directory(&mut image, 0x100, b"$PL2", &different(512));
    let all = 512 + 256 * 512;
    assert_eq!(find_image(&image, 3, 0), Err(Refusal::not_found(all)));
}

// Views

#[test]
fn a_view_keeps_the_place_and_gives_entries_and_bytes() {
    let image = image_of_two(&[raw(0x0B, 1, 0, 77, 3), raw(5, 6, 4, 16, 2)]);
    let view = View::of(&image, 2).unwrap();
    assert_eq!(view.place, TWO as u64);
    assert_eq!(view.entry(0), entry(&image, 2, 0));
    assert_eq!(view.entry(0).map(|e| e.location), Ok(77));
    assert_eq!(number(view.bytes(0)), 17);
    let place = TWO as u64 + 16;
    assert_eq!(view.bytes(1), Ok(Part { place, length: 4 }));
    assert_eq!(number(view.entry(2)), 8);
    assert_eq!(View::of(&image, 1).map(|v| v.place), Ok(ONE as u64));
}

#[test]
fn a_view_is_checked_again_without_the_efs() {
    let mut image = image_of_two(&[raw(5, 6, 4, 16, 2)]);
    image[EFS] = 0;
    image[ONE] = 0;
    let at = |place: usize, image: &[u8]| {
        let place = place as u64;
        View { image, place }.entry(0).map(|e| e.kind)
    };
    assert_eq!(at(TWO, &image), Ok(5));
    assert_eq!(number(at(ONE, &image)), 2);
    image[TWO + 16] = 6;
    assert_eq!(number(at(TWO, &image)), 4);
    image[TWO + 16] = 0x40;
    seal(&mut image, TWO);
    assert_eq!(number(at(TWO, &image)), 14);
    put(&mut image, TWO, b"$PSP");
    assert_eq!(at(TWO, &image), Ok(0x40));
}

#[test]
fn a_view_is_refused_by_15_then_7_then_1_then_2() {
    let call = |image: &[u8], place| {
        let view = View { image, place };
        let numbers = (number(view.entry(0)), number(view.bytes(0)));
        assert_eq!(numbers.0, numbers.1);
        numbers.0
    };
    assert_eq!(call(&[], 0), 15);
    assert_eq!(call(&[], u64::MAX), 15);
    assert_eq!(call(&vec![0; LONGEST_IMAGE + 1], u64::MAX), 15);
    assert_eq!(call(&[0; 40], 41), 7);
    for back in 0..=20 {
        assert_eq!(call(&[0; 40], u64::MAX - back), 7);
    }
    assert_eq!(call(&[0; 40], 40), 1);
    assert_eq!(call(&[0; 40], 25), 1);
    assert_eq!(call(&[0; 40], 24), 2);
    let refused = View::none();
    assert_eq!((refused.image.len(), refused.place), (0, 0));
    assert_eq!(number(refused.entry(0)), 15);
}

#[test]
fn a_view_may_lie_in_the_longest_image() {
    let mut image = vec![0; LONGEST_IMAGE];
    let o = LONGEST_IMAGE - 32;
    put_directory(&mut image, o, b"$PL2", &[raw(1, 0, 16, 16, 2)]);
    let place = o as u64;
    let view = View {
        image: &image,
        place,
    };
    let expected = Part {
        place: place + 16,
        length: 16,
    };
    assert_eq!(view.bytes(0), Ok(expected));
}

// All directories, and all entries of one

/// Places for more level-two directories.
const THREE: usize = 0x2_3000;

/// What is told of each directory: place, level, total, and the entry that led there.
fn reached(image: &[u8]) -> Result<Vec<(u64, u32, u32, u64)>, Refusal> {
    let tell = |all: Vec<Reached>| {
        let told = all.into_iter().map(|one| {
            let Directory {
                place,
                level,
                total,
                ..
            } = one.directory;
            (place, level.number(), total, one.lead)
        });
        told.collect()
    };
    all_directories(image).map(tell)
}

#[test]
fn every_directory_is_told_as_often_as_an_entry_leads_there() {
    let mut image = image_of(&[
        raw(1, 0, 0, 0, 1),
        raw(0x40, 0, 0, THREE as u64, 1),
        raw(2, 0, 0, 0, 1),
        raw(0x40, 9, 0, physical(L) + TWO as u64, 0),
        raw(0x40, 1, 0, (THREE - ONE) as u64, 2),
    ]);
    put_directory(&mut image, TWO, b"$PL2", &different(2));
    put_directory(&mut image, THREE, b"$PL2", &different(3));
    let expected = vec![
        (ONE as u64, 1, 5, 0),
        (THREE as u64, 2, 3, 1),
        (TWO as u64, 2, 2, 3),
        (THREE as u64, 2, 3, 4),
    ];
    assert_eq!(reached(&image), Ok(expected));
    // Without a lead there is level one alone, which may be empty.
    let alone = image_of(&[]);
    assert_eq!(reached(&alone), Ok(vec![(ONE as u64, 1, 0, 0)]));
}

#[test]
fn the_first_fault_is_the_answer_for_all_directories() {
    assert_eq!(number(reached(&[])), 15);
    assert_eq!(number(reached(&[0])), 2);
    let mut absent = image_of(&[]);
    put_efs(&mut absent, EFS, 0, 0);
    assert_eq!(number(reached(&absent)), 8);
    let leads = |first: [u8; 16], second: [u8; 16]| {
        let mut image = image_of(&[first, second]);
        put_directory(&mut image, TWO, b"$PL2", &different(2));
        image
    };
    let good = raw(0x40, 0, 0, TWO as u64, 1);
    let beyond = raw(0x40, 1, 0, L as u64 + 1, 1);
    let at_end = raw(0x40, 2, 0, L as u64, 1);
    let mode_3 = raw(0x40, 3, 0, TWO as u64, 3);
    let no_level_two = raw(0x40, 4, 0, ONE as u64, 1);
    for (bad, expected) in [(beyond, 7), (at_end, 1), (mode_3, 16), (no_level_two, 2)] {
        assert_eq!(number(reached(&leads(good, bad))), expected);
        assert_eq!(number(reached(&leads(bad, good))), expected);
    }
    assert_eq!(number(reached(&leads(mode_3, beyond))), 16);
    assert_eq!(number(reached(&leads(beyond, mode_3))), 7);
    // A fault of level one comes before those that it leads to.
    assert_eq!(number(reached(&leads(beyond, beyond))), 18);
}

#[test]
fn all_entries_are_each_as_it_is_told_alone() {
    let mut image = image_of_two(&[
        raw(1, 2, 0x10, 0x100, 2),
        raw(0x0B, 0, 0, 7, 0),
        raw(3, 0, 1, L as u64, 1),
        raw(4, 0, 0, 0, 3),
    ]);
    let (directory, all) = all_entries(&image, TWO as u64).expect("the directory is good");
    assert_eq!((directory.place, directory.total), (TWO as u64, 4));
    assert_eq!(directory.level, Level::Two);
    let view = View {
        image: &image,
        place: TWO as u64,
    };
    let alone: Vec<EntryAndBytes> = (0..4)
        .map(|index| EntryAndBytes {
            entry: view.entry(index).expect("there are four"),
            bytes: view.bytes(index),
        })
        .collect();
    assert_eq!(all, alone);
    let bytes = [
        Ok(Part {
            place: TWO as u64 + 0x100,
            length: 0x10,
        }),
        Err(Refusal::of(17).in_entry(2, 1, TWO as u64)),
        Err(Refusal::of(7).in_entry(2, 2, TWO as u64)),
        Err(Refusal::of(16).in_entry(2, 3, TWO as u64)),
    ];
    assert_eq!(all.iter().map(|one| one.bytes).collect::<Vec<_>>(), bytes);
    // No entries are no refusal, and a directory that is not good has none to tell.
    put_directory(&mut image, TWO, b"$PL2", &[]);
    let (_, none) = all_entries(&image, TWO as u64).expect("it is good with no entry");
    assert_eq!(none, []);
    image[TWO + 4] ^= 1;
    assert_eq!(number(all_entries(&image, TWO as u64)), 4);
    assert_eq!(number(all_entries(&image, L as u64 + 1)), 7);
    assert_eq!(number(all_entries(&[], 0)), 15);
}

// Writing

#[test]
fn a_start_writes_an_empty_directory_and_nothing_else() {
    for (level, cookie) in [(1, b"$PSP"), (2, b"$PL2")] {
        let mut buffer = [0xA5; 20];
        assert_eq!(start(&mut buffer, level), Ok(()));
        assert_eq!(buffer[0..4], *cookie);
        assert_eq!(buffer[4..8], [0xFF; 4]);
        assert_eq!(buffer[8..16], [0; 8]);
        assert_eq!(buffer[16..], [0xA5; 4]);
        assert!(checked_directory(&buffer, 0, Level::numbered(level).unwrap()).is_ok());
    }
}

#[test]
fn a_start_is_refused_by_9_then_12_and_then_changes_nothing() {
    let mut buffer = [0xA5; 15];
    assert_eq!(number(start(&mut buffer, 0)), 9);
    assert_eq!(number(start(&mut buffer, 3)), 9);
    assert_eq!(number(start(&mut buffer, 1)), 12);
    assert_eq!(number(start(&mut [], 2)), 12);
    assert_eq!(buffer, [0xA5; 15]);
    assert_eq!(start(&mut [0xA5; 16], 1), Ok(()));
}

#[test]
fn m2_extends_an_empty_directory() {
    let mut buffer = [0xA5; 40];
    start(&mut buffer, 1).unwrap();
    let mut entry = entry_of(1, 0x1000, 1);
    entry.size = 0x100;
    assert_eq!(extend(&mut buffer, &entry), Ok(1));
    assert_eq!(u32_at(&buffer, 4), 0x8614_5102);
    assert_eq!(buffer[16..32], raw(1, 0, 0x100, 0x1000, 1));
    assert_eq!(buffer[32..], [0xA5; 8]);
}

#[test]
fn an_extended_directory_has_one_entry_more_and_is_good() {
    for level in [1, 2] {
        let mut buffer = vec![0xA5; 16 + 16 * 512 + 3];
        start(&mut buffer, level).unwrap();
        for n in 0..512u32 {
            let before = buffer.clone();
            let entry = Entry {
                kind: (n % 0x40) as u8,
                subprogram: (n / 3) as u8,
                size: n.wrapping_mul(0x9E37_79B9),
                location: u64::from(n) << 53,
                mode: n % 4,
            };
            assert_eq!(extend(&mut buffer, &entry), Ok(n + 1));
            let end = 16 + 16 * n as usize;
            assert_eq!(buffer[..4], before[..4]);
            assert_eq!(buffer[12..end], before[12..end]);
            assert_eq!(buffer[end + 16..], before[end + 16..]);
            let directory = checked_directory(&buffer, 0, Level::numbered(level).unwrap()).unwrap();
            assert_eq!(directory.total, n + 1);
            assert_eq!(directory.entry(u64::from(n)), Ok(entry));
        }
        // 3 comes before 12, and room would be there too; no entry is of type 0x41
        assert_eq!(number(extend(&mut buffer, &entry_of(0x41, 0, 0))), 3);
        buffer.resize(16 + 16 * 513, 0);
        assert_eq!(number(extend(&mut buffer, &entry_of(0x41, 0, 0))), 3);
    }
}

#[test]
fn extending_is_refused_in_its_order_and_then_changes_nothing() {
    let mut buffer = vec![0; 16 + 16 * 512];
    put_directory(&mut buffer, 0, b"$PL2", &different(512));
    let refused = |buffer: &[u8], entry: &Entry| {
        let mut copy = buffer.to_vec();
        let number = number(extend(&mut copy, entry));
        assert_eq!(copy, buffer);
        number
    };
    let mut broken = buffer.clone();
    broken[8 + 16 * 512] ^= 1;
    let too_far = 1 << 62;
    assert_eq!(refused(&broken, &entry_of(0x40, too_far, 4)), 4);
    assert_eq!(refused(&buffer, &entry_of(0x40, too_far, 0)), 5);
    assert_eq!(refused(&buffer, &entry_of(0x40, 0, 4)), 5);
    assert_eq!(refused(&buffer, &entry_of(0x40, u64::MAX, u32::MAX)), 5);
    assert_eq!(refused(&buffer, &entry_of(0x40, too_far - 1, 3)), 14);
    // types 1 and 2 with subprogram 0 are there: entries 0 and 256
    assert_eq!(refused(&buffer, &entry_of(2, too_far, 3)), 5);
    assert_eq!(refused(&buffer, &entry_of(2, 0, 4)), 5);
    for there in [1, 2] {
        assert_eq!(refused(&buffer, &entry_of(there, too_far - 1, 3)), 18);
    }
    assert_eq!(refused(&buffer, &entry_of(0x41, too_far - 1, 3)), 3);
    put_directory(&mut buffer, 0, b"$PL2", &different(511));
    let cut = &buffer[..16 + 16 * 512 - 1];
    assert_eq!(refused(cut, &entry_of(3, 0, 0)), 12);
    assert_eq!(refused(cut, &entry_of(1, 0, 0)), 18);
    assert_eq!(refused(&buffer[..16 + 16 * 511], &entry_of(0x40, 0, 0)), 14);
    assert_eq!(extend(&mut buffer, &entry_of(3, too_far - 1, 3)), Ok(512));
    assert_eq!(u64_at(&buffer, 16 + 16 * 511 + 8), u64::MAX);
}

#[test]
fn extending_checks_the_directory_with_the_level_by_its_cookie() {
    let good = entry_of(1, 0, 0);
    assert_eq!(number(extend(&mut [], &good)), 1);
    assert_eq!(number(extend(&mut b"$PSP...........".to_vec(), &good)), 1);
    assert_eq!(number(extend(&mut b"$PS_............".to_vec(), &good)), 2);
    let mut buffer = vec![0; 64];
    put_directory(&mut buffer, 0, b"$PL2", &[raw(0x40, 0, 0, 0, 1)]);
    // a 14 inside the directory comes before the 5 of what is asked for
    assert_eq!(number(extend(&mut buffer, &entry_of(1, u64::MAX, 9))), 14);
    put(&mut buffer, 0, b"$PSP");
    assert_eq!(extend(&mut buffer, &entry_of(0x41, 0, 0)), Ok(2));
    // so does an 18 inside it
    buffer[32] = 0x40;
    seal(&mut buffer, 0);
    assert_eq!(number(extend(&mut buffer, &entry_of(1, u64::MAX, 9))), 18);
    buffer[33] = 1;
    seal(&mut buffer, 0);
    assert_eq!(extend(&mut buffer, &good), Ok(3));
    buffer[12] = 1;
    seal(&mut buffer, 0);
    assert_eq!(number(extend(&mut buffer, &good)), 5);
}

#[test]
fn extending_writes_over_what_stands_behind_and_knows_no_15() {
    let mut buffer = vec![0xEE; LONGEST_IMAGE + 1];
    start(&mut buffer, 2).unwrap();
    assert_eq!(extend(&mut buffer, &entry_of(0, 0, 0)), Ok(1));
    assert_eq!(buffer[16..32], [0; 16]);
    assert_eq!(buffer[32..64], [0xEE; 32]);
}

#[test]
fn the_efs_is_told_with_both_pointers_as_they_stand() {
    let mut image = vec![0; L];
    assert_eq!(efs(&image), Err(Refusal::of(2)));
    put_efs(&mut image, EFS, 0xFFFF_FFFF, 0x1234_5678);
    let expected = Efs {
        place: EFS as u64,
        early: 0x1234_5678,
        late: 0xFFFF_FFFF,
    };
    assert_eq!(efs(&image), Ok(expected));
    assert_eq!(efs(&[]), Err(Refusal::of(15)));
}

#[test]
fn the_pointer_is_told_with_its_field_and_where_it_leads() {
    let mut image = vec![0; L];
    assert_eq!(pointer(&[]), Err(Refusal::of(15)));
    assert_eq!(pointer(&image), Err(Refusal::of(2)));
    put_efs(&mut image, EFS, 0, 0xFFFF_FFFF);
    assert_eq!(pointer(&image), Err(Refusal::of(8)));
    put_efs(&mut image, EFS, 0, 0xFFFF_FFFE);
    let early = Pointer {
        field: 0x10,
        value: 0xFFFF_FFFE,
        place: L as u64 - 2,
    };
    assert_eq!(pointer(&image), Ok(early));
    put_efs(&mut image, EFS, L as u32 - 1, 0);
    let late = Pointer {
        field: 0x14,
        value: L as u32 - 1,
        place: L as u64 - 1,
    };
    assert_eq!(pointer(&image), Ok(late));
    put_efs(&mut image, EFS, L as u32, 0);
    assert_eq!(pointer(&image), Err(Refusal::of(7)));
}
