//! Where a refusal was met (request 05), and what is wrong there.

use super::*;
use crate::version;

/// A refusal met in the header of the directory of that level.
fn header(number: u8, level: u32, directory: usize) -> Refusal {
    Refusal::of(number).in_header(level, directory as u64)
}

/// A refusal met in an entry of the directory of that level.
fn at(number: u8, level: u32, index: u64, directory: usize) -> Refusal {
    Refusal::of(number).in_entry(level, index, directory as u64)
}

/// The refusal of every call that reads the directory of that level by way of the EFS, which is one for all of them.
fn told_by_all(image: &[u8], level: u32) -> Refusal {
    let refusals = [
        directory(image, level).expect_err("it is good"),
        entry(image, level, 0).expect_err("it is good"),
        bytes(image, level, 0).expect_err("it is good"),
        find(image, level, 1, 0).expect_err("it is good"),
        View::of(image, level).expect_err("it is good"),
        version::of_entry(image, level, 0).expect_err("it is good"),
        find_image(image, 0xEE, 0xEE).expect_err("it is good"),
        all_directories(image).expect_err("it is good"),
    ];
    assert_eq!(refusals, [refusals[0]; 8]);
    match repeated(image, level) {
        Ok(_) => assert_eq!(refusals[0].number, 18),
        Err(refusal) => assert_eq!(refusal, refusals[0]),
    }
    refusals[0]
}

/// The refusal of every call on a view of the directory there.
fn told_by_view(image: &[u8], place: usize) -> Refusal {
    let place = place as u64;
    let view = View { image, place };
    let refusals = [
        view.entry(0).expect_err("it is good"),
        view.bytes(0).expect_err("it is good"),
        version::of_view(&view, 0).expect_err("it is good"),
        all_entries(image, place).expect_err("it is good"),
    ];
    assert_eq!(refusals, [refusals[0]; 4]);
    refusals[0]
}

/// The refusal of an extend of the directory that begins these bytes, by an entry that might be added.
fn told_by_extend(buffer: &[u8]) -> Refusal {
    let mut copy = buffer.to_vec();
    let refusal = extend(&mut copy, &entry_of(0xEE, 0, 0)).expect_err("it is good");
    assert_eq!(copy, buffer);
    refusal
}

/// Where the directory of that level lies in the images of `image_with`.
fn place_of(level: u32) -> usize {
    if level == 1 {
        WIDE_ONE
    } else {
        WIDE_TWO
    }
}

// The header

#[test]
fn the_checks_of_a_header_carry_its_level() {
    for level in [1, 2] {
        let o = place_of(level);
        let good = image_with(level, &different(3));
        assert!(directory(&good, level).is_ok());
        // a total above the most, a wrong checksum, reserved bits
        for (offset, value, sealed, number) in [
            (8, 513, false, 3),
            (8, u32::MAX, false, 3),
            (4, 0x1234_5678, false, 4),
            (12, 1, true, 5),
            (12, 0x8000_0000, true, 5),
        ] {
            let mut image = good.clone();
            put(&mut image, o + offset, &value.to_le_bytes());
            if sealed {
                seal(&mut image, o);
            }
            let expected = header(number, level, o);
            assert_eq!(told_by_all(&image, level), expected);
            assert_eq!(told_by_view(&image, o), expected);
            let in_buffer = header(number, level, 0);
            assert_eq!(told_by_extend(&image[o..]), in_buffer);
        }
        // the cookie, by which alone a view and an extend could tell the level
        let mut image = good.clone();
        put(&mut image, o, b"$BHD");
        assert_eq!(told_by_all(&image, level), header(2, level, o));
        assert_eq!(told_by_view(&image, o), header(2, 0, o));
        assert_eq!(told_by_extend(&image[o..]), header(2, 0, 0));
        // the other level's cookie is a good one for a view
        let other = Level::numbered(3 - level).unwrap();
        let mut image = image_with(level, &[]);
        put(&mut image, o, other.cookie());
        assert_eq!(told_by_all(&image, level), header(2, level, o));
        let place = o as u64;
        let image = &image;
        let seen = View { image, place }.directory().map(|d| d.level);
        // and by that of level two the lead is misplaced
        let expected = [Err(at(14, 2, 0, o)), Ok(Level::One)];
        assert_eq!(seen, expected[level as usize - 1]);
    }
}

#[test]
fn what_is_cut_off_carries_the_level_asked_for_or_that_of_the_cookie() {
    for back in [0, 1, 15] {
        // level one by its pointer
        let mut image = image_of(&[]);
        let o = L - back;
        put(&mut image, o, &b"$PSP"[..back.min(4)]);
        if back > 0 {
            put_efs(&mut image, EFS, o as u32, 0);
            assert_eq!(told_by_all(&image, 1), header(1, 1, o));
            // level two is not come to
            assert_eq!(directory(&image, 2), Err(header(1, 1, o)));
        }
        assert_eq!(told_by_view(&image, o), header(1, 0, o));
        assert_eq!(told_by_extend(&image[o..]), header(1, 0, 0));
        // level two by its lead
        let image = image_of(&[raw(0x40, 0, 0, o as u64, 1)]);
        assert_eq!(told_by_all(&image, 2), header(1, 2, o));
    }
    // the header is there, and not all of its entries
    for (level, cookie) in [(1, b"$PSP"), (2, b"$PL2")] {
        let o = L - 16 - 31;
        let mut image = match level {
            1 => image_of(&[]),
            _ => image_of(&[raw(0x40, 0, 0, o as u64, 1)]),
        };
        put_efs(&mut image, EFS, if level == 1 { o } else { ONE } as u32, 0);
        put(&mut image, o, cookie);
        put(&mut image, o + 8, &2u32.to_le_bytes());
        assert_eq!(told_by_all(&image, level), header(1, level, o));
        assert_eq!(told_by_view(&image, o), header(1, level, o));
        assert_eq!(told_by_extend(&image[o..]), header(1, level, 0));
    }
}

// An entry's checks

#[test]
fn the_checks_of_an_entry_carry_its_index() {
    for level in [1, 2] {
        let o = place_of(level);
        // level one has a lead behind them, which makes one more
        let good = different(301);
        for index in [0, 1, 150, 299, 300] {
            let mut entries = good.clone();
            entries[index] = with_reserved(good[index]);
            let mut faults = vec![(entries.clone(), 5)];
            if index > 0 {
                entries[index] = good[index - 1];
                faults.push((entries.clone(), 18));
                entries[index] = good[0];
                faults.push((entries.clone(), 18));
            }
            if level == 2 {
                entries[index] = raw(0x40, 0, 0, 0, 1);
                faults.push((entries, 14));
            }
            for (entries, number) in faults {
                let image = image_with(level, &entries);
                let expected = at(number, level, index as u64, o);
                assert_eq!(told_by_all(&image, level), expected);
                assert_eq!(told_by_view(&image, o), expected);
                let in_buffer = at(number, level, index as u64, 0);
                assert_eq!(told_by_extend(&image[o..]), in_buffer);
            }
        }
    }
}

#[test]
fn of_two_entries_with_a_fault_the_first_is_told() {
    let mut entries = different(6);
    entries[2] = with_reserved(entries[2]);
    entries[4] = entries[0];
    let image = image_with(2, &entries);
    assert_eq!(told_by_all(&image, 2), at(5, 2, 2, WIDE_TWO));
    // in one entry 5 comes before 14 and 18, and the index is the same
    entries[2] = with_reserved(raw(0x40, 0, 0, 0, 1));
    let image = image_with(2, &entries);
    assert_eq!(told_by_all(&image, 2), at(5, 2, 2, WIDE_TWO));
    entries[2] = raw(0x40, 0, 0, 0, 1);
    let image = image_with(2, &entries);
    assert_eq!(told_by_all(&image, 2), at(14, 2, 2, WIDE_TWO));
}

// An entry's location

#[test]
fn what_is_wrong_with_a_location_carries_the_entry_whose_bytes_are_asked_for() {
    let of_level = |level: u32| {
        let mut entries = different(5);
        entries[0] = raw(0x0B, 0, 0, 0, 1);
        entries[2] = raw(3, 0, 1, L as u64, 1);
        entries[3] = raw(3, 1, 0, 0, 3);
        entries[4] = raw(3, 2, 0, physical(L) - 1, 0);
        image_with(level, &entries)
    };
    for level in [1, 2] {
        let image = of_level(level);
        let o = place_of(level);
        let view = View {
            image: &image,
            place: o as u64,
        };
        for (index, number) in [(0, 17), (2, 7), (3, 16), (4, 7)] {
            let expected = at(number, level, index, o);
            assert_eq!(bytes(&image, level, index), Err(expected));
            assert_eq!(view.bytes(index), Err(expected));
            assert_eq!(version::of_entry(&image, level, index), Err(expected));
            assert_eq!(version::of_view(&view, index), Err(expected));
            // nobody asks for its bytes here
            assert!(entry(&image, level, index).is_ok());
            assert!(view.entry(index).is_ok());
        }
        assert!(bytes(&image, level, 1).is_ok());
        assert!(directory(&image, level).is_ok());
        // no version in the bytes that are there: a refusal of the bytes, not of the directory
        assert_eq!(
            version::of_entry(&image, level, 1),
            Err(Refusal::of(1)),
            "an entry of no bytes"
        );
    }
}

#[test]
fn a_lead_carries_its_own_index_and_level_one() {
    let other = raw(1, 0, 0, 0, 1);
    let another = raw(2, 0, 0, 0, 1);
    for (lead, number) in [
        (raw(0x40, 0, 0, TWO as u64, 3), 16),
        (raw(0x40, 0, 0, L as u64 + 1, 1), 7),
        (raw(0x40, 0, 0, physical(L) - 1, 0), 7),
        (raw(0x40, 0, 0, FOUR_GIB, 0), 7),
        (raw(0x40, 0, 0, (L - ONE) as u64 + 1, 2), 7),
    ] {
        for (entries, index) in [
            (vec![lead], 0),
            (vec![other, another, lead], 2),
            (vec![other, lead, another], 1),
        ] {
            let image = image_of(&entries);
            assert_eq!(told_by_all(&image, 2), at(number, 1, index, ONE));
            assert!(directory(&image, 1).is_ok());
        }
    }
}

#[test]
fn of_several_leads_the_walk_tells_the_one_it_came_to() {
    let good = raw(0x40, 0, 0, TWO as u64, 1);
    let bad = raw(0x40, 1, 0, 0, 3);
    let mut image = image_of(&[good, raw(1, 0, 0, 0, 1), bad]);
    put_directory(&mut image, TWO, b"$PL2", &[]);
    let expected = at(16, 1, 2, ONE);
    assert_eq!(find_image(&image, 9, 9), Err(expected));
    assert_eq!(all_directories(&image), Err(expected));
    assert!(directory(&image, 2).is_ok());
    // a match before it
    assert!(find_image(&image, 1, 0).is_ok());
}

#[test]
fn a_fault_below_carries_level_two_and_not_the_lead() {
    let mut image = image_of_two(&different(4));
    image[TWO + 16 + 16 * 3 + 2] = 1;
    seal(&mut image, TWO);
    assert_eq!(told_by_all(&image, 2), at(5, 2, 3, TWO));
    image[TWO + 4] ^= 1;
    assert_eq!(told_by_all(&image, 2), header(4, 2, TWO));
    put(&mut image, TWO, b"$PSP");
    assert_eq!(told_by_all(&image, 2), header(2, 2, TWO));
    // a fault of level one is told as such on the way to level two
    image[ONE + 16 + 16 * 2 + 2] = 1;
    seal(&mut image, ONE);
    assert_eq!(told_by_all(&image, 2), at(5, 1, 2, ONE));
}

// Nothing carried

#[test]
fn what_is_met_in_no_directory_carries_nothing() {
    let alone = |number| Err(Refusal::of(number));
    // the level, the image's length, no EFS
    assert_eq!(directory(&[], 3), Err(Refusal::of(9)));
    assert_eq!(directory(&[], 1), Err(Refusal::of(15)));
    assert_eq!(directory(&[0; 64], 1), Err(Refusal::of(2)));
    // the pointer: absent, or no place
    let mut image = image_of(&[raw(1, 0, 0, 0, 1)]);
    // an index that there is not, no lead, nothing found
    assert_eq!(entry(&image, 1, 1), alone(8));
    assert_eq!(bytes(&image, 1, 1), Err(Refusal::of(8)));
    assert_eq!(directory(&image, 2), Err(Refusal::of(8)));
    assert_eq!(find(&image, 2, 1, 0), Err(Refusal::not_found(0)));
    assert_eq!(find(&image, 1, 2, 0), Err(Refusal::not_found(1)));
    assert_eq!(find_image(&image, 2, 0), Err(Refusal::not_found(1)));
    assert_eq!(repeated(&image, 1), Err(Refusal::of(8)));
    put_efs(&mut image, EFS, 0, 0);
    assert_eq!(directory(&image, 1), Err(Refusal::of(8)));
    put_efs(&mut image, EFS, L as u32, 0);
    assert_eq!(directory(&image, 1), Err(Refusal::of(7)));
    // a view's own
    assert_eq!(told_by_view(&[], 0), Refusal::of(15));
    assert_eq!(told_by_view(&image, L + 1), Refusal::of(7));
    let place = ONE as u64;
    let image = &image[..];
    assert_eq!(View { image, place }.entry(1), alone(8));
    assert_eq!(View { image, place }.bytes(1), Err(Refusal::of(8)));
}

#[test]
fn a_start_and_what_is_wrong_with_a_new_entry_carry_nothing() {
    assert_eq!(start(&mut [0; 16], 3), Err(Refusal::of(9)));
    assert_eq!(start(&mut [0; 15], 2), Err(Refusal::of(12)));
    let mut buffer = vec![0; 16 + 16 * 512];
    put_directory(&mut buffer, 0, b"$PL2", &different(512));
    let mut refused = |kind, location, mode| {
        extend(&mut buffer, &entry_of(kind, location, mode)).expect_err("it was added")
    };
    assert_eq!(refused(1, 1 << 62, 0), Refusal::of(5));
    assert_eq!(refused(1, 0, 4), Refusal::of(5));
    assert_eq!(refused(0x40, 0, 0), Refusal::of(14));
    assert_eq!(refused(1, 0, 0), Refusal::of(18));
    assert_eq!(refused(3, 0, 0), Refusal::of(3));
    let mut full = vec![0; 32];
    put_directory(&mut full, 0, b"$PSP", &different(1));
    let refused = extend(&mut full, &entry_of(2, 0, 0));
    assert_eq!(refused, Err(Refusal::of(12)));
}

// What is wrong at a place

/// What is wrong, in the order of its fields.
fn told(image: &[u8], o: usize, level: u32, index: u64) -> Result<(u8, usize, u64, u64, u64), u8> {
    let told = wrong(image, o as u64, level, index);
    let numbers = |w: Wrong| (w.number, w.field as usize, w.bytes, w.stands, w.should);
    told.map(numbers).map_err(|refusal| {
        assert_eq!(refusal, Refusal::of(refusal.number));
        refusal.number
    })
}

const PSP: u64 = 0x5053_5024;
const PL2: u64 = 0x324C_5024;

#[test]
fn a_header_is_told_field_by_field() {
    for level in [1, 2] {
        let o = place_of(level);
        let good = image_with(level, &different(3));
        let total = if level == 1 { 4 } else { 3 };
        let sum = u64::from(u32_at(&good, o + 4));
        for (offset, value, sealed, expected) in [
            (8, 513u32, false, (3, o + 8, 4, 513, 512)),
            (8, u32::MAX, false, (3, o + 8, 4, 0xFFFF_FFFF, 512)),
            (4, 0x1234_5678, false, (4, o + 4, 4, 0x1234_5678, sum)),
            (12, 1, true, (5, o + 12, 4, 1, 0)),
            (12, 0x8000_0000, true, (5, o + 12, 4, 0x8000_0000, 0)),
        ] {
            let mut image = good.clone();
            put(&mut image, o + offset, &value.to_le_bytes());
            if sealed {
                seal(&mut image, o);
            }
            // by the level and by the cookie, and whatever the index is
            for (level, index) in [(level, 0), (0, 0), (level, 9), (0, u64::MAX)] {
                assert_eq!(told(&image, o, level, index), Ok(expected));
            }
        }
        let mut image = good.clone();
        put(&mut image, o, &[0x11, 0x22, 0x33, 0x44]);
        let due = if level == 1 { PSP } else { PL2 };
        let strange = 0x4433_2211;
        assert_eq!(told(&image, o, level, 0), Ok((2, o, 4, strange, due)));
        assert_eq!(told(&image, o, 0, 0), Ok((2, o, 4, strange, PSP)));
        // the directory is good, but of the other level
        let [stands, should] = if level == 1 { [PSP, PL2] } else { [PL2, PSP] };
        let other = told(&good, o, 3 - level, 0);
        assert_eq!(other, Ok((2, o, 4, stands, should)));
        // the entries cut, and the header
        let cut = o + 16 + 16 * total;
        let entries = 16 * total as u64;
        let expected = (1, o + 16, entries, entries - 1, entries);
        assert_eq!(told(&good[..cut - 1], o, level, 0), Ok(expected));
        assert_eq!(told(&good[..cut - 1], o, 0, 0), Ok(expected));
        assert_eq!(
            told(&good[..o + 16], o, 0, 0),
            Ok((1, o + 16, entries, 0, entries))
        );
        for there in [0, 1, 15] {
            let expected = (1, o, 16, there as u64, 16);
            assert_eq!(told(&good[..o + there], o, level, 0), Ok(expected));
            assert_eq!(told(&good[..o + there], o, 0, 0), Ok(expected));
        }
    }
}

#[test]
fn an_entry_is_told_field_by_field() {
    for level in [1, 2] {
        let o = place_of(level);
        let good = different(4);
        let mut reserved = good.clone();
        reserved[2][2] = 0x34;
        reserved[2][3] = 0x12;
        let mut repeats = good.clone();
        repeats[3] = raw(1, 1, 7, 7, 2);
        let mut misplaced = good.clone();
        misplaced[1] = raw(0x40, 0, 0, 0, 1);
        let at_entry = |index: usize| o + 16 + 16 * index;
        let mut rows = vec![
            (reserved, (5, at_entry(2) + 2, 2, 0x1234, 0)),
            (repeats, (18, at_entry(3), 1, 1, 1)),
        ];
        if level == 2 {
            rows.push((misplaced, (14, at_entry(1), 1, 0x40, 1)));
        }
        for (entries, expected) in rows {
            let image = image_with(level, &entries);
            for (level, index) in [(level, 0), (0, 3), (level, u64::MAX)] {
                assert_eq!(told(&image, o, level, index), Ok(expected));
            }
        }
    }
}

#[test]
fn a_location_is_told_of_the_entry_asked_for() {
    for level in [1, 2] {
        let o = place_of(level);
        let mut entries = different(6);
        let most = (1 << 62) - 1;
        entries[0] = raw(0x0B, 0, 0, most, 3);
        entries[2] = raw(3, 0, 1, L as u64, 1);
        entries[3] = raw(3, 1, 0, most, 3);
        entries[4] = raw(3, 2, 0, physical(L) - 1, 0);
        entries[5] = raw(3, 3, 0, most, 2);
        let image = image_with(level, &entries);
        let at_entry = |index: usize| o + 16 + 16 * index;
        let length = L as u64;
        for level in [level, 0] {
            for (index, expected) in [
                (0, Ok((17, at_entry(0), 1, 0x0B, 0x0B))),
                // its bytes are there
                (1, Err(8)),
                (2, Ok((7, at_entry(2) + 8, 8, length, length))),
                (3, Ok((16, at_entry(3) + 8, 8, 3, 2))),
                (4, Ok((7, at_entry(4) + 8, 8, physical(L) - 1, length))),
                (5, Ok((7, at_entry(5) + 8, 8, most, length))),
                // no such entry
                (7, Err(8)),
                (u64::MAX, Err(8)),
            ] {
                assert_eq!(told(&image, o, level, index), expected, "{index}");
            }
        }
    }
}

#[test]
fn nothing_is_told_of_no_place() {
    let image = image_with(1, &[]);
    assert_eq!(told(&image, WIDE_ONE, 1, 0), Err(8));
    // 9 comes first, then 15, then 7
    assert_eq!(told(&[], usize::MAX, 3, 0), Err(9));
    assert_eq!(told(&[], usize::MAX, 2, 0), Err(15));
    assert_eq!(told(&vec![0; LONGEST_IMAGE + 1], 0, 0, 0), Err(15));
    assert_eq!(told(&image, L + 1, 3, 0), Err(9));
    assert_eq!(told(&image, L + 1, 2, 0), Err(7));
    assert_eq!(told(&image, usize::MAX, 1, 0), Err(7));
    for level in [3, u32::MAX] {
        assert_eq!(told(&image, L, level, 0), Err(9));
    }
    assert_eq!(told(&image, L, 1, 0), Ok((1, L, 16, 0, 16)));
}

/// The place of every refusal that a call gives leads back to the number: what is wrong there is what was refused.
#[test]
fn what_is_wrong_at_the_place_of_a_refusal_is_its_number() {
    // one bit makes a lead of the first, and a value of the sixth
    let mut entries = different(7);
    entries[0][0] = 0x00;
    entries[5][0] = 0x0A;
    let mut seen = BTreeSet::new();
    for level in [1, 2] {
        let o = place_of(level);
        let mut image = image_with(level, &entries);
        let end = o + 16 + 16 * entries.len();
        let good = image[o..end].to_vec();
        for bit in 0..8 * good.len() {
            image[o + bit / 8] ^= 1 << (bit % 8);
            note_wrong(&image, &mut seen);
            if u32_at(&image, o + 8) <= 512 {
                seal(&mut image, o);
                note_wrong(&image, &mut seen);
            }
            put(&mut image, o, &good);
        }
    }
    let numbers: Vec<u8> = seen.into_iter().collect();
    assert_eq!(numbers, [2, 3, 4, 5, 7, 14, 16, 17, 18]);
}

/// Asks what is wrong at the place of what some calls refuse, and notes the numbers.
fn note_wrong(image: &[u8], seen: &mut BTreeSet<u8>) {
    let place = WIDE_ONE as u64;
    let refusals = [
        directory(image, 2).err(),
        find_image(image, 0xEE, 0xEE).err(),
        View { image, place }.bytes(5).err(),
    ];
    for refusal in refusals.into_iter().flatten() {
        if let Some(met) = refusal.place {
            let told = wrong(image, met.directory, met.level, met.index.unwrap_or(0));
            assert_eq!(told.map(|w| w.number), Ok(refusal.number), "{refusal:?}");
            seen.insert(refusal.number);
        }
    }
}
