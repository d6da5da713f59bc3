use super::*;

fn structure(kind: u16, id: u8, registers: [u32; 3]) -> Structure {
    Structure {
        kind,
        id,
        registers,
    }
}

fn table() -> Table {
    Table {
        oem: *b"AMDINC",
        table: *b"AMDICRB ",
        oem_revision: 0x1111_2222,
        creator: 0x3333_4444,
        creator_revision: 0x5555_6666,
        base: 0x7777_8888_9999_A000,
        pages: 1,
        structures: [
            structure(0, 0, [0x10, 0x14, 0x18]),
            structure(1, 1, [0x20, 0x24, 0x28]),
            structure(2, 0, [0x30, 0, 0]),
        ],
    }
}

/// The table's bytes, laid out by hand from the source's tables.
fn bytes() -> Vec<u8> {
    let mut bytes = Vec::new();
    bytes.extend(b"ASPT");
    bytes.extend([112, 0, 0, 0]);
    bytes.extend([2, 0]);
    bytes.extend(b"AMDINCAMDICRB ");
    bytes.extend([0x22, 0x22, 0x11, 0x11]);
    bytes.extend([0x44, 0x44, 0x33, 0x33]);
    bytes.extend([0x66, 0x66, 0x55, 0x55]);
    bytes.extend([0x00, 0xA0, 0x99, 0x99, 0x88, 0x88, 0x77, 0x77]);
    bytes.extend([1, 0, 0, 0]);
    bytes.extend([3, 0, 0, 0]);
    bytes.extend([0, 0, 20, 0, 0, 0, 0, 0]);
    bytes.extend([0x10, 0, 0, 0, 0x14, 0, 0, 0, 0x18, 0, 0, 0]);
    bytes.extend([1, 0, 20, 0, 1, 0, 0, 0]);
    bytes.extend([0x20, 0, 0, 0, 0x24, 0, 0, 0, 0x28, 0, 0, 0]);
    bytes.extend([2, 0, 20, 0, 0, 0, 0, 0]);
    bytes.extend([0x30, 0, 0, 0, 0, 0, 0, 0, 0, 0, 0, 0]);
    seal(&mut bytes);
    bytes
}

/// Makes the first 112 bytes sum to zero.
fn seal(bytes: &mut [u8]) {
    bytes[9] = 0;
    let sum: u32 = bytes[..112].iter().map(|byte| u32::from(*byte)).sum();
    bytes[9] = ((256 - sum % 256) % 256) as u8;
}

/// The answer to the good bytes with these changed, the sum put right.
fn changed(changes: &[(usize, &[u8])]) -> Result<Table, u8> {
    let mut bytes = bytes();
    for (at, new) in changes {
        put(&mut bytes, *at, new);
    }
    seal(&mut bytes);
    read(&bytes).map_err(|refusal| refusal.number)
}

/// What the writer answers to this table; refused, it changes nothing.
fn write_number(table: &Table) -> Option<u8> {
    let mut buffer = [0xC3; 112];
    let result = write(&mut buffer, table);
    if result.is_err() {
        assert_eq!(buffer, [0xC3; 112]);
    }
    result.err().map(|refusal| refusal.number)
}

#[test]
fn a_good_table_is_read_field_by_field() {
    assert_eq!(bytes().len(), 112);
    assert_eq!(read(&bytes()), Ok(table()));
}

#[test]
fn a_good_table_is_written_byte_by_byte_and_the_rest_kept() {
    let mut buffer = vec![0xC3; 120];
    assert_eq!(write(&mut buffer, &table()), Ok(()));
    assert_eq!(buffer[..112], bytes());
    assert_eq!(buffer[112..], [0xC3; 8]);
}

#[test]
fn the_sum_is_over_112_bytes_and_not_over_what_is_lent() {
    let mut longer = bytes();
    longer.extend([0xFF; 7]);
    assert_eq!(read(&longer), Ok(table()));
    // one byte too many that would make the whole sum zero
    let mut wrong = bytes();
    wrong[9] = wrong[9].wrapping_sub(1);
    wrong.push(1);
    assert_eq!(read(&wrong), Err(Refusal::of(4)));
}

/// All faults at once, put right one after the other: the numbers come in the order of the paper.
#[test]
fn the_checks_before_the_structures_come_in_their_order() {
    let mut b = bytes();
    let number = |b: &[u8]| read(b).map_err(|refusal| refusal.number);
    b[0] = b'a';
    b[4] = 111;
    b[8] = 1;
    b[9] = b[9].wrapping_add(7);
    b[36] = 1;
    b[48] = 2;
    b[54] = 19;
    assert_eq!(number(&b[..111]), Err(1));
    assert_eq!(number(&[]), Err(1));
    assert_eq!(number(&b), Err(2));
    b[0] = b'A';
    assert_eq!(number(&b), Err(3));
    b[4] = 112;
    assert_eq!(number(&b), Err(5));
    b[8] = 2;
    assert_eq!(number(&b), Err(4));
    seal(&mut b);
    assert_eq!(number(&b), Err(5));
    b[36] = 0;
    seal(&mut b);
    assert_eq!(number(&b), Err(3));
    b[48] = 3;
    seal(&mut b);
    assert_eq!(number(&b), Err(6));
    b[54] = 20;
    seal(&mut b);
    assert!(number(&b).is_ok());
}

#[test]
fn every_byte_of_signature_length_revision_and_count_is_tested() {
    for (at, number) in [
        (0, 2),
        (1, 2),
        (2, 2),
        (3, 2),
        (4, 3),
        (5, 3),
        (6, 3),
        (7, 3),
        (8, 5),
        (48, 3),
        (49, 3),
        (50, 3),
        (51, 3),
    ] {
        let other = bytes()[at] ^ 0x80;
        assert_eq!(changed(&[(at, &[other])]), Err(number), "byte {}", at);
    }
}

#[test]
fn the_base_is_a_multiple_of_4096() {
    for (base, number) in [
        (0x1000, None),
        (0x0800, Some(5)),
        (0x1001, Some(5)),
        (0, None),
    ] {
        let base: u64 = base;
        assert_eq!(changed(&[(36, &base.to_le_bytes())]).err(), number);
        assert_eq!(write_number(&Table { base, ..table() }), number);
    }
}

#[test]
fn the_space_may_end_at_two_to_the_64_and_not_behind() {
    let last: u64 = 0xFFFF_FFFF_FFFF_F000;
    let far = 0u64.wrapping_sub(4096 * 0xFFFF_FFFF);
    for (base, pages, number) in [
        (last, 1, None),
        (last, 2, Some(5)),
        (last, u32::MAX, Some(5)),
        (far, u32::MAX, None),
        (far + 4096, u32::MAX, Some(5)),
        (0, u32::MAX, None),
    ] {
        let pages: u32 = pages;
        let changes: [(usize, &[u8]); 2] = [(36, &base.to_le_bytes()), (44, &pages.to_le_bytes())];
        assert_eq!(changed(&changes).err(), number);
        let table = Table {
            base,
            pages,
            ..table()
        };
        assert_eq!(write_number(&table), number);
    }
}

#[test]
fn no_page_makes_the_first_register_7() {
    assert_eq!(changed(&[(44, &[0])]), Err(7));
    assert_eq!(
        write_number(&Table {
            pages: 0,
            ..table()
        }),
        Some(7)
    );
}

/// The second structure, fault upon fault, then put right in turn.
#[test]
fn the_checks_of_a_structure_come_in_their_order() {
    let at = 52 + 20;
    let mut b = bytes();
    let mut number = |at: usize, byte: u8| {
        b[at] = byte;
        seal(&mut b);
        read(&b).map_err(|refusal| refusal.number)
    };
    // it is of type 1: register, ID, reserved, type, length
    assert_eq!(number(at + 19, 1), Err(7));
    assert_eq!(number(at + 4, 2), Err(5));
    assert_eq!(number(at + 19, 0), Err(5));
    assert_eq!(number(at + 4, 1), Ok(table()));
    assert_eq!(number(at + 19, 1), Err(7));
    assert_eq!(number(at + 7, 1), Err(5));
    assert_eq!(number(at, 3), Err(6));
    assert_eq!(number(at + 2, 21), Err(6));
    assert_eq!(number(at, 1), Err(6));
    assert_eq!(number(at + 2, 20), Err(5));
    assert_eq!(number(at + 7, 0), Err(7));
    assert_eq!(number(at + 19, 0), Ok(table()));
}

#[test]
fn a_length_of_20_has_both_bytes() {
    for k in 0..3 {
        let at = 52 + 20 * k + 2;
        assert_eq!(changed(&[(at, &[19])]), Err(6));
        assert_eq!(changed(&[(at, &[21])]), Err(6));
        assert_eq!(changed(&[(at + 1, &[1])]), Err(6));
    }
}

#[test]
fn types_are_0_to_2_once_each_with_both_bytes() {
    for k in 0..3 {
        let at = 52 + 20 * k;
        assert_eq!(changed(&[(at, &[3])]), Err(6));
        assert_eq!(changed(&[(at + 1, &[1])]), Err(6));
    }
    // 0 again in the place of 2, which looks like a good structure of type 0
    assert_eq!(changed(&[(92, &[0])]), Err(6));
    let mut again = table();
    again.structures[2] = again.structures[0];
    assert_eq!(write_number(&again), Some(6));
    let mut ninth = table();
    ninth.structures[0] = structure(9, 1, [0; 3]);
    assert_eq!(write_number(&ninth), Some(6));
    ninth.structures[0].kind = 0x100;
    assert_eq!(write_number(&ninth), Some(6));
    ninth.structures[0].kind = 3;
    assert_eq!(write_number(&ninth), Some(6));
}

#[test]
fn the_types_stand_in_any_order() {
    let orders = [
        [0, 1, 2],
        [0, 2, 1],
        [1, 0, 2],
        [1, 2, 0],
        [2, 0, 1],
        [2, 1, 0],
    ];
    for order in orders {
        let mut given = table();
        given.structures = order.map(|k| table().structures[k]);
        let mut buffer = [0; 112];
        assert_eq!(write(&mut buffer, &given), Ok(()));
        assert_eq!(read(&buffer), Ok(given));
        for (k, kind) in order.into_iter().enumerate() {
            assert_eq!(usize::from(buffer[52 + 20 * k]), kind);
        }
    }
}

#[test]
fn reserved_bytes_are_those_of_the_type() {
    let reserved: [&[usize]; 3] = [
        &[4, 5, 6, 7],
        &[5, 6, 7],
        &[4, 5, 6, 7, 12, 13, 14, 15, 16, 17, 18, 19],
    ];
    for (k, reserved) in reserved.into_iter().enumerate() {
        for at in 4..20 {
            let place = 52 + 20 * k + at;
            let byte = bytes()[place] ^ 0x02;
            let expected = match (k, at) {
                (1, 4) => Some(5),
                _ if reserved.contains(&at) => Some(5),
                // the low byte of a register moves it, the upper ones move it out
                _ if at % 4 < 2 => None,
                _ => Some(7),
            };
            let answer = changed(&[(place, &[byte])]).err();
            assert_eq!(answer, expected, "type {} byte {}", k, at);
        }
    }
}

#[test]
fn the_id_byte_of_type_1_is_1() {
    for id in [0, 2, 0x40, 0x41, 0x81, 0xFF] {
        assert_eq!(changed(&[(76, &[id])]), Err(5));
        let mut given = table();
        given.structures[1].id = id;
        assert_eq!(write_number(&given), Some(5));
        // after the type, before the registers
        given.structures[1].registers = [u32::MAX; 3];
        assert_eq!(write_number(&given), Some(5));
        given.structures[1].kind = 7;
        assert_eq!(write_number(&given), Some(6));
    }
}

#[test]
fn a_register_may_end_with_the_space_and_not_behind() {
    for (k, count) in [3, 3, 1].into_iter().enumerate() {
        for register in 0..count {
            let at = 52 + 20 * k + 8 + 4 * register;
            for (offset, number) in [
                (4092u32, None),
                (4093, Some(7)),
                (4096, Some(7)),
                (u32::MAX, Some(7)),
            ] {
                assert_eq!(changed(&[(at, &offset.to_le_bytes())]).err(), number);
                let mut given = table();
                given.structures[k].registers[register] = offset;
                assert_eq!(write_number(&given), number);
            }
        }
    }
}

#[test]
fn the_largest_offset_fits_in_a_large_space() {
    let mut given = table();
    given.base = 0;
    given.pages = 0x10_0000;
    given.structures[0].registers[0] = 0xFFFF_FFFC;
    assert_eq!(write_number(&given), None);
    given.structures[0].registers[0] = 0xFFFF_FFFD;
    assert_eq!(write_number(&given), Some(7));
    given.pages = 0x10_0001;
    given.structures[0].registers[0] = u32::MAX;
    assert_eq!(write_number(&given), None);
}

#[test]
fn one_structure_is_done_before_the_next_begins() {
    // a register of the first (7) before the type of the second (6)
    assert_eq!(changed(&[(52 + 19, &[1]), (72, &[9])]), Err(7));
    let mut given = table();
    given.structures[0].registers[2] = u32::MAX;
    given.structures[1].kind = 9;
    assert_eq!(write_number(&given), Some(7));
    given.structures[0].registers[2] = 0;
    assert_eq!(write_number(&given), Some(6));
}

#[test]
fn the_writer_tests_the_base_first_and_room_last() {
    let mut given = table();
    given.base = 1;
    given.structures[0].kind = 9;
    let mut short = [0xC3; 111];
    let mut number = |given: &Table| write(&mut short, given).map_err(|refusal| refusal.number);
    assert_eq!(number(&given), Err(5));
    given.base = 0;
    assert_eq!(number(&given), Err(6));
    given.structures[0].kind = 0;
    assert_eq!(number(&given), Err(12));
    assert_eq!(short, [0xC3; 111]);
    assert_eq!(write(&mut [0xC3; 112], &given), Ok(()));
}

#[test]
fn fields_that_a_type_lacks_are_neither_checked_nor_written() {
    let mut given = table();
    given.structures[0].id = 0xEE;
    given.structures[2] = structure(2, 0xEE, [0x30, u32::MAX, u32::MAX]);
    let mut buffer = [0xC3; 112];
    assert_eq!(write(&mut buffer, &given), Ok(()));
    assert_eq!(buffer[..], bytes());
    assert_eq!(read(&buffer), Ok(table()));
}
