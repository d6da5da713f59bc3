//! The GUID table: checked, looked up, started and extended.

use super::call::Call;
use super::told::told;
use super::State;
use crate::arguments::call::CallForm;
use crate::arguments::lines::{hex, BadLine};
use crate::arguments::quoted::quoted;
use bindings::Guid;

pub static CALLS: [Call; 4] = [
    Call {
        form: CallForm::new(
            "guids",
            "NAME",
            "the table's total and the number of its entries",
        ),
        answer: guids,
    },
    Call {
        form: CallForm::new(
            "guid-find",
            "NAME GUID",
            "where the data of the entry nearest the footer lies",
        ),
        answer: find,
    },
    Call {
        form: CallForm::new("guid-start", "NAME", "write a table with no entries"),
        answer: start,
    },
    Call {
        form: CallForm::new(
            "guid-extend",
            "NAME GUID HEX",
            "add an entry, farthest from the footer",
        ),
        answer: extend,
    },
];

fn guids(state: &mut State, words: &[&[u8]]) -> Result<String, BadLine> {
    let image = state.buffers.lent("NAME", words[0])?;
    Ok(told(bindings::guids(image), |table| {
        format!("ok total={} entries={}", table.total, table.entries)
    }))
}

fn find(state: &mut State, words: &[&[u8]]) -> Result<String, BadLine> {
    let image = state.buffers.lent("NAME", words[0])?;
    let guid = guid(words[1])?;
    Ok(told(bindings::guid_find(image, &guid), |found| {
        let (place, length, tested) = (found.place, found.length, found.tested);
        format!("ok place={place:#x} length={length} tested={tested}")
    }))
}

fn start(state: &mut State, words: &[&[u8]]) -> Result<String, BadLine> {
    let buffer = state.buffers.lent_to_change("NAME", words[0])?;
    let answer = bindings::guid_start(buffer);
    Ok(told(answer, |()| String::from("ok")))
}

fn extend(state: &mut State, words: &[&[u8]]) -> Result<String, BadLine> {
    let buffer = state.buffers.lent_to_change("NAME", words[0])?;
    let guid = guid(words[1])?;
    let data = hex("HEX", words[2])?;
    let answer = bindings::guid_extend(buffer, &guid, &data);
    Ok(told(answer, |total| format!("ok total={total}")))
}

/// The GUID that a word stands for. Its first three groups are numbers, which lie in memory with their lowest byte first.
fn guid(word: &[u8]) -> Result<Guid, BadLine> {
    let groups: Vec<&[u8]> = word.split(|&byte| byte == b'-').collect();
    let lengths: Vec<usize> = groups.iter().map(|group| group.len()).collect();
    if lengths != [8, 4, 4, 4, 12] {
        return Err(BadLine::new(format!(
            "GUID is {}, which is no GUID; write groups of 8, 4, 4, 4 and 12 hexadecimal digits, \
             parted by -",
            quoted(word)
        )));
    }
    let mut bytes = Vec::with_capacity(16);
    for (place, group) in groups.iter().enumerate() {
        let mut group = hex("a group of GUID", group)?;
        if place < 3 {
            group.reverse();
        }
        bytes.extend(group);
    }
    let bytes = bytes.try_into().expect("32 digits are sixteen bytes");
    Ok(Guid(bytes))
}

#[cfg(test)]
mod tests {
    use super::super::tests::{all_are_bad, answers_after};
    use super::guid;

    const TABLE: &str = "\
buffer a 100
guid-start a
guid-extend a 00112233-4455-6677-8899-AABBCCDDEEFF c0ffee
";

    #[test]
    fn the_first_three_groups_lie_in_memory_with_the_lowest_byte_first() {
        let guid = guid(b"96b582de-1fb2-45f7-baea-a366c55a082d").unwrap();
        let footer = [
            0xDE, 0x82, 0xB5, 0x96, 0xB2, 0x1F, 0xF7, 0x45, 0xBA, 0xEA, 0xA3, 0x66, 0xC5, 0x5A,
            0x08, 0x2D,
        ];
        assert_eq!(guid.0, footer);
    }

    #[test]
    fn a_table_is_written_and_told() {
        let calls = "guids a\nguid-find a 00112233-4455-6677-8899-aabbccddeeff\nshow a 29 39\n";
        let expected = [
            "ok total=39 entries=1",
            "ok place=0x1d length=3 tested=1",
            "bytes c0ffee15003322110055447766\
             8899aabbccddeeff2700de82b596b21ff745baeaa366c55a082d",
        ];
        assert_eq!(answers_after(TABLE, calls), expected);
    }

    #[test]
    fn what_is_refused_keeps_the_buffer() {
        let calls = "digest a\nguid-find a 00112233-4455-6677-8899-aabbccddee00\n\
                     guid-extend a 00112233-4455-6677-8899-aabbccddeeff 000000000000000000000000\n\
                     digest a\n";
        let answers = answers_after(TABLE, calls);
        assert_eq!(answers[1..3], ["refused 8 tested=1", "refused 12"]);
        assert_eq!(answers[0], answers[3]);
    }

    #[test]
    fn what_is_no_guid_is_a_bad_line() {
        let lines = [
            "guid-find a 00112233-4455-6677-8899-aabbccddeef",
            "guid-find a 00112233-4455-6677-8899-aabbccddeef00",
            "guid-find a 001122334455-6677-8899-aabbccddeeff",
            "guid-find a 00112233-4455-6677-8899-aabbccddee-ff",
            "guid-find a 0011223-34455-6677-8899-aabbccddeeff",
            "guid-find a 00112233-4455-6677-8899-aabbccddeefg",
            "guid-find a {0112233-4455-6677-8899-aabbccddee}",
            "guid-find a -",
            "guid-find a",
            "guid-find b 00112233-4455-6677-8899-aabbccddeeff",
            "guid-extend a 00112233-4455-6677-8899-aabbccddeeff",
            "guid-extend a 00112233-4455-6677-8899-aabbccddeeff 0",
            "guids b",
            "guid-start b",
            "guid-start a a",
        ];
        all_are_bad(TABLE, &lines);
    }
}
