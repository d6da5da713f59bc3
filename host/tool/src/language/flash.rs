//! The flash image: its directories, their entries and their bytes, and the two lookups.

use super::call::Call;
use super::told::told;
use super::State;
use crate::arguments::call::CallForm;
use crate::arguments::lines::BadLine;
use crate::arguments::numbers::{number, number32, number8};

pub static CALLS: [Call; 5] = [
    Call {
        form: CallForm::new(
            "directory",
            "NAME LEVEL",
            "where the directory of a level begins, and its total",
        ),
        answer: directory,
    },
    Call {
        form: CallForm::new("entry", "NAME LEVEL INDEX", "an entry of that directory"),
        answer: entry,
    },
    Call {
        form: CallForm::new(
            "bytes",
            "NAME LEVEL INDEX",
            "where in the image the bytes of an entry lie",
        ),
        answer: bytes,
    },
    Call {
        form: CallForm::new(
            "find",
            "NAME LEVEL TYPE SUB",
            "the first entry of a type and subprogram in one directory",
        ),
        answer: find,
    },
    Call {
        form: CallForm::new(
            "find-image",
            "NAME TYPE SUB",
            "the first entry of a type and subprogram in the whole image",
        ),
        answer: find_image,
    },
];

fn directory(state: &mut State, words: &[&[u8]]) -> Result<String, BadLine> {
    let image = state.buffers.lent("NAME", words[0])?;
    let level = number32("LEVEL", words[1])?;
    Ok(told(bindings::directory(image, level), |found| {
        let (place, level, total) = (found.place, found.level, found.total);
        format!("ok place={place:#x} level={level} total={total}")
    }))
}

fn entry(state: &mut State, words: &[&[u8]]) -> Result<String, BadLine> {
    let image = state.buffers.lent("NAME", words[0])?;
    let level = number32("LEVEL", words[1])?;
    let index = number("INDEX", words[2], u64::MAX)? as usize;
    let answer = bindings::entry(image, level, index);
    Ok(told(answer, entry_told))
}

fn bytes(state: &mut State, words: &[&[u8]]) -> Result<String, BadLine> {
    let image = state.buffers.lent("NAME", words[0])?;
    let level = number32("LEVEL", words[1])?;
    let index = number("INDEX", words[2], u64::MAX)? as usize;
    let answer = bindings::part(image, level, index);
    Ok(told(answer, part_told))
}

fn find(state: &mut State, words: &[&[u8]]) -> Result<String, BadLine> {
    let image = state.buffers.lent("NAME", words[0])?;
    let level = number32("LEVEL", words[1])?;
    let class = number8("TYPE", words[2])?;
    let subprogram = number8("SUB", words[3])?;
    let answer = bindings::find(image, level, class, subprogram);
    Ok(told(answer, |found| {
        format!("ok index={} tested={}", found.index, found.tested)
    }))
}

fn find_image(state: &mut State, words: &[&[u8]]) -> Result<String, BadLine> {
    let image = state.buffers.lent("NAME", words[0])?;
    let class = number8("TYPE", words[1])?;
    let subprogram = number8("SUB", words[2])?;
    let answer = bindings::find_image(image, class, subprogram);
    Ok(told(answer, |found| {
        let (place, level) = (found.place, found.level);
        let (index, tested) = (found.index, found.tested);
        format!("ok place={place:#x} level={level} index={index} tested={tested}")
    }))
}

/// An entry as an answer tells it.
pub fn entry_told(entry: bindings::Entry) -> String {
    format!(
        "ok type={:#x} sub={:#x} size={:#x} location={:#x} mode={}",
        entry.class, entry.subprogram, entry.size, entry.location, entry.mode
    )
}

/// A part of an image as an answer tells it.
pub fn part_told(part: bindings::Part) -> String {
    format!("ok place={:#x} length={}", part.place, part.length)
}

#[cfg(test)]
mod tests {
    use super::super::tests::{all_are_bad, answers_after};

    /// An EFS whose pointer leads to 0x100. There is a level one of three entries: one of type 1 with 256 bytes at 0x1000,
    /// one that leads by a physical address to 0x200, and one that holds a value. At 0x200 is an empty level two.
    const IMAGE: &str = "\
buffer a 0x80000
patch a 0x20000 aa55aa55
patch a 0x20014 00010000
patch a 0x100 24505350905585d80300000000000000
patch a 0x110 01020000000100000010000000000040
patch a 0x120 40000000000000000002f8ff00000000
patch a 0x130 0b0000000000000078563412efcdabc9
patch a 0x200 24504c32ffffffff0000000000000000
";

    #[test]
    fn what_is_accepted_is_told() {
        let calls = "directory a 1\ndirectory a 2\nentry a 1 0\nentry a 1 2\nbytes a 1 0\n\
                     find a 1 0x0b 0\nfind-image a 1 2\nfind-image a 0xb 0\n";
        let expected = [
            "ok place=0x100 level=1 total=3",
            "ok place=0x200 level=2 total=0",
            "ok type=0x1 sub=0x2 size=0x100 location=0x1000 mode=1",
            "ok type=0xb sub=0x0 size=0x0 location=0x9abcdef12345678 mode=3",
            "ok place=0x1000 length=256",
            "ok index=2 tested=3",
            "ok place=0x100 level=1 index=0 tested=1",
            "ok place=0x100 level=1 index=2 tested=3",
        ];
        assert_eq!(answers_after(IMAGE, calls), expected);
    }

    #[test]
    fn what_is_refused_is_told_and_a_lookup_tells_its_count() {
        let calls = "directory a 0\nentry a 1 3\nentry a 2 0\nbytes a 1 2\nfind a 1 1 1\n\
                     find a 2 1 2\nfind a 3 1 2\nfind-image a 1 1\n";
        let expected = [
            "refused 9",
            "refused 8",
            "refused 8",
            "refused 17 level=1 index=2",
            "refused 8 tested=3",
            "refused 8 tested=0",
            "refused 9",
            "refused 8 tested=3",
        ];
        assert_eq!(answers_after(IMAGE, calls), expected);
    }

    #[test]
    fn what_is_met_in_a_directory_is_told_with_its_level_and_index() {
        // Calls after others that change the image, each accepted.
        let refused = |patches: &str, calls: &str, answer: &str| {
            let answers = answers_after(&(IMAGE.to_string() + patches), calls);
            assert_eq!(answers.len(), calls.lines().count());
            for told in answers {
                assert_eq!(told, answer, "{calls}");
            }
        };
        let of_one = "directory a 1\nentry a 1 0\nbytes a 1 0\nfind a 1 1 2\nfind-image a 1 2\n";
        let of_two = "directory a 2\nentry a 2 0\nbytes a 2 0\nfind a 2 1 2\nfind-image a 9 9\n";
        // A checksum of each level, and a total of level two.
        refused("patch a 0x104 00\n", of_one, "refused 4 level=1");
        refused("patch a 0x104 00\n", of_two, "refused 4 level=1");
        refused("patch a 0x204 00\n", of_two, "refused 4 level=2");
        refused("patch a 0x208 0102\n", of_two, "refused 3 level=2");
        // Flags of the last entry of level one.
        let flags = "patch a 0x104 91558cd8\npatch a 0x132 01\n";
        refused(flags, of_one, "refused 5 level=1 index=2");
        refused(flags, of_two, "refused 5 level=1 index=2");
        // An entry of level two that leads, and one that repeats in level one.
        let lead = "patch a 0x204 41000c0201\npatch a 0x210 40\n";
        refused(lead, of_two, "refused 14 level=2 index=0");
        let repeat = "patch a 0x104 3e972d32\npatch a 0x130 01020000000000000000000000000040\n";
        refused(repeat, of_one, "refused 18 level=1 index=2");
        // The location of the entry that leads to level two: mode 3, and a place beyond the image.
        let calls = of_two.to_string() + "bytes a 1 1\n";
        let mode = "patch a 0x104 91158c98\npatch a 0x12f c0\n";
        refused(mode, &calls, "refused 16 level=1 index=1");
        let outside = "patch a 0x104 a0933901\npatch a 0x128 0100080000000040\n";
        refused(outside, &calls, "refused 7 level=1 index=1");
    }

    #[test]
    fn numbers_must_fit_their_widths() {
        let largest =
            "directory a 0xffffffff\nentry a 1 0xffffffffffffffff\nfind-image a 255 255\n";
        let answers = answers_after(IMAGE, largest);
        assert_eq!(answers, ["refused 9", "refused 8", "refused 8 tested=3"]);
        let lines = [
            "directory a 0x100000000",
            "entry a 1 0x10000000000000000",
            "bytes a 4294967296 0",
            "bytes a 1 -1",
            "find a 1 256 0",
            "find a 1 0 256",
            "find-image a 0x100 0",
            "find-image a 0 0x100",
            "directory b 1",
            "directory a",
            "entry a 1",
            "find a 1 1",
            "find-image a 1",
        ];
        all_are_bad(IMAGE, &lines);
    }
}
