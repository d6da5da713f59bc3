//! A view of a directory: an image and the place where a directory of it begins.

use super::call::Call;
use super::flash::{entry_told, part_told};
use super::told::told;
use super::State;
use crate::arguments::call::CallForm;
use crate::arguments::lines::BadLine;
use crate::arguments::numbers::{number, number32};

pub static CALLS: [Call; 3] = [
    Call {
        form: CallForm::new(
            "view",
            "NAME LEVEL",
            "the place that a view of the directory of a level holds",
        ),
        answer: view,
    },
    Call {
        form: CallForm::new(
            "view-entry",
            "NAME PLACE INDEX",
            "an entry, from a view with that place",
        ),
        answer: view_entry,
    },
    Call {
        form: CallForm::new(
            "view-bytes",
            "NAME PLACE INDEX",
            "where the bytes of an entry lie, from a view with that place",
        ),
        answer: view_bytes,
    },
];

fn view(state: &mut State, words: &[&[u8]]) -> Result<String, BadLine> {
    let image = state.buffers.lent("NAME", words[0])?;
    let level = number32("LEVEL", words[1])?;
    let answer = bindings::view(image, level);
    Ok(told(answer, |place| format!("ok place={place:#x}")))
}

fn view_entry(state: &mut State, words: &[&[u8]]) -> Result<String, BadLine> {
    let image = state.buffers.lent("NAME", words[0])?;
    let place = number("PLACE", words[1], u64::MAX)? as usize;
    let index = number("INDEX", words[2], u64::MAX)? as usize;
    let answer = bindings::view_entry(image, place, index);
    Ok(told(answer, entry_told))
}

fn view_bytes(state: &mut State, words: &[&[u8]]) -> Result<String, BadLine> {
    let image = state.buffers.lent("NAME", words[0])?;
    let place = number("PLACE", words[1], u64::MAX)? as usize;
    let index = number("INDEX", words[2], u64::MAX)? as usize;
    let answer = bindings::view_part(image, place, index);
    Ok(told(answer, part_told))
}

#[cfg(test)]
mod tests {
    use super::super::tests::{all_are_bad, answers_after};

    /// An EFS whose pointer leads to an empty level one at 0x100; at 0x200 a level two of one entry, to which nothing leads.
    const IMAGE: &str = "\
buffer a 0x80000
patch a 0x20000 aa55aa55
patch a 0x20010 0001f8ff
patch a 0x100 24505350ffffffff0000000000000000
patch a 0x200 24504c32048024800100000000000000
patch a 0x210 03000000000000000000000000000080
";

    #[test]
    fn a_view_and_what_it_gives_are_told() {
        let calls = "view a 1\nview-entry a 0x200 0\nview-bytes a 512 0\n";
        let expected = [
            "ok place=0x100",
            "ok type=0x3 sub=0x0 size=0x0 location=0x0 mode=2",
            "ok place=0x200 length=0",
        ];
        assert_eq!(answers_after(IMAGE, calls), expected);
    }

    #[test]
    fn what_is_refused_is_told() {
        let calls = "view a 0\nview a 2\nview-entry a 0x100 0\nview-entry a 0 0\n\
                     view-bytes a 0x80000 0\nview-bytes a 0xffffffffffffffff 0\n";
        let expected = [
            "refused 9",
            "refused 8",
            "refused 8",
            "refused 2 level=0",
            "refused 1 level=0",
            "refused 7",
        ];
        assert_eq!(answers_after(IMAGE, calls), expected);
    }

    #[test]
    fn what_is_met_in_a_directory_is_told_with_the_level_of_its_cookie() {
        let calls = "patch a 0x104 00\nview a 1\nview-entry a 0x100 0\n\
                     patch a 0x204 05002800\npatch a 0x213 80\nview-entry a 0x200 0\nview-bytes a 0x200 9\n\
                     patch a 0x204 04c024c0\npatch a 0x213 00\npatch a 0x21f c0\nview-entry a 0x200 0\nview-bytes a 0x200 0\n";
        let mut answers = answers_after(IMAGE, calls);
        answers.retain(|answer| answer != "ok");
        let expected = [
            "refused 4 level=1",
            "refused 4 level=1",
            "refused 5 level=2 index=0",
            "refused 5 level=2 index=0",
            "ok type=0x3 sub=0x0 size=0x0 location=0x0 mode=3",
            "refused 16 level=2 index=0",
        ];
        assert_eq!(answers, expected);
    }

    #[test]
    fn numbers_must_fit_their_widths() {
        let lines = [
            "view a 0x100000000",
            "view-entry a 0x10000000000000000 0",
            "view-bytes a 0 0x10000000000000000",
            "view b 1",
            "view a",
            "view-entry a 0x200",
            "view-bytes a 0x200 0 0",
        ];
        all_are_bad(IMAGE, &lines);
    }
}
