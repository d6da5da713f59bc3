//! The sample board that comes with the tool, as the register takes it: it shows all that a register can show.

pub use crate::samples::board::board;

#[cfg(test)]
mod tests {
    use super::super::facts::Facts;
    use super::super::verdict::{Judgement, Verdict};
    use super::*;
    use bindings::{Refusal, Words};

    #[test]
    fn the_sample_shows_all_that_a_register_can_show() {
        let image = board().expect("the writer refuses none of it");
        let facts = Facts::of(&image, &mut Words::new());
        assert_eq!(Judgement::of(&facts).verdict, Verdict::Good);
        let rows = || facts.directories.iter().flat_map(|listed| &listed.entries);
        let mut modes: Vec<u64> = rows().map(|row| row.entry.mode).collect();
        modes.sort_unstable();
        modes.dedup();
        assert_eq!(modes, [0, 1, 2, 3]);
        let mut refused: Vec<u64> = rows()
            .filter_map(|row| row.part.err())
            .map(|refusal| refusal.number)
            .collect();
        refused.sort_unstable();
        assert_eq!(refused, [Refusal::OUTSIDE, Refusal::MODE, Refusal::VALUE]);
        let values: Vec<u64> = rows().filter_map(|row| row.value()).collect();
        assert_eq!(values, [0x1_0000_0001]);
        let versions = rows().filter_map(|row| row.version_words());
        assert!(versions.into_iter().any(|version| version == "00.08.01.74"));
        let found = facts.asked.iter().filter(|asked| asked.answer.is_ok());
        assert_eq!(found.count(), facts.asked.len() - 1);
    }
}
