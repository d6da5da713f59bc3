//! The search for a difference: random scripts of a subject, each given to both programs.

use crate::answers::Tally;
use crate::cases;
use crate::compare::{calls_of, set_side_by_side, SideBySide};
use crate::difference::Difference;
use crate::programs::Program;
use crate::random::Random;
use crate::shrink::shrunk;
use crate::subjects::{Script, Subject};
use std::thread;

/// How many calls a script has: a short one is shrunk sooner, a long one starts fewer programs.
const CALLS_A_SCRIPT: u64 = 4000;

/// What a search without a difference saw.
#[derive(Debug, Default, PartialEq, Eq)]
pub struct Agreement {
    pub scripts: u64,
    pub tally: Tally,
}

/// What is searched: a subject, the seed, and how many calls at least.
pub struct Search<'a> {
    pub subject: &'a Subject,
    pub seed: u64,
    pub calls: u64,
}

impl Search<'_> {
    /// Sets two programs side by side until a difference is found, or until there were calls enough. After each script
    /// `watch` is told how many calls were answered so far.
    pub fn run(
        &self,
        first: &Program,
        second: &Program,
        mut watch: impl FnMut(u64),
    ) -> Result<Agreement, Difference> {
        let mut seen = Agreement::default();
        let mut scripts = self.scripts();
        let mut next = scripts.next();
        while let Some(script) = next {
            // Making a script takes about as long as answering it, so the next one is made meanwhile.
            let (following, side) = thread::scope(|beside| {
                let following = beside.spawn(|| scripts.next());
                let side = side_by_side(first, second, &script);
                (following.join().expect("a script can be made"), side)
            });
            if side.parted.is_some() {
                return Err(smallest(first, second, script, &side));
            }
            seen.scripts += 1;
            let [answers, _] = &side.answers;
            for ((_, call), answer) in calls_of(&script.concat()).zip(answers) {
                seen.tally.count(call, answer);
            }
            watch(seen.tally.answers());
            next = following;
        }
        Ok(seen)
    }

    /// The scripts, each made when it is asked for. The calls are in all as many as wanted, or a few more.
    fn scripts(&self) -> impl Iterator<Item = Script> + Send + '_ {
        // Each subject and each script has numbers of its own, so that one more of either changes no other.
        let mut seeds = Random::from_seed(self.seed ^ tag_of(self.subject.name));
        let mut left = self.calls;
        std::iter::from_fn(move || {
            if left == 0 {
                return None;
            }
            let amount = left.min(CALLS_A_SCRIPT);
            let script = (self.subject.script)(&mut Random::from_seed(seeds.number()), amount);
            left = left.saturating_sub(calls_of(&script.concat()).count() as u64);
            Some(script)
        })
    }
}

/// The smallest script found that shows the difference of a larger one.
fn smallest(first: &Program, second: &Program, script: Script, side: &SideBySide) -> Difference {
    let differs = |lines: &[Vec<u8>]| side_by_side(first, second, lines).parted.is_some();
    let enough = side.lines_to_part(&script.concat());
    let enough = &script[..enough.unwrap_or(script.len())];
    let script = match differs(enough) {
        true => enough.to_vec(),
        // It is the status that differs, or what was said in the end.
        false => script,
    };
    let script = shrunk(script, differs);
    let side = side_by_side(first, second, &script);
    Difference {
        told: side
            .parted
            .unwrap_or_else(|| "it is not seen each time".into()),
        names: [first.name.clone(), second.name.clone()],
        script,
        answers: side.answers,
    }
}

fn side_by_side(first: &Program, second: &Program, script: &[Vec<u8>]) -> SideBySide {
    set_side_by_side(first, second, &script.concat(), &cases::folder())
}

/// A number for a name.
fn tag_of(name: &str) -> u64 {
    let mut mixed = Random::from_seed(0);
    for byte in name.bytes() {
        mixed = Random::from_seed(mixed.number() ^ u64::from(byte));
    }
    mixed.number()
}

#[cfg(test)]
mod tests {
    use super::*;
    use crate::subjects::SUBJECTS;

    #[test]
    fn there_are_as_many_calls_as_wanted() {
        for subject in SUBJECTS {
            let (seed, calls) = (9, CALLS_A_SCRIPT + 1);
            let search = Search {
                subject,
                seed,
                calls,
            };
            let amounts: Vec<usize> = search
                .scripts()
                .map(|script| calls_of(&script.concat()).count())
                .collect();
            let all = amounts.iter().sum::<usize>() as u64;
            assert!((calls..calls + 400).contains(&all), "{}", subject.name);
        }
    }
}
