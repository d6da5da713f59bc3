//! Random calls reach what there is to be reached: every answer of every call, refusals at every place, and mailboxes that are full.

use agree::answers::Tally;
use agree::cases;
use agree::compare::{answers_of, calls_of};
use agree::programs::Program;
use agree::random::Random;
use agree::search::Search;
use agree::subjects::SUBJECTS;
use std::collections::BTreeSet;

/// The numbers follow from this seed, so that what is reached once is always reached.
const SEED: u64 = 21;

#[test]
fn a_hundred_thousand_calls_reach_every_answer_of_every_call() {
    let mut tally = Tally::default();
    for subject in SUBJECTS {
        let search = Search {
            subject,
            seed: SEED,
            calls: 100_000 / SUBJECTS.len() as u64,
        };
        let seen = search.run(&Program::tool(), &Program::second(), |_| {});
        let told = |difference| panic!("{}: {difference:?}", subject.name);
        tally.add(&seen.unwrap_or_else(told).tally);
    }
    assert_eq!(tally.missed(3), NOT_REACHED, "of\n{tally}");
    assert_eq!(tally.misplaced(), [""; 0], "of\n{tally}");
}

/// What random calls come to fewer than three times, and why that is no gap: nothing.
const NOT_REACHED: [&str; 0] = [];

/// The number behind a word such as `level=` in an answer.
fn number_behind(answer: &str, name: &str) -> Option<u64> {
    let mut words = answer.split(' ');
    words.find_map(|word| word.strip_prefix(name)?.parse().ok())
}

#[test]
fn refusals_are_met_in_first_entries_and_in_late_ones_of_both_levels() {
    for subject in SUBJECTS {
        if !["flash", "view", "build"].contains(&subject.name) {
            continue;
        }
        // The indices that refusals carry, by level.
        let mut indices = [BTreeSet::new(), BTreeSet::new()];
        for seed in 0..8 {
            let script = (subject.script)(&mut Random::from_seed(seed), 4000).concat();
            let run = Program::tool().answers_to(&script, &cases::folder());
            for answer in answers_of(&run.answers) {
                let answer = String::from_utf8_lossy(&answer);
                if !answer.starts_with("refused ") {
                    continue;
                }
                if let Some(index) = number_behind(&answer, "index=") {
                    let level = number_behind(&answer, "level=").expect("an index has a level");
                    indices[level as usize - 1].insert(index);
                }
            }
        }
        for (level, indices) in (1..).zip(indices) {
            let told = format!("{}, level {level}: {indices:?}", subject.name);
            assert!((0..3).all(|index| indices.contains(&index)), "{told}");
            assert!(indices.iter().any(|index| *index > 255), "{told}");
        }
    }
}

/// How many items a field of the firmware's state has.
fn items(state: &str, field: &str) -> usize {
    let start = state.find(field).expect("the state has the field") + field.len();
    let list = state[start..].split(' ').next().unwrap_or_default();
    match list {
        "-" => 0,
        list => list.split(',').count(),
    }
}

#[test]
fn mailboxes_are_full_and_every_id_is_used() {
    let subject = SUBJECTS.iter().find(|subject| subject.name == "mailbox");
    let subject = subject.expect("the mailbox is a subject");
    let (mut most_posts, mut most_saved, mut most_delivered) = (0, 0, 0);
    for seed in 0..4 {
        let script = (subject.script)(&mut Random::from_seed(seed), 4000).concat();
        let run = Program::tool().answers_to(&script, &cases::folder());
        // Posts that were accepted and not taken, since the mailbox was set up.
        let mut posts = 0;
        for ((_, line), answer) in calls_of(&script).zip(answers_of(&run.answers)) {
            let (line, answer) = (
                String::from_utf8_lossy(line),
                String::from_utf8_lossy(&answer),
            );
            match line.split(' ').next() {
                Some("mailbox" | "mailbox-of") if answer == "ok" => posts = 0,
                Some("post") if answer == "ok" => posts += 1,
                Some("take") if answer.starts_with("ok") => posts -= 1,
                Some("firmware") if answer.starts_with("ok") => {
                    most_saved = most_saved.max(items(&answer, "saved="));
                    most_delivered = most_delivered.max(items(&answer, "delivery="));
                }
                _ => {}
            }
            most_posts = most_posts.max(posts);
        }
    }
    assert_eq!((most_posts, most_saved), (8, 64));
    assert!(most_delivered > 48, "{most_delivered}");
}
