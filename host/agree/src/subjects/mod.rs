//! The subjects of random scripts: one module each, with a generator.
//!
//! To add a subject, write its module with a `SUBJECT` and add it to [`SUBJECTS`].

mod aspt;
mod buffers;
mod build;
mod damage;
pub mod directory;
mod draft;
mod flash;
pub mod guids;
mod image;
mod lines;
mod mailbox;
mod view;
mod words;

use crate::random::Random;

/// A script: its lines, each with its line end.
pub type Script = Vec<Vec<u8>>;

/// A subject, and how a script of it is made.
pub struct Subject {
    pub name: &'static str,
    /// Makes a script of about so many calls: good ones and bad ones, on both sides of each limit.
    pub script: fn(&mut Random, u64) -> Script,
}

pub static SUBJECTS: &[Subject] = &[
    lines::SUBJECT,
    buffers::SUBJECT,
    flash::SUBJECT,
    view::SUBJECT,
    build::SUBJECT,
    aspt::SUBJECT,
    guids::SUBJECT,
    mailbox::SUBJECT,
];

#[cfg(test)]
mod tests {
    use super::*;

    #[test]
    fn a_script_follows_from_its_seed_alone() {
        for subject in SUBJECTS {
            let script = |seed| (subject.script)(&mut Random::from_seed(seed), 200);
            assert_eq!(script(3), script(3), "{}", subject.name);
            assert_ne!(script(3), script(4), "{}", subject.name);
            assert!(script(3).len() >= 200, "{}", subject.name);
        }
    }
}
