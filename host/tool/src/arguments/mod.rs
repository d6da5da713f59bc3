//! The words that people write: on the command line, and in the scripts that a command reads.

pub mod call;
pub mod command;
pub mod command_line;
pub mod completions;
pub mod lines;
pub mod mailbox_calls;
pub mod numbers;
pub mod quoted;
pub mod wanted_entry;
pub mod words;
pub mod wrong_words;
