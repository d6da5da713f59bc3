//! What the tool asks of the system: files, streams, the terminal, and the status that a run ends with.

pub mod ending;
pub mod files;
pub mod folding;
pub mod messages;
pub mod new_file;
pub mod new_folder;
pub mod opening;
pub mod output;
pub mod progress;
pub mod terminal;
