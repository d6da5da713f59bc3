//! The tool that people run: starts the command that the command line names.
//!
//! Of the modules below each may import those that stand after it in this list, and none before it; tests/imports.rs holds them
//! to it.
//! - `commands`: a module for each command, and the table of them, which this file alone sees
//! - `language`: the ask language: every call, its answer, and recordings of calls
//! - `samples`: the boards and recordings that come with the tool
//! - `shown`: answers as people and programs see them
//! - `arguments`: the words of the command line and of scripts
//! - `system`: files, streams, the terminal and the status

mod arguments;
mod commands;
mod language;
mod samples;
mod shown;
mod system;

use arguments::command_line;
use commands::COMMANDS;
use std::process::ExitCode;
use system::ending::Ending;
use system::messages::say;

fn main() -> ExitCode {
    let ending = match command_line::read(COMMANDS, std::env::args_os().skip(1)) {
        Ok(job) => job(),
        Err(wrong) => {
            say(&wrong);
            Ending::WrongWords
        }
    };
    ExitCode::from(ending.status())
}
