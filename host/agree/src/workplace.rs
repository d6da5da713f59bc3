//! A folder of a test's own, in which it puts files and starts the tool as a person would.

use crate::board::Board;
use crate::programs::{built_folder, run, Program, Run};
use std::fs;
use std::path::{Path, PathBuf};

/// A folder that is there as long as this is.
pub struct Workplace {
    folder: PathBuf,
}

/// What the tool wrote, said and ended with, as texts.
#[derive(Debug, PartialEq, Eq)]
pub struct Outcome {
    pub wrote: String,
    pub said: String,
    pub status: Option<i32>,
}

impl Workplace {
    /// An empty folder. No two tests may use the same name.
    pub fn new(name: &str) -> Workplace {
        let folder = built_folder().join(format!("workplace-{name}"));
        if folder.exists() {
            fs::remove_dir_all(&folder).expect("what an earlier run left can be removed");
        }
        fs::create_dir(&folder).expect("a folder can be made beside the programs");
        Workplace { folder }
    }

    /// A folder with a board in it, board.rom.
    pub fn with_board(name: &str) -> Workplace {
        let place = Workplace::new(name);
        place.put("board.rom", Board::new().bytes());
        place
    }

    pub fn folder(&self) -> &Path {
        &self.folder
    }

    pub fn path(&self, name: &str) -> PathBuf {
        self.folder.join(name)
    }

    /// Writes a file.
    pub fn put(&self, name: &str, bytes: impl AsRef<[u8]>) {
        fs::write(self.path(name), bytes).expect("a file can be written");
    }

    /// The bytes of a file.
    pub fn get(&self, name: &str) -> Vec<u8> {
        fs::read(self.path(name)).unwrap_or_else(|error| panic!("{name} cannot be read: {error}"))
    }

    /// The names of all files, in order.
    pub fn names(&self) -> Vec<String> {
        let files = fs::read_dir(&self.folder).expect("the folder can be read");
        let mut names: Vec<String> = files
            .map(|file| file.expect("a file has a name").file_name())
            .map(|name| name.to_string_lossy().into_owned())
            .collect();
        names.sort();
        names
    }

    /// Starts the tool here, with nothing on standard input.
    pub fn tool(&self, words: &[&str]) -> Outcome {
        self.tool_given(words, b"")
    }

    /// Starts the tool here, with an input.
    pub fn tool_given(&self, words: &[&str], input: &[u8]) -> Outcome {
        let mut command = Program::tool_as_people_start_it().command(&self.folder);
        command.args(words);
        Outcome::of(run(command, input))
    }
}

impl Drop for Workplace {
    fn drop(&mut self) {
        // What cannot be removed is removed by the next run.
        drop(fs::remove_dir_all(&self.folder));
    }
}

impl Outcome {
    pub fn of(run: Run) -> Outcome {
        let text = |bytes| String::from_utf8(bytes).expect("what is written is text");
        Outcome {
            wrote: text(run.answers),
            said: text(run.said),
            status: run.status,
        }
    }

    /// It wrote this, said nothing, and ended with this status.
    pub fn expect(&self, status: i32, wrote: &str) {
        assert_eq!(self.wrote, wrote, "{self:?}");
        assert_eq!((self.status, self.said.as_str()), (Some(status), ""));
    }

    /// It wrote nothing, and said this after the tool's name in one line; it ended with this status.
    pub fn expect_message(&self, status: i32, said: &str) {
        assert_eq!(self.said, format!("kpalumere: {said}\n"), "{self:?}");
        assert_eq!((self.status, self.wrote.as_str()), (Some(status), ""));
    }
}
