//! The two programs, and how one is started, given a script and waited for.

use std::ffi::{OsStr, OsString};
use std::io::{Read, Write};
use std::path::{Path, PathBuf};
use std::process::{Child, Command, Stdio};
use std::sync::mpsc;
use std::thread;
use std::time::{Duration, Instant};

/// How long a program may take for one script. Emulated and on a busy machine the longest takes a few seconds.
const LONGEST: Duration = Duration::from_secs(300);

/// A program that answers the ask language.
pub struct Program {
    /// What reports call it.
    pub name: String,
    /// The words that start it.
    words: Vec<OsString>,
}

/// What a program did with a script.
#[derive(Clone, Debug, PartialEq, Eq)]
pub struct Run {
    /// All that it wrote on standard output.
    pub answers: Vec<u8>,
    /// All that it wrote on standard error.
    pub said: Vec<u8>,
    /// The status that it ended with; none where a signal ended it, or where it had to be stopped.
    pub status: Option<i32>,
}

impl Program {
    /// The tool over the proved library, as it answers calls: `kpalumere ask`.
    pub fn tool() -> Program {
        let mut words = built("kpalumere");
        words.push(OsString::from("ask"));
        Program::of_words("kpalumere", words)
    }

    /// The tool with any words, as people start it.
    pub fn tool_as_people_start_it() -> Program {
        Program::of_words("kpalumere", built("kpalumere"))
    }

    /// The second program.
    pub fn second() -> Program {
        Program::of_words("second", built("second"))
    }

    /// A program that takes the second one's place: a file for x86-64 that answers as the second program does.
    pub fn in_place_of_second(path: &Path) -> Program {
        let mut words = runner();
        words.push(path.as_os_str().to_os_string());
        Program::of_words("second", words)
    }

    /// Any program, by the words that start it.
    pub fn of_words(name: &str, words: Vec<OsString>) -> Program {
        let name = name.to_string();
        Program { name, words }
    }

    /// The command that starts the program in `folder`.
    pub fn command(&self, folder: &Path) -> Command {
        let mut command = Command::new(&self.words[0]);
        command.args(&self.words[1..]).current_dir(folder);
        command
    }

    /// Starts the program in `folder` and gives it the script on standard input.
    pub fn answers_to(&self, script: &[u8], folder: &Path) -> Run {
        run(self.command(folder), script)
    }

    /// Starts the program in `folder` and names it a file of calls.
    pub fn answers_to_file(&self, file: &OsStr, folder: &Path) -> Run {
        let mut command = self.command(folder);
        command.arg(file);
        run(command, b"")
    }
}

/// The folder that cargo built this program in, and so the other programs too.
pub fn built_folder() -> PathBuf {
    let own = std::env::current_exe().expect("the system tells a program where it lies");
    let folder = own.parent().expect("a program lies in a folder");
    if folder.ends_with("deps") {
        // Cargo puts a test one folder deeper than a program.
        return folder.join("..");
    }
    folder.to_path_buf()
}

/// The words that start a program of this workspace.
pub fn built(name: &str) -> Vec<OsString> {
    let path = built_folder().join(name);
    assert!(
        path.is_file(),
        "{} is not built; run ./test, or `cargo build` with the same options in host/ first",
        path.display()
    );
    let mut words = runner();
    words.push(path.into_os_string());
    words
}

/// The words that a program for x86-64 is started with on this machine: an emulator on another processor, else none.
/// The processor cannot be asked, since the emulator that this very program runs in answers x86-64.
fn runner() -> Vec<OsString> {
    [
        "KPALUMERE_RUNNER",
        "CARGO_TARGET_X86_64_UNKNOWN_LINUX_GNU_RUNNER",
    ]
    .iter()
    .find_map(|variable| std::env::var(variable).ok())
    .unwrap_or_default()
    .split_whitespace()
    .map(OsString::from)
    .collect()
}

/// Runs a command on an input to its end.
pub fn run(mut command: Command, input: &[u8]) -> Run {
    let mut child = command
        .stdin(Stdio::piped())
        .stdout(Stdio::piped())
        .stderr(Stdio::piped())
        .spawn()
        .unwrap_or_else(|error| panic!("{command:?} cannot be started: {error}"));
    let mut to_child = child.stdin.take().expect("standard input is a pipe");
    let input = input.to_vec();
    // A program that ends early closes its input: what it answered until then is what counts.
    let writing = thread::spawn(move || drop(to_child.write_all(&input)));
    let run = end_of(child, LONGEST);
    writing.join().expect("the writer ends with the child");
    run
}

/// Waits for the end of a child, and for what it wrote into pipes. One that goes on for too long is stopped, and its status
/// is then none.
pub fn end_of(mut child: Child, longest: Duration) -> Run {
    let deadline = Instant::now() + longest;
    let answers = child.stdout.take().map(read_all);
    let said = child.stderr.take().map(read_all);
    let answers = within(answers, deadline, &mut child);
    let said = within(said, deadline, &mut child);
    let status = loop {
        match child.try_wait().expect("a child can be waited for") {
            Some(status) => break status.code(),
            None if Instant::now() > deadline => drop(child.kill()),
            None => (),
        }
        thread::sleep(Duration::from_millis(1));
    };
    Run {
        answers,
        said,
        status,
    }
}

/// Reads a pipe to its end beside the others, so that none of them fills up.
fn read_all(mut pipe: impl Read + Send + 'static) -> mpsc::Receiver<Vec<u8>> {
    let (sender, receiver) = mpsc::channel();
    thread::spawn(move || {
        let mut bytes = Vec::new();
        // Where reading fails, what was read until then is what counts.
        drop(pipe.read_to_end(&mut bytes));
        drop(sender.send(bytes));
    });
    receiver
}

/// Waits for what a pipe gave, where there is one. A program that goes on for too long is stopped.
fn within(pipe: Option<mpsc::Receiver<Vec<u8>>>, deadline: Instant, child: &mut Child) -> Vec<u8> {
    let pipe = match pipe {
        Some(pipe) => pipe,
        None => return Vec::new(),
    };
    let left = deadline.saturating_duration_since(Instant::now());
    pipe.recv_timeout(left).unwrap_or_else(|_| {
        drop(child.kill());
        let rest = pipe.recv_timeout(Duration::from_secs(10));
        rest.unwrap_or_default()
    })
}
