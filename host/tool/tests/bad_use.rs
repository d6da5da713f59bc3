//! Bad use of the tool: files that are none, streams that are closed or full, scripts that are cut off or are noise. Whatever
//! it is given, a command ends by itself, with a status of its own and a message that says what is wrong.

use agree::board::Board;
use agree::cases;
use agree::compare::answers_of;
use agree::programs::{built, end_of, run, Program, Run};
use agree::random::Random;
use std::ffi::{OsStr, OsString};
use std::fs::{self, File, OpenOptions, Permissions};
use std::os::unix::fs::{MetadataExt, PermissionsExt};
use std::os::unix::net::UnixListener;
use std::os::unix::process::CommandExt;
use std::path::{Path, PathBuf};
use std::process::{Command, Stdio};
use std::time::Duration;

/// A command that reads a file. One that is added to the tool gets a line in [`READERS`], or in [`PRINTERS`] where it reads none.
struct Reader {
    /// The command, with FILE where the file is named.
    words: &'static [&'static str],
    /// The same, where the bytes come over standard input.
    over_input: &'static [&'static str],
    /// Names a file for which the command prints something. One of the folder of cases is named from there on; one that has
    /// to be made is put into the folder given.
    good: fn(&Path) -> PathBuf,
    /// The status that it then ends with.
    status: i32,
    /// The status for a file with no bytes, with 64 MiB of zeros, and with one byte more.
    empty: i32,
    largest: i32,
    larger: i32,
}

/// Stands for the file's name in a command.
const FILE: &str = "FILE";

/// The file that a command writes, over and over.
const WRITTEN: &str = concat!(env!("CARGO_TARGET_TMPDIR"), "/written-in-bad-use");

/// The folder that a command fills, over and over.
const FILLED: &str = concat!(env!("CARGO_TARGET_TMPDIR"), "/filled-in-bad-use");

/// A command on the bytes of an image or a table: no bytes are refused, as zeros are, and more than 64 MiB are not read.
const fn on_bytes(
    words: &'static [&'static str],
    over_input: &'static [&'static str],
    good: fn(&Path) -> PathBuf,
) -> Reader {
    Reader {
        words,
        over_input,
        good,
        status: 0,
        empty: 5,
        largest: 5,
        larger: 3,
    }
}

/// A board, put into a folder.
fn board(folder: &Path) -> PathBuf {
    put(folder, "board.rom", &Board::new().bytes())
}

/// An image with a GUID table of no entries, put into a folder.
fn guid_table(folder: &Path) -> PathBuf {
    let mut image = vec![18, 0];
    image.extend(b"\xde\x82\xb5\x96\xb2\x1f\xf7\x45\xba\xea\xa3\x66\xc5\x5a\x08\x2d");
    image.extend([0; 32]);
    put(folder, "guids.fd", &image)
}

/// The description of a directory, put into a folder.
fn description(folder: &Path) -> PathBuf {
    put(
        folder,
        "level-1.txt",
        b"level 1\nboot-loader 0 16 0x1000 image\n",
    )
}

fn put(folder: &Path, name: &str, bytes: &[u8]) -> PathBuf {
    let path = folder.join(name);
    fs::write(&path, bytes).expect("a file can be written");
    path
}

const READERS: [Reader; 10] = [
    // A script is answered line by line, so that it may be of any length: the zeros are one bad line.
    Reader {
        words: &["ask", FILE],
        over_input: &["ask"],
        good: |_| PathBuf::from("images/plain-board.ask"),
        status: 0,
        empty: 0,
        largest: 1,
        larger: 1,
    },
    Reader {
        words: &["mailbox", FILE],
        over_input: &["mailbox", "-"],
        good: |_| PathBuf::from("images/machine-6-two-programs.ask"),
        status: 5,
        empty: 0,
        largest: 1,
        larger: 3,
    },
    // Recorded answers are gone through line by line, as a script is.
    Reader {
        words: &["check", FILE],
        over_input: &["check", "-"],
        good: |folder| put(folder, "seen.check", b"load => no\nturn => no\n"),
        status: 0,
        empty: 0,
        largest: 1,
        larger: 1,
    },
    on_bytes(&["register", FILE], &["register", "-"], board),
    on_bytes(
        &["find", FILE, "boot-loader", "0"],
        &["find", "-", "1", "0", "--json"],
        board,
    ),
    on_bytes(&["entry", FILE, "1", "0"], &["entry", "-", "1", "0"], board),
    on_bytes(
        &["extract", FILE, "1", "0", WRITTEN, "--force"],
        &["extract", "-", "1", "0", WRITTEN, "--force"],
        board,
    ),
    // A description is read line by line: no bytes describe nothing, and zeros are no line of one.
    Reader {
        empty: 1,
        largest: 1,
        ..on_bytes(
            &["build", FILE, WRITTEN, "--force"],
            &["build", "-", WRITTEN, "--force"],
            description,
        )
    },
    on_bytes(&["guids", FILE], &["guids", "-"], guid_table),
    Reader {
        // A script is no table, which is shown as a refusal.
        good: |_| PathBuf::from("lines.ask"),
        status: 5,
        ..on_bytes(&["aspt", FILE], &["aspt", "-", "--json"], board)
    },
];

/// Commands that read nothing and print something.
const PRINTERS: [&[&str]; 9] = [
    &["--help"],
    &["--version"],
    &["-V"],
    &["completions", "bash"],
    &["help", "ask"],
    &["ask", "--help"],
    &["mailbox", "--help"],
    &["explain", "8"],
    &["samples", FILLED, "--force"],
];

/// How long a command may take. Emulated and on a busy machine the longest takes a few seconds.
const LONGEST: Duration = Duration::from_secs(120);

/// A folder for one test, gone at its end.
struct Folder(PathBuf);

impl Folder {
    fn new(name: &str) -> Folder {
        let name = format!("kpalumere-bad-use-{}-{name}", std::process::id());
        let path = std::env::temp_dir().join(name);
        fs::create_dir_all(&path).expect("a folder can be made");
        Folder(path)
    }

    /// A file of so many zero bytes, which take no room on the disk.
    fn zeros(&self, name: &str, length: u64) -> PathBuf {
        let path = self.0.join(name);
        let file = File::create(&path).expect("a file can be made");
        file.set_len(length).expect("a file can have a hole");
        path
    }

    /// A named pipe that nobody writes to.
    fn pipe(&self) -> PathBuf {
        let path = self.0.join("pipe");
        let made = Command::new("mkfifo").arg(&path).status();
        assert!(made.expect("mkfifo is there").success());
        path
    }
}

impl Drop for Folder {
    fn drop(&mut self) {
        drop(fs::remove_dir_all(&self.0));
    }
}

impl Reader {
    fn name(&self) -> &str {
        self.words[0]
    }

    /// Its words on a file.
    fn words_on(&self, file: &OsStr) -> Vec<OsString> {
        let named = |word: &&str| match *word {
            FILE => file.to_os_string(),
            word => OsString::from(word),
        };
        self.words.iter().map(named).collect()
    }

    fn on(&self, file: &OsStr) -> Command {
        tool(self.words_on(file))
    }

    fn over_input(&self) -> Command {
        tool(texts(self.over_input))
    }

    /// Runs the command on bytes that come over standard input.
    fn run_on(&self, input: &[u8]) -> Run {
        let run = run(self.over_input(), input);
        held(&self.over_input(), &run);
        run
    }
}

fn texts(words: &[&str]) -> Vec<OsString> {
    words.iter().map(OsString::from).collect()
}

/// The tool with some words, to be started in the folder of cases.
fn tool(words: Vec<OsString>) -> Command {
    started(built("kpalumere"), words, &cases::folder())
}

/// A program with some words, to be started in a folder: nothing on standard input, and what it writes goes into pipes.
fn started(program: Vec<OsString>, words: Vec<OsString>, folder: &Path) -> Command {
    let program = Program::of_words("kpalumere", [program, words].concat());
    let mut command = program.command(folder);
    command
        .stdin(Stdio::null())
        .stdout(Stdio::piped())
        .stderr(Stdio::piped());
    command
}

/// Every command that there is, doing something that prints, with the status that it ends with.
fn all_that_print(folder: &Folder) -> Vec<(Command, i32)> {
    let readers = READERS.iter().map(|reader| {
        let file = (reader.good)(&folder.0);
        (reader.on(file.as_os_str()), reader.status)
    });
    let printers = PRINTERS.iter().map(|words| (tool(texts(words)), 0));
    readers.chain(printers).collect()
}

/// Runs a command to its end. It must end by itself, with a status that the tool has, and without a panic; all that it
/// says on standard error is in its own words.
fn ended(command: &mut Command) -> Run {
    let child = command
        .spawn()
        .unwrap_or_else(|error| panic!("{command:?} cannot be started: {error}"));
    let run = end_of(child, LONGEST);
    held(command, &run);
    run
}

fn held(command: &Command, run: &Run) {
    let said = String::from_utf8_lossy(&run.said);
    assert!(
        matches!(run.status, Some(0..=3 | 5)),
        "{command:?} ends with {:?}, where none is that a signal ended it or it hung: {said}",
        run.status
    );
    let own = said.lines().all(|line| line.starts_with("kpalumere: "));
    assert!(own, "{command:?} says {said}");
}

/// Runs a command that cannot do its work: the status is 3, nothing is answered but, by `register`, that the image was not read,
/// and the message has these words.
fn fails(command: &mut Command, words: &[&str]) {
    let run = ended(command);
    let said = String::from_utf8_lossy(&run.said);
    let answered = String::from_utf8_lossy(&run.answers);
    assert_eq!(run.status, Some(3), "{command:?}: {said}");
    let of_register = command.get_args().any(|word| word == "register");
    match of_register && !answered.is_empty() {
        true => assert!(
            answered.ends_with(": not read\n"),
            "{command:?}: {answered}"
        ),
        false => assert_eq!(answered, "", "{command:?}: {said}"),
    }
    for word in words {
        assert!(said.contains(word), "{command:?} says no {word:?}: {said}");
    }
}

/// The command with its streams changed by the shell, as in `<&-`.
fn redirected(command: &Command, change: &str) -> Command {
    let shell = texts(&["sh", "-c", &format!("exec \"$@\" {change}"), "sh"]);
    let program = [command.get_program()].into_iter();
    let words = program.chain(command.get_args()).map(OsStr::to_os_string);
    started(shell, words.collect(), &cases::folder())
}

fn full() -> File {
    let full = OpenOptions::new().write(true).open("/dev/full");
    full.expect("the system has /dev/full")
}

/// A pipe to write to that nobody reads any more.
fn unread_pipe() -> Stdio {
    let mut reader = Command::new("true");
    let mut reader = reader.stdin(Stdio::piped()).spawn().expect("true is there");
    let pipe = reader.stdin.take().expect("standard input is a pipe");
    reader.wait().expect("a child can be waited for");
    Stdio::from(pipe)
}

/// Runs a command that is started wrongly: the status is 2, nothing is answered, and the message has these words.
fn is_told(command: &mut Command, words: &str) {
    let run = ended(command);
    let said = String::from_utf8_lossy(&run.said);
    let answered = String::from_utf8_lossy(&run.answers);
    assert_eq!(
        (run.status, &*answered),
        (Some(2), ""),
        "{command:?}: {said}"
    );
    assert_eq!(said, format!("kpalumere: {words}\n"), "{command:?}");
}

/// The commands of the tool, by its own help.
fn commands() -> Vec<String> {
    let help = ended(&mut tool(texts(&["--help"])));
    let help = String::from_utf8(help.answers).expect("help is text");
    let list = help.split("\nCommands:\n").nth(1).expect("help has a list");
    let list = list.lines().take_while(|line| !line.is_empty());
    list.filter_map(|line| line.split_whitespace().next())
        .map(String::from)
        .collect()
}

#[test]
fn every_command_stands_in_the_tables_of_bad_use() {
    let readers = READERS.iter().map(Reader::name);
    let all: Vec<&str> = readers
        .chain(PRINTERS.iter().map(|words| words[0]))
        .collect();
    for name in commands() {
        assert!(
            all.contains(&name.as_str()),
            "{name} stands in neither table"
        );
    }
}

#[test]
fn after_two_hyphens_a_file_may_begin_with_one() {
    let folder = Folder::new("hyphens");
    for reader in &READERS {
        let file = (reader.good)(&folder.0);
        let bytes = fs::read(cases::folder().join(file)).expect("the file can be read");
        put(&folder.0, "-x", &bytes);
        let (options, others): (Vec<&str>, Vec<&str>) = reader.words[1..]
            .iter()
            .partition(|word| word.starts_with("--"));
        let others = others
            .into_iter()
            .map(|word| if word == FILE { "-x" } else { word });
        let words = [vec![reader.name()], options, vec!["--"], others.collect()].concat();
        let mut command = started(built("kpalumere"), texts(&words), &folder.0);
        assert_eq!(
            ended(&mut command).status,
            Some(reader.status),
            "{command:?}"
        );
        // Without them it is taken for an option.
        let name = reader.name();
        is_told(
            &mut reader.on(OsStr::new("-x")),
            &format!(
                "{name} has no option '-x'; a word that begins with a hyphen is given after `--`. \
                 `kpalumere {name} --help` has its words."
            ),
        );
    }
}

#[test]
fn words_that_a_command_does_not_take() {
    for reader in &READERS {
        let name = reader.name();
        let ends = format!("`kpalumere {name} --help` has its words.");
        let with = |more: &str| {
            let words = [reader.over_input, &[more]].concat();
            tool(texts(&words))
        };
        is_told(
            &mut with("--elephant"),
            &format!(
                "{name} has no option '--elephant'; a word that begins with a hyphen is given \
                 after `--`. {ends}"
            ),
        );
        is_told(
            &mut with("--hepl"),
            &format!("{name} has no option '--hepl'; did you mean '--help'? {ends}"),
        );
        // The register takes any number of images.
        if name != "register" && reader.over_input.len() > 1 {
            is_told(
                &mut with("more"),
                &format!("{name} does not take the word 'more'. {ends}"),
            );
        }
    }
}

#[test]
fn words_that_a_command_lacks() {
    for (words, lacks) in [
        (&["find"][..], "IMAGE, TYPE and SUB"),
        (&["find", "a", "1"], "SUB"),
        (&["entry", "a", "1"], "INDEX"),
        (&["extract", "a", "1", "0"], "FILE"),
        (&["extract", "--force"], "IMAGE"),
        (&["extract", "a", "--force"], "LEVEL, INDEX and FILE"),
        (&["extract", "a", "--at", "0"], "INDEX and FILE"),
        (&["build", "a"], "FILE"),
        (&["aspt"], "FILE"),
        (&["guids", "--json"], "FILE"),
        (&["check"], "FILE"),
        (&["samples", "--force"], "FOLDER"),
        (&["completions"], "SHELL"),
    ] {
        let name = words[0];
        is_told(
            &mut tool(texts(words)),
            &format!("{name} lacks {lacks}. `kpalumere {name} --help` has its words."),
        );
    }
}

#[test]
fn words_that_are_not_what_they_should_be() {
    let number = "which is no number; write decimal digits, or 0x and hexadecimal digits";
    for (words, wrong) in [
        (
            &["find", "a", "1", "256"][..],
            String::from(
                "cannot use its words: SUB is '256', which is too large; write at most 255",
            ),
        ),
        (
            &["find", "a", "1", "0", "--level", "two"],
            format!("cannot use its words: --level is 'two', {number}"),
        ),
        (
            &["entry", "a", "one", "0"],
            format!("cannot use its words: LEVEL is 'one', {number}"),
        ),
        (
            &["extract", "a", "1", "last", "b"],
            format!("cannot use its words: INDEX is 'last', {number}"),
        ),
        (
            &["explain", "19"],
            String::from(
                "cannot use its words: there is no refusal 19; the numbers are 1 to 18, and \
                 `kpalumere explain` lists them all",
            ),
        ),
        (
            &["samples", "-"],
            String::from(
                "cannot use its words: FOLDER is '-', which is no folder; name one, as in ./parts",
            ),
        ),
        (
            &["build", "a", "b", "--force=yes"],
            String::from("lets nothing follow --force"),
        ),
        (
            &["extract", "a", "1", "0", "b", "--force", "--force"],
            String::from("takes --force once"),
        ),
        (
            &["register", "--json", "--csv"],
            String::from("takes --json or --csv, and not both"),
        ),
    ] {
        let name = words[0];
        is_told(
            &mut tool(texts(words)),
            &format!("{name} {wrong}. `kpalumere {name} --help` has its words."),
        );
    }
    is_told(
        &mut tool(texts(&["completions", "bsh"])),
        "completions takes bash, elvish, fish, powershell or zsh for SHELL, and not 'bsh'; \
         did you mean 'bash'? `kpalumere completions --help` has its words.",
    );
}

#[test]
fn a_near_miss_of_a_command_is_answered_with_the_command() {
    for name in commands() {
        // The last letter is typed twice.
        let missed = format!("{name}{}", &name[name.len() - 1..]);
        let mut command = tool(texts(&[&missed]));
        let run = ended(&mut command);
        let said = String::from_utf8_lossy(&run.said);
        assert_eq!(run.status, Some(2), "{missed}: {said}");
        let meant = format!("there is no command '{missed}'; did you mean '{name}'? ");
        assert!(said.contains(&meant), "{missed}: {said}");
    }
}

#[test]
fn a_command_that_hangs_is_found_out() {
    for output in [Stdio::piped(), Stdio::null()] {
        let mut sleeper = Command::new("sleep");
        let child = sleeper.arg("1000").stdout(output).spawn();
        let run = end_of(child.expect("sleep is there"), Duration::from_millis(50));
        assert_eq!(run.status, None);
    }
}

#[test]
fn files_that_cannot_be_read() {
    let folder = Folder::new("unreadable");
    let socket = folder.0.join("socket");
    let _listener = UnixListener::bind(&socket).expect("a socket can be made");
    let pipe = folder.pipe();
    for reader in &READERS {
        for file in [
            Path::new("there-is-none"),
            Path::new(""),
            Path::new("data"),
            Path::new("/"),
            Path::new("lines.ask/none"),
            // A file that is there, and whose first byte nobody can read.
            Path::new("/proc/self/mem"),
            &socket,
            &pipe,
        ] {
            // Of a folder the register takes the files below it, which its own tests have.
            if reader.words[0] == "register" && cases::folder().join(file).is_dir() {
                continue;
            }
            let name = format!("{file:?}");
            fails(
                &mut reader.on(file.as_os_str()),
                &[&name, "cannot be read", "Name a "],
            );
        }
    }
}

#[test]
fn a_file_that_its_mode_forbids_to_read() {
    let folder = Folder::new("mode");
    let file = folder.zeros("secret", 1);
    fs::set_permissions(&file, Permissions::from_mode(0o000)).unwrap();
    let is_root = fs::metadata("/proc/self").map_or(false, |own| own.uid() == 0);
    // To root no mode forbids anything. Another user may have no way to where the tool was built, so it gets a copy.
    let copy = folder.0.join("kpalumere");
    let mut program = built("kpalumere");
    fs::copy(program.last().unwrap(), &copy).expect("the tool can be copied");
    *program.last_mut().unwrap() = copy.into_os_string();
    for reader in &READERS {
        let words = reader.words_on(file.as_os_str());
        let mut command = started(program.clone(), words, &folder.0);
        if is_root {
            // Nobody, as every system has it.
            command.uid(65_534).gid(65_534);
        }
        match command.spawn() {
            Ok(child) => {
                let run = end_of(child, LONGEST);
                held(&command, &run);
                assert_eq!(run.status, Some(3), "{command:?}");
                let said = String::from_utf8_lossy(&run.said);
                assert!(said.contains("Permission denied"), "{said}");
            }
            Err(error) => eprintln!("skipped: {} as nobody: {error}", reader.name()),
        }
    }
}

#[test]
fn files_of_no_bytes_of_64_mib_and_of_one_byte_more() {
    const MOST: u64 = 67_108_864;
    let folder = Folder::new("lengths");
    let files = [0, MOST, MOST + 1].map(|length| folder.zeros(&length.to_string(), length));
    for reader in &READERS {
        let due = [reader.empty, reader.largest, reader.larger];
        for (file, status) in files.iter().zip(due) {
            let mut command = reader.on(file.as_os_str());
            assert_eq!(ended(&mut command).status, Some(status), "{command:?}");
            let mut command = reader.over_input();
            command.stdin(File::open(file).unwrap());
            assert_eq!(ended(&mut command).status, Some(status), "{command:?}");
        }
    }
}

#[test]
fn input_without_end_is_not_read_for_ever() {
    for reader in &READERS {
        let mut command = reader.on(OsStr::new("/dev/zero"));
        fails(&mut command, &["\"/dev/zero\"", "has more than"]);
        let mut command = reader.over_input();
        command.stdin(File::open("/dev/zero").unwrap());
        fails(&mut command, &["standard input", "has more than"]);
    }
}

#[test]
fn input_that_is_a_folder_or_is_closed() {
    for reader in &READERS {
        let mut command = reader.over_input();
        command.stdin(File::open("/").unwrap());
        fails(&mut command, &["standard input cannot be read"]);
        // What is closed is as if it were empty.
        let mut command = redirected(&reader.over_input(), "<&-");
        assert_eq!(
            ended(&mut command).status,
            Some(reader.empty),
            "{command:?}"
        );
    }
}

#[test]
fn output_that_is_full() {
    let folder = Folder::new("full");
    for (mut command, _) in all_that_print(&folder) {
        fails(command.stdout(full()), &["cannot be written", "room"]);
    }
}

#[test]
fn output_that_nobody_reads_is_no_fault() {
    let folder = Folder::new("unread");
    for (mut command, status) in all_that_print(&folder) {
        let run = ended(command.stdout(unread_pipe()));
        // What was to be said is not known to be wrong: either all is well, or the status is that of the answers.
        assert!([Some(0), Some(status)].contains(&run.status), "{command:?}");
        assert_eq!(String::from_utf8_lossy(&run.said), "", "{command:?}");
    }
}

#[test]
fn output_that_is_closed() {
    let folder = Folder::new("closed");
    for (command, status) in all_that_print(&folder) {
        let run = ended(&mut redirected(&command, ">&-"));
        assert_eq!(run.status, Some(status), "{command:?}");
        let run = ended(&mut redirected(&command, "<&- >&- 2>&-"));
        assert_eq!(run.status, Some(status), "{command:?}");
    }
}

#[test]
fn messages_that_cannot_be_written() {
    for reader in &READERS {
        for change in ["2>&-", "2>/dev/full"] {
            let missing = reader.on(OsStr::new("there-is-none"));
            let run = ended(&mut redirected(&missing, change));
            assert_eq!(run.status, Some(3), "{missing:?} {change}");
        }
        let mut missing = reader.on(OsStr::new("there-is-none"));
        let run = ended(missing.stderr(unread_pipe()));
        assert_eq!(run.status, Some(3), "{missing:?}");
    }
    // A recording with lines that are left out: each has a message, before what is shown.
    let mut recording = tool(texts(&["mailbox", "lines.ask"]));
    let all_is_well = ended(&mut recording);
    let shown = (all_is_well.status, &all_is_well.answers);
    assert_eq!(shown.0, Some(1));
    for unwritten in [Stdio::from(full()), unread_pipe()] {
        let run = ended(recording.stderr(unwritten));
        assert_eq!((run.status, &run.answers), shown);
    }
}

#[test]
fn scripts_that_are_cut_off() {
    let folder = Folder::new("cut");
    for reader in &READERS {
        let file = (reader.good)(&folder.0);
        let whole = fs::read(cases::folder().join(file)).expect("the file can be read");
        for part in 1..24 {
            let cut = &whole[..whole.len() * part / 24];
            let status = reader.run_on(cut).status;
            assert!(
                matches!(status, Some(0 | 1 | 5)),
                "{part}/24 for {}",
                reader.name()
            );
        }
    }
    // What stands before the cut is answered as in the whole script; the line that is cut has an answer or none.
    let case = cases::all().unwrap().into_iter();
    let case = case.filter(|case| case.name == "images/plain-board").last();
    let case = case.expect("there is a plain board");
    let answers = answers_of(&case.answers);
    for cut in (0..case.script.len()).step_by(97) {
        let part = &case.script[..cut];
        let run = Program::tool().answers_to(part, &cases::folder());
        let found = answers_of(&run.answers);
        let lines = part.iter().rposition(|&byte| byte == b'\n');
        let lines = &part[..lines.map_or(0, |end| end + 1)];
        let whole = Program::tool().answers_to(lines, &cases::folder());
        let whole = answers_of(&whole.answers);
        assert_eq!(whole, answers[..whole.len()], "cut at {cut}");
        assert!(found.starts_with(&whole), "cut at {cut}");
        assert!(found.len() <= whole.len() + 1, "cut at {cut}");
    }
}

#[test]
fn noise_as_a_script() {
    for seed in 1..=4 {
        let mut random = Random::from_seed(seed);
        let noise = random.bytes(64 << 10);
        // Noise of the letters that scripts are written in, so that words and calls come about.
        let alphabet: Vec<&[u8]> = b" \n#-0x19afz"
            .chunks(1)
            .chain([
                &b"show"[..],
                b"buffer",
                b"post",
                b"take",
                b"load",
                b"mailbox",
            ])
            .collect();
        let letters: Vec<u8> = (0..4096)
            .flat_map(|_| random.pick(&alphabet).to_vec())
            .collect();
        for script in [&noise, &letters] {
            for reader in &READERS {
                let run = reader.run_on(script);
                // Lines that are no calls or entries are a plain no; what is no image or table is refused.
                let status = match reader.name() {
                    "ask" | "mailbox" | "check" | "build" => 1,
                    _ => 5,
                };
                let told = format!("{} with seed {seed}", reader.name());
                assert_eq!(run.status, Some(status), "{told}");
            }
        }
        let run = Program::tool().answers_to(&noise, &cases::folder());
        let answers = answers_of(&run.answers);
        let bad = answers.iter().all(|answer| answer == b"bad line");
        assert!(bad && answers.len() > 100, "seed {seed}");
    }
}

#[test]
fn a_script_that_names_what_is_no_file() {
    let folder = Folder::new("named");
    folder.pipe();
    let _listener = UnixListener::bind(folder.0.join("socket")).expect("a socket can be made");
    for (path, answer) in [
        ("pipe", "bad line"),
        ("socket", "bad line"),
        (".", "bad line"),
        ("/", "bad line"),
        ("there-is-none", "bad line"),
        ("/proc/self/mem", "bad line"),
        ("/dev/zero", "bad line"),
        ("/dev/full", "bad line"),
        ("/dev/null", "ok length=0"),
    ] {
        let script = format!("buffer a 2 7\nfile b {path}\nshow a 0 2\n");
        for program in [Program::tool(), Program::second()] {
            let mut command = program.command(&folder.0);
            command.stdout(Stdio::piped()).stderr(Stdio::piped());
            let input = folder.0.join("script");
            fs::write(&input, &script).unwrap();
            command.stdin(File::open(&input).unwrap());
            let run = ended(&mut command);
            let expected = format!("ok length=2\n{answer}\nbytes 0707\n");
            let answers = answers_of(&run.answers);
            assert_eq!(
                answers,
                answers_of(expected.as_bytes()),
                "{}: {path}",
                program.name
            );
        }
    }
}
