//! The recorded cases: `NAME.ask`, a script, and `NAME.answers`, what both programs must answer, in `host/cases` and its folders.

use crate::compare::{answers_of, departure, status_after};
use crate::programs::{Program, Run};
use std::ffi::OsStr;
use std::fs;
use std::io;
use std::path::{Path, PathBuf};

/// A recorded case.
pub struct Case {
    /// Its name from the folder of cases on.
    pub name: String,
    /// The name of its script from there on.
    pub file: PathBuf,
    pub script: Vec<u8>,
    /// The answers, one a line; of a bad line only the words `bad line`.
    pub answers: Vec<u8>,
}

/// The folder of the recorded cases. The programs are started in it, so that `file` finds what lies beside a case.
pub fn folder() -> PathBuf {
    Path::new(env!("CARGO_MANIFEST_DIR")).join("../cases")
}

impl Case {
    /// Tells where a program's answers are not those recorded, or nothing where they are; the script is given over
    /// standard input.
    pub fn departure_of(&self, program: &Program) -> Option<String> {
        self.departure(
            "over standard input",
            &program.answers_to(&self.script, &folder()),
        )
    }

    /// The same, and the script is given as a file.
    pub fn departure_from_file(&self, program: &Program) -> Option<String> {
        let run = program.answers_to_file(self.file.as_os_str(), &folder());
        self.departure("from the file", &run)
    }

    fn departure(&self, how: &str, run: &Run) -> Option<String> {
        let expected = answers_of(&self.answers);
        departure(&self.script, &expected, status_after(&expected), run)
            .map(|told| format!("{}.ask, {how}: {told}", self.name))
    }
}

/// All recorded cases. A script without answers, or answers without a script, is an error.
pub fn all() -> io::Result<Vec<Case>> {
    let mut scripts = names_with("ask")?;
    let mut answers = names_with("answers")?;
    scripts.sort();
    answers.sort();
    if scripts != answers {
        let text = format!(
            "every case has NAME.ask and NAME.answers in host/cases; there are the scripts \
             {scripts:?} and the answers {answers:?}"
        );
        return Err(io::Error::new(io::ErrorKind::NotFound, text));
    }
    scripts.into_iter().map(read).collect()
}

fn read(name: String) -> io::Result<Case> {
    let file = PathBuf::from(format!("{name}.ask"));
    Ok(Case {
        script: fs::read(folder().join(&file))?,
        answers: fs::read(folder().join(format!("{name}.answers")))?,
        file,
        name,
    })
}

/// The names of the files with an ending, without it, each from the folder of cases on: `images/NAME` in a folder of it.
fn names_with(ending: &str) -> io::Result<Vec<String>> {
    let mut names = Vec::new();
    let mut folders = vec![PathBuf::new()];
    while let Some(inner) = folders.pop() {
        for entry in fs::read_dir(folder().join(&inner))? {
            let entry = entry?;
            let path = inner.join(entry.file_name());
            if entry.file_type()?.is_dir() {
                folders.push(path);
            } else if path.extension() == Some(OsStr::new(ending)) {
                names.push(path.with_extension("").to_string_lossy().into_owned());
            }
        }
    }
    Ok(names)
}
