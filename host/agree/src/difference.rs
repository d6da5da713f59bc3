//! A difference between two programs, and the script that shows it, in a form that can be kept as a case.

use crate::compare::{calls_of, shown};
use crate::subjects::Script;
use std::fs;
use std::io;
use std::path::{Path, PathBuf};

/// The longest line that is printed whole.
const LONGEST_LINE: usize = 1000;

/// Two programs that part on a script.
#[derive(Debug, PartialEq, Eq)]
pub struct Difference {
    /// The first place where they part, in words.
    pub told: String,
    pub script: Script,
    /// What the programs are called, and what they answered.
    pub names: [String; 2],
    pub answers: [Vec<Vec<u8>>; 2],
}

impl Difference {
    /// Writes the script as `NAME.ask` and what each program answered as `NAME.PROGRAM.answers`, as cases have them.
    /// Gives the files.
    pub fn save(&self, folder: &Path, name: &str) -> io::Result<Vec<PathBuf>> {
        let script = folder.join(format!("{name}.ask"));
        fs::write(&script, self.script.concat())?;
        let mut files = vec![script];
        for (program, answers) in self.names.iter().zip(&self.answers) {
            let file = folder.join(format!("{name}.{program}.answers"));
            let lines = answers.iter().map(|answer| [&answer[..], b"\n"].concat());
            fs::write(&file, lines.collect::<Vec<_>>().concat())?;
            files.push(file);
        }
        Ok(files)
    }

    /// The script as text, with the answers in comments. It is a script again, unless a line is too long or too strange
    /// to be printed.
    pub fn text(&self) -> String {
        let script = self.script.concat();
        let mut places = calls_of(&script).map(|(line, _)| line).enumerate();
        let mut call = places.next();
        let mut text = String::new();
        for (at, line) in script.split_inclusive(|&byte| byte == b'\n').enumerate() {
            let line = line.strip_suffix(b"\n").unwrap_or(line);
            let printable = line.iter().all(|&byte| matches!(byte, b' '..=b'~'));
            match printable && line.len() <= LONGEST_LINE {
                true => text.extend(line.iter().map(|&byte| char::from(byte))),
                false => text.push_str(&shown(line)),
            }
            if let Some((place, _)) = call.filter(|(_, asked)| *asked == at + 1) {
                text.push_str(&format!(" # {}", self.answers_at(place)));
                call = places.next();
            }
            text.push('\n');
        }
        text
    }

    /// The answer at a place, or both of them with the programs' names where they differ.
    fn answers_at(&self, place: usize) -> String {
        let answer = |answers: &[Vec<u8>]| match answers.get(place) {
            Some(answer) => shown(answer).trim_matches('\'').to_string(),
            None => "no answer".to_string(),
        };
        let [first, second] = [0, 1].map(|program| answer(&self.answers[program]));
        match first == second {
            true => first,
            false => format!("{}: {first}; {}: {second}", self.names[0], self.names[1]),
        }
    }
}

#[cfg(test)]
mod tests {
    use super::*;
    use crate::programs::built_folder;

    fn difference() -> Difference {
        let lines = |text: &str| -> Vec<Vec<u8>> { text.lines().map(Vec::from).collect() };
        Difference {
            told: String::new(),
            script: vec![
                b"buffer a 3\n".to_vec(),
                b"# no call\n".to_vec(),
                b"guids a\n".to_vec(),
                b"x\t\xff".to_vec(),
            ],
            names: ["tool".to_string(), "second".to_string()],
            answers: [
                lines("ok length=3\nrefused 1\nbad line"),
                lines("ok length=3\nrefused 2\nbad line"),
            ],
        }
    }

    #[test]
    fn it_is_printed_as_a_script_with_the_answers() {
        let text =
            "buffer a 3 # ok length=3\n# no call\nguids a # tool: refused 1; second: refused 2\n\
                    'x\\t\\xff' # bad line\n";
        assert_eq!(difference().text(), text);
    }

    #[test]
    fn it_is_saved_as_a_case() {
        let folder = built_folder().join("agree-saved");
        fs::create_dir_all(&folder).unwrap();
        let files = difference().save(&folder, "new").unwrap();
        let read = |file: &PathBuf| fs::read(file).unwrap();
        let contents: Vec<Vec<u8>> = files.iter().map(read).collect();
        assert_eq!(contents[0], difference().script.concat());
        assert_eq!(contents[1], b"ok length=3\nrefused 1\nbad line\n");
        assert_eq!(contents[2], b"ok length=3\nrefused 2\nbad line\n");
        assert!(files[1].ends_with("new.tool.answers"));
        fs::remove_dir_all(&folder).unwrap();
    }
}
