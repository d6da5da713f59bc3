//! Every entry that has bytes, of all directories of an image, each into a file of its own in one folder.

use super::told;
use crate::shown::entry::{bytes_of, EntryShown};
use crate::shown::forms;
use crate::shown::names;
use crate::shown::places::Refused;
use crate::system::ending::Ending;
use crate::system::files::{self, quoted_name};
use crate::system::folding::on_one_line;
use crate::system::messages::say;
use crate::system::new_file;
use crate::system::new_folder;
use crate::system::output::print;
use bindings::{directories, view_entries, Answer, Directory, Entry, Part, Words};
use std::ffi::OsStr;
use std::path::{Path, PathBuf};

/// An entry of an image, and where it stands.
struct Listed {
    directory: Directory,
    index: u64,
    row: EntryShown,
}

/// Writes every entry that has bytes of the image that a file holds into a folder.
pub fn run(name: &OsStr, folder: &OsStr, force: bool) -> Ending {
    files::asked(name, |image| match all_of(image) {
        Err(refusal) => {
            let text = Refused::by(image, refusal).text("; nothing is written");
            print(&text).and(Ending::Refused)
        }
        Ok(all) => match write_all(image, &all, name, Path::new(folder), force) {
            Ok(ending) => ending,
            Err(message) => {
                say(&message);
                Ending::NotReadOrWritten
            }
        },
    })
}

/// Every entry of every directory that the walk through an image enters, in its order; or its first fault.
fn all_of(image: &[u8]) -> Answer<Vec<Listed>> {
    let mut words = Words::new();
    let mut all: Vec<Listed> = Vec::new();
    for entered in directories(image)? {
        let directory = entered.directory;
        // Two entries may lead to one directory, which has one file for each of its entries.
        if all
            .iter()
            .any(|listed| listed.directory.place == directory.place)
        {
            continue;
        }
        let entries = view_entries(image, directory.place as usize, &mut words)?;
        let rows = (0..).zip(entries.rows());
        all.extend(rows.map(|(index, row)| Listed {
            directory,
            index,
            row: EntryShown::of_row(image, directory, index, row),
        }));
    }
    Ok(all)
}

/// Writes the files and prints a line for each entry. Where a file is in the way, nothing is written. The error is the message to
/// show.
fn write_all(
    image: &[u8],
    all: &[Listed],
    name: &OsStr,
    folder: &Path,
    force: bool,
) -> Result<Ending, String> {
    let shown = quoted_name(folder.as_os_str());
    let with_bytes = all.iter().filter(|listed| listed.bytes().is_ok());
    let files: Vec<PathBuf> = with_bytes
        .map(|listed| folder.join(listed.file_name()))
        .collect();
    new_folder::made_ready(&[folder], &files, force)?;
    let (mut written, mut ending) = (0, Ending::Done);
    for listed in all {
        ending = ending.and(listed.row.ending());
        let line = match listed.bytes() {
            Err(reason) => format!("{} is left out: {reason}", listed.words()),
            Ok(part) => {
                let file = folder.join(listed.file_name());
                let bytes = bytes_of(image, part);
                new_file::written(file.as_os_str(), bytes, force, name)?;
                written += 1;
                told(
                    &quoted_name(file.as_os_str()),
                    &listed.entry_words(),
                    listed.row.entry,
                    part,
                )
            }
        };
        ending = ending.and(print(&format!("{line}\n")));
    }
    let left_out = all.len() as u64 - written;
    let summary = format!(
        "{} written into {shown}, {} left out\n",
        forms::counted(written, "file", "files"),
        forms::entries(left_out)
    );
    Ok(ending.and(print(&summary)))
}

impl Listed {
    /// Where its bytes lie, or why it has none to write.
    fn bytes(&self) -> Result<Part, String> {
        match (self.row.part, self.row.refused) {
            (Ok(part), _) if part.length > 0 => Ok(part),
            (Ok(_), _) => Err(String::from("it has no bytes")),
            (Err(_), Some(refused)) => {
                let why = refused
                    .sentence()
                    .map_or(String::new(), |why| format!("; {why}"));
                Err(on_one_line(&format!("{}{why}", refused.told())))
            }
            (Err(_), None) => {
                let value = self.row.entry.location;
                Err(format!("it holds the value {value:#x}"))
            }
        }
    }

    /// The name of its file, which sorts as the entries of a directory do.
    fn file_name(&self) -> String {
        let Directory { level, place, .. } = self.directory;
        let Entry {
            class, subprogram, ..
        } = self.row.entry;
        let name =
            names::entry_type(class).map_or(String::new(), |known| format!("-{}", known.name));
        let index = self.index;
        format!("level{level}-{place:#x}-{index:03}-{class:#04x}-{subprogram:#04x}{name}.bin")
    }

    /// `entry 0 of level 2 at 0x28000`.
    fn entry_words(&self) -> String {
        let Directory { level, place, .. } = self.directory;
        forms::entry(self.index, &forms::directory(level, place))
    }

    /// The same with its type.
    fn words(&self) -> String {
        let class = names::numbered_type(self.row.entry.class);
        format!("{}, {class},", self.entry_words())
    }
}

#[cfg(test)]
mod tests {
    use super::*;
    use bindings::Refusal;

    fn listed(entry: (u64, u64), part: Answer<Part>) -> Listed {
        let (class, subprogram) = entry;
        let refusal = part.err().filter(|refusal| !refusal.is(Refusal::VALUE));
        Listed {
            directory: Directory {
                place: 0x2_8000,
                level: 2,
                total: 4,
            },
            index: 3,
            row: EntryShown {
                entry: Entry {
                    class,
                    subprogram,
                    size: 0,
                    location: 0x1234,
                    mode: 0,
                },
                part,
                refused: refusal.map(|refusal| Refused::by(&[], refusal)),
                version: None,
            },
        }
    }

    #[test]
    fn a_file_is_named_by_all_that_tells_its_entry() {
        let part = Ok(Part {
            place: 0,
            length: 1,
        });
        let named = |entry| listed(entry, part).file_name();
        assert_eq!(
            named((0x08, 1)),
            "level2-0x28000-003-0x08-0x01-smu-firmware.bin"
        );
        assert_eq!(named((0x5A, 0xFF)), "level2-0x28000-003-0x5a-0xff.bin");
    }

    #[test]
    fn what_is_left_out_is_told_and_only_a_refusal_counts() {
        let no = |number| Err(Refusal::alone(number));
        let empty = Ok(Part {
            place: 7,
            length: 0,
        });
        for (part, reason, ending) in [
            (empty, "it has no bytes", Ending::Done),
            (no(17), "it holds the value 0x1234", Ending::Done),
            (no(16), "refused 16: address mode 3", Ending::Refused),
        ] {
            let listed = listed((0x0B, 0), part);
            assert_eq!(listed.bytes(), Err(String::from(reason)));
            assert_eq!(listed.row.ending(), ending);
        }
    }
}
