//! Which images a register is made of: files, the files below folders, and the names of a list.

use crate::system::files::{self, quoted_name, read_up_to, shown_name};
use std::ffi::{OsStr, OsString};
use std::fs;
use std::io;
use std::os::unix::ffi::{OsStrExt, OsStringExt};
use std::path::{Path, PathBuf};

/// What one register is made of.
#[derive(Debug, PartialEq, Eq)]
pub enum Source {
    /// The sample board that comes with the tool.
    Sample,
    File(OsString),
    /// A folder whose files the system does not tell, and the message that says so.
    Unlisted(OsString, String),
}

impl Source {
    /// What people see it called.
    pub fn shown(&self) -> String {
        match self.name() {
            Some(name) => shown_name(name),
            None => String::from("the tool's sample board"),
        }
    }

    /// The name that it was found by. The sample has none.
    pub fn name(&self) -> Option<&OsStr> {
        match self {
            Source::Sample => None,
            Source::File(name) | Source::Unlisted(name, _) => Some(name),
        }
    }
}

/// What the words name.
pub struct Named {
    /// Whether the sample board is wanted.
    pub sample: bool,
    /// Files and folders.
    pub images: Vec<OsString>,
    pub list: Option<List>,
}

/// A file with the names of images, or standard input where its name is `-`.
pub struct List {
    pub file: OsString,
    /// Whether a zero byte ends each name, in place of a line end.
    pub nul: bool,
}

impl Named {
    /// Whether nothing is named.
    pub fn is_nothing(&self) -> bool {
        !self.sample && self.images.is_empty() && self.list.is_none()
    }

    /// Whether standard input is to be an image and the list of images at the same time.
    pub fn reads_input_twice(&self) -> bool {
        let is_list = self.list.as_ref().map_or(false, |list| list.file == "-");
        is_list && self.images.iter().any(|image| image == "-")
    }

    /// All that is named: the sample, the images in their order, and those of the list in its order. The error is the message
    /// that the list cannot be read.
    pub fn sources(&self) -> Result<Vec<Source>, String> {
        let listed = self.list.as_ref().map_or(Ok(Vec::new()), List::names)?;
        let sample = self.sample.then_some(Source::Sample);
        let named = self.images.iter().chain(&listed);
        Ok(sample.into_iter().chain(named.flat_map(found)).collect())
    }
}

impl List {
    /// The names of the list, without empty ones.
    fn names(&self) -> Result<Vec<OsString>, String> {
        let name = shown_name(&self.file);
        let bytes = match read_up_to(&self.file, files::MOST + 1) {
            Ok(bytes) if bytes.len() as u64 <= files::MOST => bytes,
            Ok(_) => {
                return Err(format!(
                    "{name} has more than {} bytes, and no list is as long. Name a file with the \
                     names of images.",
                    files::MOST
                ))
            }
            Err(error) => {
                return Err(format!(
                    "{name} cannot be read: {error}. Name a file with a name on each line, or - \
                     for standard input."
                ))
            }
        };
        Ok(self.parted(&bytes))
    }

    fn parted(&self, bytes: &[u8]) -> Vec<OsString> {
        let end = if self.nul { b'\0' } else { b'\n' };
        let names = bytes.split(|byte| *byte == end).map(|name| match self.nul {
            true => name,
            // Lists that were made on other systems have a carriage return before their line ends.
            false => name.strip_suffix(b"\r").unwrap_or(name),
        });
        names
            .filter(|name| !name.is_empty())
            .map(|name| OsString::from_vec(file_name(name).to_vec()))
            .collect()
    }
}

/// A name of a list as that of a file. There is one standard input, which mostly the list itself is read from, so that `-` is a
/// file's name too.
fn file_name(name: &[u8]) -> &[u8] {
    match name {
        b"-" => b"./-",
        name => name,
    }
}

/// A file, or the files below a folder.
fn found(name: &OsString) -> Vec<Source> {
    let is_folder = name != "-" && fs::metadata(name).map_or(false, |known| known.is_dir());
    match is_folder {
        true => below(name),
        false => vec![Source::File(name.clone())],
    }
}

/// The files below a folder, by their whole names in the order of their bytes. A link is followed to a file, and not to a folder:
/// so the walk ends, and stays below the folder.
fn below(folder: &OsStr) -> Vec<Source> {
    let mut sources = Vec::new();
    let mut folders = vec![PathBuf::from(folder)];
    while let Some(folder) = folders.pop() {
        if let Err(error) = take_from(&folder, &mut sources, &mut folders) {
            let message = format!(
                "{} cannot be read: {error}. Name a folder that can be read, or its files.",
                quoted_name(folder.as_os_str())
            );
            sources.push(Source::Unlisted(folder.into_os_string(), message));
        }
    }
    sources.sort_by(|one, other| bytes_of(one).cmp(bytes_of(other)));
    sources
}

fn bytes_of(source: &Source) -> &[u8] {
    source.name().map_or(b"", OsStr::as_bytes)
}

/// Takes the files and the folders that stand in a folder. Pipes, sockets and devices are neither.
fn take_from(
    folder: &Path,
    sources: &mut Vec<Source>,
    folders: &mut Vec<PathBuf>,
) -> io::Result<()> {
    for entry in fs::read_dir(folder)? {
        let entry = entry?;
        let path = entry.path();
        let told = entry.file_type()?;
        // A link that leads nowhere is taken for a file, so that it is told as not read.
        let is_file = match told.is_symlink() {
            true => fs::metadata(&path).map_or(true, |known| known.is_file()),
            false => told.is_file(),
        };
        if told.is_dir() {
            folders.push(path);
        } else if is_file {
            sources.push(Source::File(path.into_os_string()));
        }
    }
    Ok(())
}

#[cfg(test)]
mod tests {
    use super::*;

    fn names(nul: bool, bytes: &[u8]) -> Vec<Vec<u8>> {
        let file = OsString::from("list");
        let names = List { file, nul }.parted(bytes);
        names.into_iter().map(OsString::into_vec).collect()
    }

    #[test]
    fn a_line_is_a_name_and_an_empty_one_is_none() {
        assert_eq!(
            names(false, b"a b\n\n\r\nc\r\n-\nd"),
            [&b"a b"[..], b"c", b"./-", b"d"]
        );
        assert_eq!(names(false, b"\xff\0\n"), [b"\xff\0"]);
        assert!(names(false, b"\n\n").is_empty());
    }

    #[test]
    fn a_folder_that_cannot_be_read_is_not_left_out() {
        let missing = OsStr::new("there/is/no/folder");
        match below(missing).as_slice() {
            [Source::Unlisted(name, message)] => {
                assert_eq!(name, missing);
                let begins = "\"there/is/no/folder\" cannot be read: ";
                assert!(message.starts_with(begins), "{message}");
            }
            other => panic!("{other:?}"),
        }
    }

    #[test]
    fn where_zero_bytes_end_names_they_have_anything_else_in_them() {
        assert_eq!(
            names(true, b"a\nb\r\0\0-\0c"),
            [&b"a\nb\r"[..], b"./-", b"c"]
        );
        assert!(names(true, b"").is_empty());
    }
}
