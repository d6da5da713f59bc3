//! Folders that a command fills with files: made where they are not there, and no file in them written over unless the user says so.

use crate::system::files::quoted_name;
use std::fs;
use std::io;
use std::path::{Path, PathBuf};

/// Checks that nothing is in the way of the files that are to be put into folders, and makes these where they are not there, each
/// after the one that it is in. The error is the message to show; nothing is written then.
pub fn made_ready(folders: &[&Path], files: &[PathBuf], force: bool) -> Result<(), String> {
    none_in_the_way(files, force)?;
    for folder in folders {
        made(folder).map_err(|error| {
            format!(
                "{} cannot be made: {error}. Name a folder, or a new one in a folder that is \
                 there and lets you write.",
                quoted_name(folder.as_os_str())
            )
        })?;
    }
    Ok(())
}

fn made(folder: &Path) -> io::Result<()> {
    match fs::create_dir(folder) {
        Err(_) if folder.is_dir() => Ok(()),
        made => made,
    }
}

/// Checks that no file is in the way: one that is there, or, with `force`, a link, through which something outside the folder would
/// be written over.
fn none_in_the_way(files: &[PathBuf], force: bool) -> Result<(), String> {
    let is_in_the_way = |file: &&PathBuf| match fs::symlink_metadata(file) {
        Ok(found) => !force || found.is_symlink(),
        Err(_) => false,
    };
    let in_the_way: Vec<&PathBuf> = files.iter().filter(is_in_the_way).collect();
    let first = match in_the_way.first() {
        Some(first) => quoted_name(first.as_os_str()),
        None => return Ok(()),
    };
    let more = match in_the_way.len() - 1 {
        0 => String::new(),
        more => format!(" and {more} more"),
    };
    Err(match force {
        true => format!(
            "{first}{more} may lead out of the folder as a link, and nothing is written. Remove \
             the links, or name another folder."
        ),
        false => format!(
            "{first}{more} would be written over, and nothing is written. Name another folder, or \
             say --force to write over what is there."
        ),
    })
}
