//! The most memory that the tool has at a time, on a small image and on one of 16 MiB.

use crate::samples;
use agree::programs::built;
use std::io::Write;
use std::path::{Path, PathBuf};
use std::process::{Command, Stdio};

/// What the C library tells of a child that has ended. Only the peak is read.
#[repr(C)]
struct Usage {
    times: [i64; 4],
    /// The most memory that it had, in KiB.
    peak: i64,
    others: [i64; 13],
}

extern "C" {
    fn wait4(process: i32, status: *mut i32, options: i32, usage: *mut Usage) -> i32;
}

/// A way to take an image through the tool.
pub struct Way {
    /// What the table calls it.
    pub name: &'static str,
    /// The tool's words, and what it reads on standard input, for an image in a file.
    words: fn(&Path) -> Vec<String>,
    input: fn(&Path) -> String,
}

/// The ways that are measured.
pub const WAYS: &[Way] = &[
    Way {
        name: "ask: directories of both levels, a whole-image lookup",
        words: |_| vec!["ask".into()],
        input: |image| {
            format!(
                "file image {}\ndirectory image 1\ndirectory image 2\nfind-image image {} 0\n",
                image.display(),
                samples::MISSING
            )
        },
    },
    Way {
        name: "register: all that it shows of an image",
        words: |image| vec!["register".into(), image.display().to_string()],
        input: |_| String::new(),
    },
];

/// What the tool's memory comes to on one way.
pub struct Peaks {
    /// The lengths of the two images, and the peaks, in KiB.
    pub lengths: [u64; 2],
    pub peaks: [u64; 2],
}

impl Peaks {
    /// How many KiB more the long image takes, and by how many it is longer.
    pub fn more(&self) -> (u64, u64) {
        (
            self.peaks[1].saturating_sub(self.peaks[0]),
            self.lengths[1] - self.lengths[0],
        )
    }
}

/// Takes a small image and one of 16 MiB through the tool. The small one shows what the tool and, on another processor, the
/// emulator take by themselves.
pub fn measure(way: &Way) -> Result<Peaks, String> {
    let one = [samples::lead()];
    let two = samples::mixed_entries(8, 1);
    let lengths = [samples::SHORTEST, samples::LONGEST];
    let mut peaks = [0; 2];
    for (peak, length) in peaks.iter_mut().zip(lengths) {
        let file = TemporaryFile::of(&samples::image(length, &one, &two))?;
        *peak = peak_of(way, &file.path)?;
    }
    Ok(Peaks {
        lengths: lengths.map(|length| length as u64 / 1024),
        peaks,
    })
}

/// The peak of the tool on the image in a file, in KiB.
fn peak_of(way: &Way, image: &Path) -> Result<u64, String> {
    let tool = built("kpalumere");
    let mut child = Command::new(&tool[0])
        .args(&tool[1..])
        .args((way.words)(image))
        .stdin(Stdio::piped())
        .stdout(Stdio::null())
        .spawn()
        .map_err(|error| format!("the tool cannot be started: {error}"))?;
    let mut input = child.stdin.take().expect("standard input is a pipe");
    input
        .write_all((way.input)(image).as_bytes())
        .map_err(|error| format!("the tool does not read its input: {error}"))?;
    drop(input);
    let mut usage = Usage {
        times: [0; 4],
        peak: 0,
        others: [0; 13],
    };
    let mut status = 0;
    let process = child.id() as i32;
    // SAFETY: the call writes the status and the usage, whose form is that of the C library on x86-64.
    let waited = unsafe { wait4(process, &mut status, 0, &mut usage) };
    // By itself with 0, or with 1, since the image of a register has no boot loader.
    let ended = status == 0 || status == 1 << 8;
    if waited != process || !ended {
        return Err(format!(
            "the tool ended with {status} on {}, so its memory says nothing",
            image.display()
        ));
    }
    Ok(usage.peak as u64)
}

/// A file that is removed when it is no longer needed.
struct TemporaryFile {
    path: PathBuf,
}

impl TemporaryFile {
    fn of(bytes: &[u8]) -> Result<TemporaryFile, String> {
        let name = format!("kpalumere-bench-{}.image", std::process::id());
        let path = std::env::temp_dir().join(name);
        std::fs::write(&path, bytes)
            .map_err(|error| format!("{} cannot be written: {error}", path.display()))?;
        Ok(TemporaryFile { path })
    }
}

impl Drop for TemporaryFile {
    fn drop(&mut self) {
        drop(std::fs::remove_file(&self.path));
    }
}
