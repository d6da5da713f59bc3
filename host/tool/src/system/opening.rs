//! Opens the files that people name, pipes among them.

use std::ffi::OsStr;
use std::fs::{self, File, OpenOptions};
use std::io::{self, Read};
use std::os::unix::fs::{FileTypeExt, OpenOptionsExt};
use std::thread::sleep;
use std::time::{Duration, Instant};

/// Linux's flag by which neither opening nor reading a pipe waits.
const WITHOUT_WAITING: i32 = 0o4000;

/// How long somebody who writes to a pipe is waited for.
const PATIENCE: Duration = Duration::from_secs(2);

/// How long it is until a pipe is looked at again.
const PAUSE: Duration = Duration::from_millis(2);

/// A file that is open to be read.
pub enum Opened {
    File(File),
    /// A pipe, and when it was opened, until something has come through it.
    Pipe(File, Option<Instant>),
}

/// Opens a file to be read. To open a pipe to which nobody writes would be to wait without end, so such a pipe is given up
/// when it is read.
pub fn open(name: &OsStr) -> io::Result<Opened> {
    if fs::metadata(name)?.file_type().is_fifo() {
        let pipe = OpenOptions::new()
            .read(true)
            .custom_flags(WITHOUT_WAITING)
            .open(name)?;
        return Ok(Opened::Pipe(pipe, Some(Instant::now())));
    }
    File::open(name).map(Opened::File)
}

impl Opened {
    /// The same, but no pipe: both programs read a script's own files alike.
    pub fn no_pipe(self) -> io::Result<Opened> {
        match self {
            Opened::File(_) => Ok(self),
            Opened::Pipe(..) => Err(io::Error::new(io::ErrorKind::Other, "it is a pipe")),
        }
    }

    /// How many bytes it has, where the system tells: 0 for a pipe.
    pub fn length(&self) -> u64 {
        match self {
            Opened::File(file) => file.metadata().map_or(0, |known| known.len()),
            Opened::Pipe(..) => 0,
        }
    }
}

impl Read for Opened {
    fn read(&mut self, room: &mut [u8]) -> io::Result<usize> {
        let (pipe, opened) = match self {
            Opened::File(file) => return file.read(room),
            Opened::Pipe(pipe, opened) => (pipe, opened),
        };
        loop {
            match (pipe.read(room), &opened) {
                // Somebody writes, and has written nothing yet.
                (Err(error), _) if error.kind() == io::ErrorKind::WouldBlock => *opened = None,
                // Nobody writes, or not yet.
                (Ok(0), Some(since)) if since.elapsed() >= PATIENCE => {
                    let text = "it is a pipe, and nobody writes to it";
                    return Err(io::Error::new(io::ErrorKind::Other, text));
                }
                (Ok(0), Some(_)) => {}
                (read, _) => {
                    *opened = None;
                    return read;
                }
            }
            sleep(PAUSE);
        }
    }
}

#[cfg(test)]
mod tests {
    use super::*;
    use std::path::PathBuf;
    use std::process::Command;

    /// A named pipe, gone at the end of the test.
    struct Pipe(PathBuf);

    impl Pipe {
        fn new(name: &str) -> Pipe {
            let name = format!("kpalumere-{name}-{}", std::process::id());
            let path = std::env::temp_dir().join(name);
            assert!(Command::new("mkfifo")
                .arg(&path)
                .status()
                .unwrap()
                .success());
            Pipe(path)
        }
    }

    impl Drop for Pipe {
        fn drop(&mut self) {
            fs::remove_file(&self.0).unwrap();
        }
    }

    fn all_of(name: &OsStr) -> io::Result<String> {
        let mut text = String::new();
        open(name)?.read_to_string(&mut text)?;
        Ok(text)
    }

    #[test]
    fn a_pipe_is_read_until_its_writer_ends() {
        let pipe = Pipe::new("written");
        let script = format!(
            "{{ echo one; sleep 0.3; echo two; }} >'{}'",
            pipe.0.display()
        );
        let mut writer = Command::new("sh").args(["-c", &script]).spawn().unwrap();
        assert_eq!(all_of(pipe.0.as_os_str()).unwrap(), "one\ntwo\n");
        assert!(writer.wait().unwrap().success());
    }

    #[test]
    fn a_pipe_to_which_nobody_writes_is_given_up() {
        let pipe = Pipe::new("unwritten");
        let message = all_of(pipe.0.as_os_str()).unwrap_err().to_string();
        assert_eq!(message, "it is a pipe, and nobody writes to it");
    }

    #[test]
    fn a_file_has_its_length_and_one_that_is_not_there_is_told() {
        let own = std::env::current_exe().unwrap();
        let known = fs::metadata(&own).unwrap().len();
        assert_eq!(open(own.as_os_str()).unwrap().length(), known);
        let missing = OsStr::new("there/is/no/such.file");
        assert_eq!(open(missing).err().unwrap().kind(), io::ErrorKind::NotFound);
    }
}
