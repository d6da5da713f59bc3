//! How a run of the tool ends, and the status that tells it.

use crate::system::messages::say;
use std::io;

/// How a run ends.
#[derive(Clone, Copy, Debug, PartialEq, Eq)]
pub enum Ending {
    /// All was good and found. To `ask` a refusal of the library is an answer, so it ends so as well.
    Done,
    /// A plain no: there is none, no boot loader was found, or answers differ.
    No,
    /// Something was refused.
    Refused,
    /// Some line was no call.
    BadLine,
    /// The command line is none.
    WrongWords,
    /// A file or a stream could not be read or written.
    NotReadOrWritten,
}

impl Ending {
    /// The status that the process ends with.
    pub fn status(self) -> u8 {
        match self {
            Ending::Done => 0,
            Ending::No | Ending::BadLine => 1,
            Ending::WrongWords => 2,
            Ending::NotReadOrWritten => 3,
            Ending::Refused => 5,
        }
    }

    /// How bad it is, beside other endings: a file that was not read, a refusal, a plain no, and all good.
    fn weight(self) -> u8 {
        match self {
            Ending::Done => 0,
            Ending::No | Ending::BadLine => 1,
            Ending::Refused => 2,
            Ending::NotReadOrWritten => 3,
            Ending::WrongWords => 4,
        }
    }

    /// How a run of two parts ends: as the worse of them.
    pub fn and(self, other: Ending) -> Ending {
        match other.weight() > self.weight() {
            true => other,
            false => self,
        }
    }

    /// How a run ends whose output could not be written. A reader that has seen enough and closes the pipe is no fault.
    pub fn of_unwritten(error: &io::Error) -> Ending {
        if error.kind() == io::ErrorKind::BrokenPipe {
            return Ending::Done;
        }
        say(&format!(
            "the output cannot be written: {error}. Write it to a place that has room, \
             and start again."
        ));
        Ending::NotReadOrWritten
    }
}

#[cfg(test)]
mod tests {
    use super::*;

    #[test]
    fn of_two_parts_the_worse_one_tells() {
        let (done, no, refused) = (Ending::Done, Ending::No, Ending::Refused);
        assert_eq!(done.and(done), done);
        assert_eq!(done.and(no), no);
        assert_eq!(no.and(refused), refused);
        assert_eq!(refused.and(no), refused);
        assert_eq!(done.and(refused), refused);
        assert_eq!(refused.and(done), refused);
        let unread = Ending::NotReadOrWritten;
        assert_eq!(refused.and(unread), unread);
        assert_eq!(unread.and(refused), unread);
    }

    #[test]
    fn a_closed_pipe_is_no_fault_and_any_other_is_one() {
        let closed = io::Error::from(io::ErrorKind::BrokenPipe);
        assert_eq!(Ending::of_unwritten(&closed).status(), 0);
        let denied = io::Error::from(io::ErrorKind::PermissionDenied);
        assert_eq!(Ending::of_unwritten(&denied).status(), 3);
    }
}
