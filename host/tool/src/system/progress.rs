//! Progress through many files, on a line of standard error that is written over and in the end wiped.

use crate::system::terminal::{can_be_written_over, is_terminal, Stream};
use indicatif::{ProgressBar, ProgressDrawTarget, ProgressState, ProgressStyle};
use std::fmt::Write;

/// The line: how many files are done and left, and the one that is read. What does not fit is cut.
const LINE: &str = "{pos} of {len} done, {left} left: {wide_msg}";

pub struct Progress {
    total: u64,
    begun: u64,
    shown: bool,
    line: ProgressBar,
}

impl Progress {
    /// Progress over so many files. It is shown on a terminal, where there is more than one, and where the terminal does not
    /// show each file's output by itself.
    pub fn over(total: usize, quiet: bool) -> Progress {
        let told_anyway = is_terminal(Stream::Output) && !quiet;
        Progress {
            total: total as u64,
            begun: 0,
            shown: total > 1 && can_be_written_over(Stream::Error) && !told_anyway,
            line: ProgressBar::hidden(),
        }
    }

    /// The next file is begun.
    pub fn begin(&mut self, name: &str) {
        let done = self.begun;
        self.begun += 1;
        if self.shown {
            self.line = line(self.total, done, name, ProgressDrawTarget::stderr());
        }
    }

    /// Wipes the line, so that something else can be written.
    pub fn clear(&self) {
        self.line.finish_and_clear();
    }
}

/// The line where so many files are done and the next one is read, drawn once.
fn line(total: u64, done: u64, name: &str, target: ProgressDrawTarget) -> ProgressBar {
    let style = ProgressStyle::with_template(LINE).expect("the line is a template");
    let style = style.with_key("left", |state: &ProgressState, out: &mut dyn Write| {
        let left = state.len().unwrap_or(0).saturating_sub(state.pos());
        let _ = write!(out, "{left}");
    });
    let line = ProgressBar::with_draw_target(Some(total), target)
        .with_style(style)
        .with_position(done)
        .with_message(name.to_string());
    line.tick();
    line
}

#[cfg(test)]
mod tests {
    use super::*;
    use indicatif::TermLike;
    use std::io;
    use std::sync::{Arc, Mutex};

    /// A terminal of 40 columns that keeps what is written to it, where a wiped line is a `|`.
    #[derive(Clone, Debug, Default)]
    struct Kept(Arc<Mutex<String>>);

    impl Kept {
        fn keep(&self, text: &str) -> io::Result<()> {
            self.0.lock().unwrap().push_str(text);
            Ok(())
        }
    }

    impl TermLike for Kept {
        fn width(&self) -> u16 {
            40
        }

        fn move_cursor_up(&self, _: usize) -> io::Result<()> {
            Ok(())
        }

        fn move_cursor_down(&self, _: usize) -> io::Result<()> {
            Ok(())
        }

        fn move_cursor_right(&self, _: usize) -> io::Result<()> {
            Ok(())
        }

        fn move_cursor_left(&self, _: usize) -> io::Result<()> {
            Ok(())
        }

        fn write_line(&self, text: &str) -> io::Result<()> {
            self.keep(text)
        }

        fn write_str(&self, text: &str) -> io::Result<()> {
            self.keep(text)
        }

        fn clear_line(&self) -> io::Result<()> {
            self.keep("|")
        }

        fn flush(&self) -> io::Result<()> {
            Ok(())
        }
    }

    #[test]
    fn the_line_says_how_many_are_done_and_left_and_is_wiped() {
        let kept = Kept::default();
        let target = ProgressDrawTarget::term_like(Box::new(kept.clone()));
        let line = line(12, 3, "a-name-that-is-far-too-long.rom", target);
        let shown = kept.0.lock().unwrap().clone();
        assert!(
            shown.contains("3 of 12 done, 9 left: a-name-that-is-"),
            "{shown:?}"
        );
        assert!(!shown.contains("long.rom"), "{shown:?}");
        line.finish_and_clear();
        let wiped = kept.0.lock().unwrap().clone();
        let (_, after) = wiped.split_at(shown.len());
        assert!(after.contains('|') && !after.contains("done"), "{after:?}");
    }

    #[test]
    fn where_standard_error_is_no_terminal_nothing_is_drawn() {
        let mut progress = Progress::over(2, true);
        if !is_terminal(Stream::Error) {
            progress.begin("a.rom");
            assert!(progress.line.is_hidden());
        }
    }
}
