//! The register as it is written: in one of four forms, image by image.

use super::brief::Brief;
use super::for_programs;
use super::outcome::Outcome;
use super::report;
use super::sources::Source;
use super::summary::Summary;
use super::verdict::Verdict;
use crate::shown::page::Page;
use crate::system::terminal;
use std::io::{self, Write};

/// The form of the register.
#[derive(Clone, Copy, PartialEq, Eq)]
pub enum Form {
    /// All of each image, for people.
    Whole,
    /// A line for each image, for people.
    Brief,
    Json,
    Csv,
}

/// A register that is being written.
pub struct Writing<'a> {
    pub form: Form,
    /// Whether images whose verdict is good are left out.
    pub quiet: bool,
    out: &'a mut dyn Write,
    shown: usize,
    summary: Summary,
    brief: Brief,
}

impl<'a> Writing<'a> {
    /// Begins to write: what stands before the images.
    pub fn begin(form: Form, quiet: bool, out: &'a mut dyn Write) -> io::Result<Writing<'a>> {
        let before = match form {
            Form::Whole | Form::Brief => String::new(),
            Form::Json => format!("{{\n \"format\": {},\n \"images\": [", for_programs::FORMAT),
            Form::Csv => for_programs::csv_head(),
        };
        out.write_all(before.as_bytes())?;
        Ok(Writing {
            form,
            quiet,
            out,
            shown: 0,
            summary: Summary::default(),
            brief: Brief::default(),
        })
    }

    /// Writes what is to be shown of an image, as soon as it is known.
    pub fn put(&mut self, source: &Source, outcome: &Outcome) -> io::Result<()> {
        self.summary.count(&outcome.judgement);
        if self.quiet && outcome.judgement.verdict == Verdict::Good {
            return Ok(());
        }
        let text = self.one(source, outcome);
        self.shown += 1;
        self.out.write_all(text.as_bytes())?;
        self.out.flush()
    }

    fn one(&mut self, source: &Source, outcome: &Outcome) -> String {
        let first = self.shown == 0;
        match self.form {
            Form::Whole => {
                let mut page = page();
                if !first {
                    page.gap();
                }
                report::image(&mut page, source, outcome);
                page.into_text()
            }
            Form::Brief => {
                self.brief.add(source, outcome);
                String::new()
            }
            Form::Json => {
                let between = if first { "" } else { "," };
                let image = for_programs::image(source, outcome);
                format!("{between}\n  {}", image.indented(2))
            }
            Form::Csv => for_programs::csv_rows(source, outcome),
        }
    }

    /// Writes what stands after the images.
    pub fn end(self) -> io::Result<()> {
        let after = match self.form {
            Form::Whole | Form::Brief => self.last_lines(),
            Form::Json => format!(
                "\n ],\n \"summary\": {}\n}}\n",
                for_programs::summary(&self.summary)
            ),
            Form::Csv => String::new(),
        };
        self.out.write_all(after.as_bytes())?;
        self.out.flush()
    }

    /// The table over all images, where that is wanted, and the line that counts them, where there are several or not all are shown.
    fn last_lines(&self) -> String {
        let mut page = page();
        self.brief.show(&mut page);
        if self.quiet || self.summary.images() > 1 {
            if self.shown > 0 {
                page.gap();
            }
            report::summary(&mut page, &self.summary);
        }
        page.into_text()
    }
}

fn page() -> Page {
    Page::new(terminal::columns(), terminal::wants_colour())
}
