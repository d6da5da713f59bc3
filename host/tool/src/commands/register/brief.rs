//! The table over many machines: a line each.

use super::facts::{Facts, BOOT_LOADER, RECOVERY, SECURE_OS, SMU_FIRMWARE};
use super::outcome::Outcome;
use super::sources::Source;
use crate::shown::names;
use crate::shown::page::{Look, Page};
use crate::shown::refusals;
use crate::system::folding::kept;

/// The firmware that has a column.
const FIRMWARE: [u8; 4] = [BOOT_LOADER, RECOVERY, SECURE_OS, SMU_FIRMWARE];

/// The line of a machine.
struct Machine {
    look: Look,
    name: String,
    verdict: String,
    /// What is told of each of [`FIRMWARE`].
    firmware: [String; 4],
}

/// A table that is begun. The columns are as wide as what stands in them, so it is shown once all machines are known.
#[derive(Default)]
pub struct Brief {
    machines: Vec<Machine>,
}

impl Brief {
    pub fn add(&mut self, source: &Source, outcome: &Outcome) {
        self.machines.push(Machine {
            look: outcome.judgement.verdict.look(),
            name: source.shown(),
            verdict: outcome.judgement.brief(),
            firmware: FIRMWARE.map(|class| firmware(outcome.facts.as_ref().ok(), class)),
        });
    }

    /// Puts the table on a page, or lines for each machine where it does not fit.
    pub fn show(&self, page: &mut Page) {
        let heads = ["name", "verdict"].into_iter();
        let heads: Vec<String> = heads.chain(FIRMWARE.map(head)).map(String::from).collect();
        let rows = self.machines.iter().map(Machine::row);
        let table: Vec<(Look, Vec<String>)> =
            [(Look::Heading, heads)].into_iter().chain(rows).collect();
        if table.len() > 1 && !page.add_table(0, &table) {
            self.machines.iter().for_each(|machine| machine.lines(page));
        }
    }
}

impl Machine {
    fn row(&self) -> (Look, Vec<String>) {
        let before = [self.name.clone(), self.verdict.clone()];
        let cells = before.into_iter().chain(self.firmware.clone());
        (self.look, cells.collect())
    }

    fn lines(&self, page: &mut Page) {
        page.add_whole(self.look, 0, &format!("{}:", self.name));
        let told = FIRMWARE.iter().zip(&self.firmware);
        let told = told.map(|(class, told)| kept(&format!("{} {told}", head(*class))));
        let told: Vec<String> = [kept(&self.verdict)].into_iter().chain(told).collect();
        page.add(self.look, 2, 2, &told.join("; "));
    }
}

fn head(class: u8) -> &'static str {
    names::entry_type_words(u64::from(class))
}

/// What is told of firmware: its version, `yes` where its bytes carry none, the number where it has no bytes, and `-` where it is
/// not found.
fn firmware(facts: Option<&Facts>, class: u8) -> String {
    let row = match facts.and_then(|facts| facts.asked(class)?.answer.ok()) {
        Some(found) => found.row,
        None => return String::from("-"),
    };
    match row.part {
        Ok(_) => row.version_words().unwrap_or_else(|| String::from("yes")),
        Err(refusal) => refusals::number(refusal),
    }
}

#[cfg(test)]
mod tests {
    use super::*;
    use bindings::{Refusal, Words};

    fn outcome() -> Outcome {
        Outcome::of(&Source::Sample, &mut Words::new())
    }

    #[test]
    fn firmware_is_told_by_its_version_or_by_what_there_is_of_it() {
        let mut facts = outcome().facts.expect("the sample is read");
        let told = |facts: &Facts| firmware(Some(facts), BOOT_LOADER);
        assert_eq!(told(&facts), "00.08.01.74");
        let mut found = facts.asked[0].answer.unwrap();
        found.row.version = Some(Err(Refusal::alone(Refusal::SIGNATURE)));
        facts.asked[0].answer = Ok(found);
        assert_eq!(told(&facts), "yes");
        found.row.part = Err(Refusal::alone(Refusal::OUTSIDE));
        facts.asked[0].answer = Ok(found);
        assert_eq!(told(&facts), "refused 7");
        facts.asked[0].answer = Err(Refusal::alone(Refusal::ABSENT));
        assert_eq!(told(&facts), "-");
        assert_eq!(firmware(None, BOOT_LOADER), "-");
    }

    #[test]
    fn a_table_that_does_not_fit_becomes_lines() {
        let mut brief = Brief::default();
        brief.add(&Source::Sample, &outcome());
        let shown = |columns| {
            let mut page = Page::new(columns, false);
            brief.show(&mut page);
            page.into_text()
        };
        assert_eq!(shown(None).lines().count(), 2);
        assert_eq!(shown(Some(94)), shown(None));
        assert_eq!(
            shown(Some(93)),
            "the tool's sample board:\n  \
               good; boot loader 00.08.01.74; recovery boot loader 00.08.01.70; secure OS 00.08.01.13;\n    \
                 SMU firmware 00.2e.07.05\n"
        );
    }

    #[test]
    fn without_a_machine_nothing_is_shown() {
        let mut page = Page::new(None, false);
        Brief::default().show(&mut page);
        assert_eq!(page.into_text(), "");
    }
}
