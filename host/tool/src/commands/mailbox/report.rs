//! What is shown of a recording: a table for each caller, the steps of the register, the firmware in words.

use super::names;
use crate::language::recording::{Asked, Outcome, Part, Recording, Row, Step, STEPS};
use crate::shown::page::Page;
use bindings::{Firmware, Interrupt};

/// The report of a recording for people, in tables of so many columns, or as wide as they are where nothing limits them.
pub fn of(recording: &Recording, columns: Option<usize>) -> String {
    let told: Vec<String> = recording
        .touched()
        .map(|touched| part(touched, columns))
        .collect();
    let mut text = match told.is_empty() {
        true => String::from("Nothing is asked of the mailbox.\n"),
        false => told.join("\n"),
    };
    match recording.wrong.len() {
        0 => (),
        1 => text.push_str("\n1 line is no call, and is left out.\n"),
        amount => text.push_str(&format!(
            "\n{amount} lines are no calls, and are left out.\n"
        )),
    }
    text
}

/// One mailbox and all that was asked of it.
fn part(part: &Part, columns: Option<usize>) -> String {
    let mut text = match part.made {
        None => String::from("A fresh mailbox, from the start\n"),
        Some(made) if made.described => format!("The mailbox described on line {}\n", made.line),
        Some(made) => format!("A fresh mailbox, from line {}\n", made.line),
    };
    for (caller, rows) in &part.callers {
        text.push_str(&format!("\nCaller {caller}\n"));
        let rows: Vec<_> = rows.iter().map(|row| cells(part, *caller, row)).collect();
        let mut page = Page::new(columns, false);
        page.add_laid_out(2, ["line", "asked", "data", "answered"], &rows, line);
        text.push_str(&page.into_text());
    }
    text.push_str("\nThe register\n");
    for (name, taken) in STEPS.iter().zip(&part.steps) {
        text.push_str(&step(name, taken));
    }
    text.push_str("\nThe firmware at the end\n");
    text.push_str(&firmware(&part.firmware()));
    text
}

/// A line of a caller's table.
fn line([line, asked, data, answered]: &[String; 4]) -> String {
    format!("{line:>6}  {asked:<40}  {data:<6}  {answered}")
}

fn cells(part: &Part, caller: u32, row: &Row) -> [String; 4] {
    let (asked, data) = match row.asked {
        Asked::Post { command, data } => (names::command(command), format!("{data:#06x}")),
        Asked::Take => (String::from("take"), String::new()),
        Asked::Response => (
            String::from("a response, there from the start"),
            String::new(),
        ),
    };
    let answered = match part.outcome(caller, row) {
        Outcome::Refused(number) => names::refusal(number),
        Outcome::Taken { line, word } => format!("{} (taken on line {line})", names::word(word)),
        Outcome::NotTaken(word) => format!("{} (answered, not taken)", names::word(word)),
        Outcome::NotAnswered => String::from("not answered yet"),
        Outcome::OutOfReach(number) => {
            format!("out of reach; a take is {}", names::refusal(number))
        }
    };
    [row.line.to_string(), asked, data, answered]
}

fn step(name: &str, step: &Step) -> String {
    let mut text = format!("  {name:<6}  asked {}, acted {}\n", step.asked, step.acted);
    for (line, number) in &step.refused {
        let refusal = names::refusal(*number);
        text.push_str(&format!("          line {line}: {refusal}\n"));
    }
    text
}

/// The state of the firmware in words.
fn firmware(firmware: &Firmware) -> String {
    let interface = if firmware.interface { "on" } else { "off" };
    let held: Vec<String> = (1..)
        .zip(firmware.held)
        .filter_map(|(number, part)| Some(format!("part {number} {:#06x}", part?)))
        .collect();
    let held = match held.is_empty() {
        true => String::from("none"),
        false => held.join(", "),
    };
    let mut text = format!("  PCIe interface {interface}\n  parts held: {held}\n");
    let ids = firmware.interrupts.iter().enumerate();
    let kept: String = ids.filter_map(|(id, kept)| interrupt(id, kept)).collect();
    text.push_str(match kept.is_empty() {
        true => "  no descriptor is saved\n",
        false => &kept,
    });
    text
}

/// What the firmware keeps for an ID, where it keeps anything.
fn interrupt(id: usize, kept: &Interrupt) -> Option<String> {
    let parts = match kept.descriptor {
        Some([one, two, three]) => format!("parts {one:#06x}, {two:#06x}, {three:#06x}"),
        None if kept.delivery => String::from("none"),
        None => return None,
    };
    let delivery = if kept.delivery { "on" } else { "off" };
    Some(format!(
        "  descriptor under ID {id}: {parts}; delivery {delivery}\n"
    ))
}

#[cfg(test)]
mod tests {
    use super::*;

    fn report(script: &str) -> String {
        of(&Recording::play(script.as_bytes()), None)
    }

    #[test]
    fn a_post_stands_beside_its_answer() {
        let text = report("post 1 0x81 0xffff\nload\nturn\nunload\ntake 1\n");
        let row = "       1  0x81 QUERY_ASP_PCIE_INTERFACE_STATUS      0xffff  \
                   0x80810001: status 0x0 success, data 0x0001 (taken on line 5)\n";
        assert!(text.contains(row), "{text}");
    }

    #[test]
    fn a_table_that_is_too_wide_is_told_in_lines_that_fit() {
        let script = "post 1 0x81 0xffff\nload\nturn\nunload\ntake 1\n";
        let recording = Recording::play(script.as_bytes());
        assert_eq!(of(&recording, Some(200)), report(script));
        let narrow = of(&recording, Some(60));
        assert!(narrow.lines().all(|line| line.len() <= 60), "{narrow}");
        let told = "line 1, asked 0x81 QUERY_ASP_PCIE_INTERFACE_STATUS, data 0xffff, answered \
                    0x80810001: status 0x0 success, data 0x0001 (taken on line 5)";
        let together = narrow.split_whitespace().collect::<Vec<_>>().join(" ");
        assert!(together.contains(told), "{narrow}");
    }

    #[test]
    fn what_is_not_taken_is_told_apart() {
        let text = report("post 1 0x3ff 0\nload\nturn\nunload\npost 2 0x81 0\nload\nturn\n");
        assert!(text.contains(
            "0x87ff0000: status 0x1 invalid command, data 0x0000 (answered, not taken)\n"
        ));
        assert!(text.contains("0x0000  not answered yet\n"));
        let text = report("mailbox-of 8:0:0 idle -\nturn\n");
        let rule = "refused 5: the mailbox breaks its own rules\n";
        assert!(text.contains(&format!("out of reach; a take is {rule}")));
        assert!(text.contains(&format!(
            "  turn    asked 1, acted 0\n          line 2: {rule}"
        )));
    }

    #[test]
    fn the_firmware_is_told_in_words() {
        let rounds = |words: &[(u32, u32)]| -> String {
            let round = |(command, data): &(u32, u32)| {
                format!("post 0 {command} {data}\nload\nturn\nunload\ntake 0\n")
            };
            words.iter().map(round).collect()
        };
        let end = |script: &str| {
            let text = report(script);
            let (_, end) = text.split_once("The firmware at the end\n").unwrap();
            end.to_string()
        };
        let fresh = "  PCIe interface on\n  parts held: none\n  no descriptor is saved\n";
        assert_eq!(end("load\n"), fresh);
        let mut words = vec![(0x84, 0x0433), (0x82, 0x1111), (0x83, 0x2222), (0x80, 0)];
        words.extend([(0x85, 0x0401), (0x84, 0), (0x82, 7)]);
        assert_eq!(
            end(&rounds(&words)),
            "  PCIe interface off\n  parts held: part 1 0x0007, part 3 0x0000\n  \
             descriptor under ID 1: parts 0x1111, 0x2222, 0x0433; delivery on\n"
        );
    }

    #[test]
    fn every_mailbox_is_shown_and_an_empty_recording_says_so() {
        assert_eq!(report("# nothing\n"), "Nothing is asked of the mailbox.\n");
        assert_eq!(report("firmware\n"), "Nothing is asked of the mailbox.\n");
        let text = report("load\nmailbox\nmailbox-of - idle -\nload\nloads\n");
        for line in [
            "A fresh mailbox, from the start\n",
            "\nA fresh mailbox, from line 2\n",
            "\nThe mailbox described on line 3\n",
            "\n1 line is no call, and is left out.\n",
        ] {
            assert!(text.contains(line), "{line}");
        }
        assert!(report("mailbox\n").starts_with("A fresh mailbox, from line 1\n"));
        assert!(report("a\nb\n").ends_with("\n2 lines are no calls, and are left out.\n"));
    }
}
