//! What is shown of a recording, for programs. docs/USER.md has the fields.

use super::names::{command_name, response, status_name};
use crate::language::recording::{Asked, Outcome, Part, Recording, Row, Step, WrongLine, STEPS};
use crate::shown::json::{Fields, Json};
use bindings::{Firmware, Interrupt};

/// The fields that stand behind the file's name.
pub fn fields(recording: &Recording) -> Fields {
    let mailboxes = recording.touched().map(mailbox).collect();
    let bad_lines = recording.wrong.iter().map(bad_line).collect();
    vec![
        ("mailboxes", Json::List(mailboxes)),
        ("bad_lines", Json::List(bad_lines)),
        ("totals", totals(recording)),
    ]
}

/// One mailbox, and all that was asked of it.
fn mailbox(part: &Part) -> Json {
    let made = match part.made {
        None => "start",
        Some(made) if made.described => "described",
        Some(_) => "fresh",
    };
    let line = part.made.map(|made| made.line);
    let calls = calls(part).into_iter();
    let calls = calls.map(|(caller, row)| call(caller, row, part.outcome(caller, row)));
    let steps = STEPS.iter().zip(&part.steps);
    let steps = steps.map(|(name, taken)| step(name, taken));
    Json::Object(vec![
        ("made", Json::text(made)),
        ("line", Json::or_null(line, Json::Number)),
        ("calls", Json::List(calls.collect())),
        ("steps", Json::List(steps.collect())),
        ("firmware", firmware(&part.firmware())),
    ])
}

/// What all callers asked, each with its caller, in the order of the lines.
fn calls(part: &Part) -> Vec<(u32, &Row)> {
    let mut calls = Vec::new();
    for (caller, rows) in &part.callers {
        calls.extend(rows.iter().map(|row| (*caller, row)));
    }
    calls.sort_by_key(|(_, row)| row.line);
    calls
}

fn call(caller: u32, row: &Row, outcome: Outcome) -> Json {
    let (name, asked) = match row.asked {
        Asked::Post { command, data } => ("post", Some((command, data))),
        Asked::Take => ("take", None),
        Asked::Response => ("response", None),
    };
    let command = asked.map(|(command, _)| command);
    let data = asked.map(|(_, data)| data);
    let (told, refused, taken_on, word) = match outcome {
        Outcome::Refused(number) => ("refused", Some(number), None, None),
        Outcome::Taken { line, word } => ("taken", None, Some(line), Some(word)),
        Outcome::NotTaken(word) => ("not taken", None, None, Some(word)),
        Outcome::NotAnswered => ("not answered", None, None, None),
        Outcome::OutOfReach(number) => ("out of reach", Some(number), None, None),
    };
    let responded = word.and_then(response);
    let status = responded.as_ref().map(|response| response.status);
    Json::Object(vec![
        ("line", Json::Number(row.line)),
        ("caller", Json::Number(u64::from(caller))),
        ("call", Json::text(name)),
        ("command", number(command)),
        ("command_name", text(command.and_then(command_name))),
        ("data", number(data)),
        ("outcome", Json::text(told)),
        ("refused", number(refused)),
        ("taken_on", number(taken_on)),
        ("word", number(word)),
        ("status", number(status)),
        ("status_name", text(status.and_then(status_name))),
        (
            "answer_data",
            number(responded.map(|response| response.data)),
        ),
    ])
}

fn step(name: &str, step: &Step) -> Json {
    let refused = step.refused.iter().map(|(line, number)| {
        Json::Object(vec![
            ("line", Json::Number(*line)),
            ("refused", Json::Number(*number)),
        ])
    });
    Json::Object(vec![
        ("step", Json::text(name)),
        ("asked", Json::Number(step.asked)),
        ("acted", Json::Number(step.acted)),
        ("refused", Json::List(refused.collect())),
    ])
}

fn firmware(firmware: &Firmware) -> Json {
    let held = firmware.held.map(number);
    let ids = (0..).zip(&firmware.interrupts);
    let kept = ids.filter_map(|(id, kept)| interrupt(id, kept));
    Json::Object(vec![
        ("interface", switch(firmware.interface)),
        ("held", Json::List(held.into())),
        ("descriptors", Json::List(kept.collect())),
    ])
}

/// What the firmware keeps for an ID, where it keeps anything.
fn interrupt(id: u64, kept: &Interrupt) -> Option<Json> {
    let is_kept = kept.delivery || kept.descriptor.is_some();
    let parts = kept.descriptor.into_iter().flatten();
    let parts = parts.map(|part| Json::Number(u64::from(part)));
    is_kept.then(|| {
        Json::Object(vec![
            ("id", Json::Number(id)),
            ("parts", Json::List(parts.collect())),
            ("delivery", switch(kept.delivery)),
        ])
    })
}

fn bad_line(wrong: &WrongLine) -> Json {
    Json::Object(vec![
        ("line", Json::Number(wrong.line)),
        ("reason", Json::text(wrong.reason.as_str())),
    ])
}

/// The counts over all mailboxes.
fn totals(recording: &Recording) -> Json {
    let mut counts = [0; 4];
    let [posts, taken, not_taken, refused] = &mut counts;
    for part in &recording.parts {
        for (caller, row) in calls(part) {
            *posts += u64::from(matches!(row.asked, Asked::Post { .. }));
            match part.outcome(caller, row) {
                Outcome::Refused(_) => *refused += 1,
                Outcome::Taken { .. } => *taken += 1,
                Outcome::NotTaken(_) => *not_taken += 1,
                Outcome::NotAnswered | Outcome::OutOfReach(_) => (),
            }
        }
        let of_steps = part.steps.iter().map(|step| step.refused.len() as u64);
        *refused += of_steps.sum::<u64>();
    }
    let names = ["posts", "taken", "not_taken", "refused"];
    let counted = names.into_iter().zip(counts.map(Json::Number));
    let mailboxes = recording.touched().count() as u64;
    let bad_lines = recording.wrong.len() as u64;
    let mut fields = vec![("mailboxes", Json::Number(mailboxes))];
    fields.extend(counted);
    fields.push(("bad_lines", Json::Number(bad_lines)));
    Json::Object(fields)
}

fn number(value: Option<impl Into<u64>>) -> Json {
    Json::or_null(value, |value| Json::Number(value.into()))
}

fn text(value: Option<&'static str>) -> Json {
    Json::or_null(value, Json::text)
}

/// Whether something is on.
fn switch(on: bool) -> Json {
    Json::text(if on { "on" } else { "off" })
}

#[cfg(test)]
mod tests {
    use super::*;

    fn told(script: &str) -> String {
        Json::Object(fields(&Recording::play(script.as_bytes()))).to_string()
    }

    #[test]
    fn a_post_stands_with_its_answer() {
        let text = told("post 1 0x81 0xffff\nload\nturn\nunload\ntake 1\n");
        let call = "{\"line\": 1, \"caller\": 1, \"call\": \"post\", \"command\": 129, \
                    \"command_name\": \"QUERY_ASP_PCIE_INTERFACE_STATUS\", \"data\": 65535, \"outcome\": \"taken\", \
                    \"refused\": null, \"taken_on\": 5, \"word\": 2155937793, \"status\": 0, \
                    \"status_name\": \"success\", \"answer_data\": 1}";
        assert!(text.contains(call), "{text}");
    }

    #[test]
    fn calls_stand_in_the_order_of_their_lines_and_every_outcome_has_its_word() {
        let text = told(
            "post 7 0x81 0\nload\nturn\nunload\npost 2 0x81 0\ntake 0\nmailbox-of - idle 3:5\ntake 3\n\
             mailbox-of 8:0:0 idle -\nload\nloads\n",
        );
        let places: Vec<usize> = [
            "\"caller\": 7, \"call\": \"post\"",
            "\"outcome\": \"not taken\"",
            "\"caller\": 2, \"call\": \"post\"",
            "\"outcome\": \"not answered\"",
            "\"caller\": 0, \"call\": \"take\"",
            "\"outcome\": \"refused\", \"refused\": 8",
            "\"caller\": 3, \"call\": \"response\"",
            "\"word\": 5, \"status\": null",
            "\"outcome\": \"out of reach\", \"refused\": 5",
            "\"acted\": 0,\n",
            "\"line\": 10, \"refused\": 5",
            "\"line\": 11, \"reason\": \"'loads' is not a call on the mailbox",
        ]
        .iter()
        .map(|part| text.find(part).unwrap_or_else(|| panic!("{part}: {text}")))
        .collect();
        assert!(places.windows(2).all(|two| two[0] < two[1]), "{text}");
        let totals = "\"totals\": {\"mailboxes\": 3, \"posts\": 3, \"taken\": 1, \"not_taken\": 1, \"refused\": 2, \"bad_lines\": 1}";
        assert!(text.contains(totals), "{text}");
    }

    #[test]
    fn nothing_asked_is_no_mailbox() {
        assert_eq!(
            told("firmware\n"),
            "{\"mailboxes\": [], \"bad_lines\": [], \"totals\": {\"mailboxes\": 0, \"posts\": 0, \"taken\": 0, \
             \"not_taken\": 0, \"refused\": 0, \"bad_lines\": 0}}"
        );
    }
}
