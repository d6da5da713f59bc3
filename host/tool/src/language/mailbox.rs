//! The mailbox: the one that the program keeps, the calls on it, and the state of the firmware behind it.

use super::call::Call;
use super::told::told;
use super::State;
use crate::arguments::lines::BadLine;
use crate::arguments::mailbox_calls::{self, asked_caller, asked_post, description};
use bindings::{Answer, Firmware, Mailbox};

pub static CALLS: [Call; 8] = [
    Call {
        form: mailbox_calls::FRESH,
        answer: fresh,
    },
    Call {
        form: mailbox_calls::DESCRIBED,
        answer: described,
    },
    Call {
        form: mailbox_calls::POST,
        answer: post,
    },
    Call {
        form: mailbox_calls::LOAD,
        answer: load,
    },
    Call {
        form: mailbox_calls::TURN,
        answer: turn,
    },
    Call {
        form: mailbox_calls::UNLOAD,
        answer: unload,
    },
    Call {
        form: mailbox_calls::TAKE,
        answer: take,
    },
    Call {
        form: mailbox_calls::FIRMWARE,
        answer: firmware,
    },
];

/// The mailbox that the program keeps, fresh when it starts.
pub struct Kept(Mailbox);

impl Default for Kept {
    fn default() -> Kept {
        Kept(Mailbox::fresh())
    }
}

fn fresh(state: &mut State, _: &[&[u8]]) -> Result<String, BadLine> {
    state.mailbox = Kept::default();
    Ok(String::from("ok"))
}

fn described(state: &mut State, words: &[&[u8]]) -> Result<String, BadLine> {
    state.mailbox = Kept(description(words)?.mailbox());
    Ok(String::from("ok"))
}

fn post(state: &mut State, words: &[&[u8]]) -> Result<String, BadLine> {
    let (caller, command, data) = asked_post(words)?;
    let answer = state.mailbox.0.post(caller, command, data);
    Ok(told(answer, |()| String::from("ok")))
}

fn load(state: &mut State, _: &[&[u8]]) -> Result<String, BadLine> {
    Ok(acted_told(state.mailbox.0.load()))
}

fn turn(state: &mut State, _: &[&[u8]]) -> Result<String, BadLine> {
    Ok(acted_told(state.mailbox.0.turn()))
}

fn unload(state: &mut State, _: &[&[u8]]) -> Result<String, BadLine> {
    Ok(acted_told(state.mailbox.0.unload()))
}

fn take(state: &mut State, words: &[&[u8]]) -> Result<String, BadLine> {
    let answer = state.mailbox.0.take(asked_caller(words)?);
    Ok(told(answer, |word| format!("ok word=0x{word:08x}")))
}

fn firmware(state: &mut State, _: &[&[u8]]) -> Result<String, BadLine> {
    Ok(firmware_told(&state.mailbox.0.firmware()))
}

/// Whether a load, a turn or an unload acted, as an answer tells it.
fn acted_told(answer: Answer<bool>) -> String {
    told(answer, |acted| {
        String::from(if acted { "yes" } else { "no" })
    })
}

/// The state of the firmware, as an answer tells it.
fn firmware_told(firmware: &Firmware) -> String {
    let interface = if firmware.interface { "on" } else { "off" };
    let held = firmware.held.map(|part| match part {
        Some(part) => format!("{part:#x}"),
        None => String::from("-"),
    });
    let ids = || firmware.interrupts.iter().enumerate();
    let saved = ids().filter_map(|(id, interrupt)| {
        let [one, two, three] = interrupt.descriptor?;
        Some(format!("{id}:{one:#x}:{two:#x}:{three:#x}"))
    });
    let delivery = ids().filter_map(|(id, interrupt)| interrupt.delivery.then(|| id.to_string()));
    format!(
        "ok interface={interface} held={} saved={} delivery={}",
        held.join(","),
        listed(saved),
        listed(delivery)
    )
}

/// Items parted by commas, with `-` for none.
fn listed(items: impl Iterator<Item = String>) -> String {
    let items: Vec<String> = items.collect();
    match items.is_empty() {
        true => String::from("-"),
        false => items.join(","),
    }
}

#[cfg(test)]
mod tests {
    use super::super::tests::{all_are_bad, answers_after};

    #[test]
    fn a_word_goes_round() {
        let calls =
            "load\npost 7 0x81 0xabcd\ntake 7\nload\nturn\ntake 7\nunload\nunload\npost 7 0 0\n\
                     take 7\ntake 7\n";
        let expected = [
            "no",
            "ok",
            "refused 11",
            "yes",
            "yes",
            "refused 11",
            "yes",
            "no",
            "refused 10",
            "ok word=0x80810001",
            "refused 8",
        ];
        assert_eq!(answers_after("", calls), expected);
    }

    #[test]
    fn a_word_has_all_its_digits() {
        let calls = "mailbox-of - idle 3:0x42,4:0xffffffff\ntake 3\ntake 4\n";
        let expected = ["ok", "ok word=0x00000042", "ok word=0xffffffff"];
        assert_eq!(answers_after("", calls), expected);
    }

    #[test]
    fn the_state_of_the_firmware_is_told() {
        let command = |word: u32| {
            let (command, data) = (word >> 16, word & 0xFFFF);
            format!("post 0 {command} {data}\nload\nturn\nunload\ntake 0\n")
        };
        let asked = |words: &[u32]| {
            let calls: String = words.iter().map(|word| command(*word)).collect();
            let mut answers = answers_after("", &(calls + "firmware\n"));
            answers.pop().unwrap()
        };
        let fresh = "ok interface=on held=-,-,- saved=- delivery=-";
        assert_eq!(asked(&[]), fresh);
        let held = "ok interface=on held=-,0x0,0xffff saved=- delivery=-";
        assert_eq!(asked(&[0x0083_0000, 0x0084_FFFF]), held);
        let mut words = vec![0x0080_0000];
        for id in [10, 2] {
            words.extend([0x0082_0001, 0x0083_0000, 0x0084_0000 | id << 10]);
            words.push(0x0085_0001 | id << 10);
        }
        let saved =
            "ok interface=off held=-,-,- saved=2:0x1:0x0:0x800,10:0x1:0x0:0x2800 delivery=2,10";
        assert_eq!(asked(&words), saved);
    }

    #[test]
    fn a_mailbox_is_as_it_is_described() {
        let calls = "mailbox-of 3:0x80:1,0:0x81:2 response:5:0x80850000 7:9\nload\nunload\ntake 5\ntake 7\n\
                     take 3\ntake 1\nload\nturn\nfirmware\nmailbox\nfirmware\ntake 3\n";
        let expected = [
            "ok",
            "no",
            "yes",
            "ok word=0x80850000",
            "ok word=0x00000009",
            "refused 11",
            "refused 8",
            "yes",
            "yes",
            "ok interface=off held=-,-,- saved=- delivery=-",
            "ok",
            "ok interface=on held=-,-,- saved=- delivery=-",
            "refused 8",
        ];
        assert_eq!(answers_after("", calls), expected);
    }

    #[test]
    fn a_mailbox_that_breaks_the_rules_can_be_described() {
        for described in [
            "8:0:0 idle -",
            "255:65535:65535 idle -",
            "0:0x400:0 idle -",
            "0:0:0,0:0:0 idle -",
            "0:0:0 command:0:0 -",
            "0:0:0 idle 0:1",
            "- command:8:0 -",
            "- command:0:0x04000000 -",
            "- response:255:0 -",
            "- response:1:0 1:0",
        ] {
            let call = format!("mailbox-of {described}\n");
            let answers = answers_after(&call, "take 9\nfirmware\nload\n");
            let state = "ok interface=on held=-,-,- saved=- delivery=-";
            assert_eq!(answers, ["refused 5", state, "refused 5"], "{described}");
        }
    }

    #[test]
    fn what_is_no_mailbox_is_a_bad_line() {
        let lines = [
            "mailbox-of - idle",
            "mailbox-of 0:0 idle -",
            "mailbox-of 0:0:0:0 idle -",
            "mailbox-of 0:0:0, idle -",
            "mailbox-of ,0:0:0 idle -",
            "mailbox-of , idle -",
            "mailbox-of -,0:0:0 idle -",
            "mailbox-of 256:0:0 idle -",
            "mailbox-of 0:65536:0 idle -",
            "mailbox-of 0:0:65536 idle -",
            "mailbox-of 0:0:0,1:0:0,2:0:0,3:0:0,4:0:0,5:0:0,6:0:0,7:0:0,8:0:0 idle -",
            "mailbox-of - - -",
            "mailbox-of - Idle -",
            "mailbox-of - idle: -",
            "mailbox-of - command -",
            "mailbox-of - command:0 -",
            "mailbox-of - command:256:0 -",
            "mailbox-of - command:0:0x100000000 -",
            "mailbox-of - reply:0:0 -",
            "mailbox-of - response:0:0:0 -",
            "mailbox-of - idle 8:0",
            "mailbox-of - idle 0:0,0:0",
            "mailbox-of - idle 0",
            "mailbox-of - idle 0:0x100000000",
            "mailbox-of - idle 0:0,",
            "mailbox a",
            "post 0 0",
            "post 0x100000000 0 0",
            "post 0 0x100000000 0",
            "post 0 0 0x10000",
            "load 0",
            "take",
            "take 0x100000000",
            "firmware a",
        ];
        all_are_bad("buffer a 1\n", &lines);
    }

    #[test]
    fn a_bad_line_keeps_the_mailbox() {
        let calls = "mailbox-of - idle 3:4\nmailbox-of - idle 3:4,3:4\ntake 3\n";
        let answers = answers_after("", calls);
        assert_eq!(answers[2], "ok word=0x00000004");
    }
}
