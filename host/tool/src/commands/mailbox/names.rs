//! The names that people give to commands, statuses and refusals.

use crate::shown::refusals;
use bindings::Refusal;

/// A command with the name that source 000 gives it: `0x81 QUERY_ASP_PCIE_INTERFACE_STATUS`.
pub fn command(code: u32) -> String {
    format!(
        "{code:#x} {}",
        command_name(code).unwrap_or("unnamed command")
    )
}

/// The name that source 000 gives a command, where it gives one.
pub fn command_name(code: u32) -> Option<&'static str> {
    match code {
        0x80 => Some("DISABLE_ASP_PCIE_INTERFACE"),
        0x81 => Some("QUERY_ASP_PCIE_INTERFACE_STATUS"),
        0x82 => Some("SET_ASP_INTERRUPT_DESCRIPTOR_PART1"),
        0x83 => Some("SET_ASP_INTERRUPT_DESCRIPTOR_PART2"),
        0x84 => Some("SET_ASP_INTERRUPT_DESCRIPTOR_PART3"),
        0x85 => Some("ENABLE_ASP_INTERRUPT_DELIVERY"),
        _ => None,
    }
}

/// A response: the status in bits 30:26 of a word of the register, and the data in bits 15:0.
pub struct Response {
    pub status: u64,
    pub data: u64,
}

/// The response that a word of the register is, where its bit 31 is set.
pub fn response(word: u64) -> Option<Response> {
    (word >> 31 & 1 == 1).then_some(Response {
        status: word >> 26 & 31,
        data: word & 0xFFFF,
    })
}

/// A word of the register as people read it.
pub fn word(word: u64) -> String {
    match response(word) {
        Some(Response { status, data }) => format!(
            "0x{word:08x}: status {status:#x} {}, data {data:#06x}",
            status_name(status).unwrap_or("unnamed status")
        ),
        None => format!("0x{word:08x}: no response, for bit 31 is not set"),
    }
}

/// The name that source 000 gives a status, in words, where it gives one.
pub fn status_name(code: u64) -> Option<&'static str> {
    match code {
        0 => Some("success"),
        1 => Some("invalid command"),
        2 => Some("invalid parameter"),
        3 => Some("invalid firmware state"),
        0x1F => Some("command failure"),
        _ => None,
    }
}

/// A refusal with the rule of document 01 that it is given for.
pub fn refusal(number: u64) -> String {
    let rule = match number {
        Refusal::FIELD => "the mailbox breaks its own rules",
        Refusal::ABSENT => "this caller has no post outstanding",
        Refusal::RANGE => "callers are 0 to 7, and commands at most 0x3ff",
        Refusal::OUTSTANDING => "this caller's last post is not taken yet",
        _ => refusals::title(number),
    };
    refusals::numbered(number, rule)
}

#[cfg(test)]
mod tests {
    use super::*;

    #[test]
    fn the_six_commands_have_names_and_no_other() {
        let named: Vec<u32> = (0..0x1000)
            .filter(|code| command_name(*code).is_some())
            .collect();
        assert_eq!(named, [0x80, 0x81, 0x82, 0x83, 0x84, 0x85]);
    }

    #[test]
    fn words_are_told_with_their_status() {
        for (of, told) in [
            (0x8081_0001, "0x80810001: status 0x0 success, data 0x0001"),
            (
                0x8486_0000,
                "0x84860000: status 0x1 invalid command, data 0x0000",
            ),
            (
                0x8885_0401,
                "0x88850401: status 0x2 invalid parameter, data 0x0401",
            ),
            (
                0x8C85_0401,
                "0x8c850401: status 0x3 invalid firmware state, data 0x0401",
            ),
            (
                0xFC85_0403,
                "0xfc850403: status 0x1f command failure, data 0x0403",
            ),
            (0x42, "0x00000042: no response, for bit 31 is not set"),
        ] {
            assert_eq!(word(of), told);
        }
        assert!(word(0x9000_0000).contains("status 0x4 unnamed status"));
    }

    #[test]
    fn refusals_keep_their_number() {
        assert_eq!(
            refusal(Refusal::EARLY),
            "refused 11: answer is not there yet"
        );
        assert_eq!(refusal(99), "refused 99: no number of document 01");
    }
}
