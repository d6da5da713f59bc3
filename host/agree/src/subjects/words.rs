//! Words for random calls, in every form that the language allows.

use crate::random::Random;

/// A number in one of its forms: decimal or hexadecimal, of either case, with or without leading zeros.
pub fn number(random: &mut Random, value: u64) -> String {
    let zeros = match random.below(8) {
        0 => "0".repeat(1 + random.below(20) as usize),
        _ => String::new(),
    };
    match random.below(4) {
        0 | 1 => format!("{zeros}{value}"),
        2 => format!("0x{zeros}{value:x}"),
        _ => format!("0x{zeros}{value:X}"),
    }
}

/// Bytes as a HEX word, in either case.
pub fn hex(random: &mut Random, bytes: &[u8]) -> String {
    if bytes.is_empty() {
        return "-".to_string();
    }
    let digits: &[u8; 16] = match random.once_in(4) {
        true => b"0123456789ABCDEF",
        false => b"0123456789abcdef",
    };
    let digit = |value: u8| char::from(digits[usize::from(value)]);
    bytes
        .iter()
        .flat_map(|byte| [digit(byte >> 4), digit(byte & 15)])
        .collect()
}

/// A number near a limit: below it, at it, a little above it, or far away.
pub fn near(random: &mut Random, limit: u64) -> u64 {
    match random.below(8) {
        0 => limit,
        1 => limit.saturating_add(1 + random.below(4)),
        2 => limit.saturating_sub(1 + random.below(4)),
        3 if random.once_in(4) => u64::MAX - random.below(4),
        _ => random.below(limit.saturating_add(1).max(1)),
    }
}
