//! The tables, as lines of Markdown.

use crate::measure::{Quartiles, Rounds};
use crate::memory::{Peaks, Way};
use crate::rows::{Row, PROGRAMS};
use crate::stack::Depth;

/// The places of the programs in a row.
const LIBRARY: usize = 0;
const SECOND: usize = 1;
const PLAIN: usize = 2;

/// The head of the table of times.
pub fn times_head() -> String {
    format!(
        "| Row | n | {} | {} | {} | library / C | library / second |\n|---|---:|---:|---:|---:|---:|---:|",
        PROGRAMS[LIBRARY], PROGRAMS[SECOND], PROGRAMS[PLAIN]
    )
}

/// A line of the table of times.
pub fn times_line(row: &Row, n: usize, rounds: &Rounds) -> String {
    let times = |program| duration(rounds.times(program).median);
    format!(
        "| {} | {n} {} | {} | {} | {} | {} | {} |",
        row.what,
        row.counted,
        times(LIBRARY),
        times(SECOND),
        times(PLAIN),
        ratio(rounds.ratios(LIBRARY, PLAIN)),
        ratio(rounds.ratios(LIBRARY, SECOND)),
    )
}

/// The head of the table of growth.
pub fn growth_head() -> String {
    "| Row | n | library | its growth | plain C | its growth |\n|---|---|---|---|---|---|".into()
}

/// A line of the table of growth, for measurements of rising n.
pub fn growth_line(row: &Row, measured: &[(usize, Rounds)]) -> String {
    let counts: Vec<String> = measured.iter().map(|(n, _)| n.to_string()).collect();
    let column = |program| {
        let medians: Vec<f64> = measured
            .iter()
            .map(|(_, rounds)| rounds.times(program).median)
            .collect();
        let times: Vec<String> = medians.iter().map(|time| duration(*time)).collect();
        let growth: Vec<String> = medians
            .windows(2)
            .map(|pair| format!("×{}", significant(pair[1] / pair[0])))
            .collect();
        format!("{} | {}", times.join(", "), growth.join(", "))
    };
    format!(
        "| {} | {} {} | {} | {} |",
        row.what,
        counts.join(", "),
        row.counted,
        column(LIBRARY),
        column(PLAIN)
    )
}

/// The head of the table of memory.
pub fn memory_head() -> String {
    "| The tool's peak | image | peak | image | peak | more image | more memory |\n|---|---:|---:|---:|---:|---:|---:|".into()
}

/// A line of the table of memory.
pub fn memory_line(way: &Way, peaks: &Peaks) -> String {
    let (memory, image) = peaks.more();
    format!(
        "| {} | {} KiB | {} KiB | {} KiB | {} KiB | {image} KiB | {memory} KiB |",
        way.name, peaks.lengths[0], peaks.peaks[0], peaks.lengths[1], peaks.peaks[1]
    )
}

/// The head of the table of stack.
pub fn stack_head() -> String {
    "| Call | given | stack |\n|---|---|---:|".into()
}

/// A line of the table of stack.
pub fn stack_line(depth: &Depth) -> String {
    format!(
        "| `{}` | {} | {} bytes |",
        depth.call, depth.given, depth.bytes
    )
}

/// A ratio's median, with its quartiles.
fn ratio(ratios: Quartiles) -> String {
    format!(
        "{:.2} ({:.2} to {:.2})",
        ratios.median, ratios.lower, ratios.upper
    )
}

/// Nanoseconds in a unit that people read.
fn duration(nanoseconds: f64) -> String {
    let units = [(1e9, "s"), (1e6, "ms"), (1e3, "µs")];
    match units.iter().find(|(unit, _)| nanoseconds >= *unit) {
        Some((unit, name)) => format!("{} {name}", significant(nanoseconds / unit)),
        None => format!("{} ns", significant(nanoseconds)),
    }
}

/// A number with about three digits that count.
fn significant(number: f64) -> String {
    match number {
        _ if number >= 100.0 => format!("{number:.0}"),
        _ if number >= 10.0 => format!("{number:.1}"),
        _ => format!("{number:.2}"),
    }
}

#[cfg(test)]
mod tests {
    use super::*;
    use crate::rows::row_named;

    #[test]
    fn durations_have_a_unit_and_three_digits() {
        let told: Vec<String> = [7.0, 999.0, 1000.0, 12_345.0, 123_456_789.0, 2e9]
            .iter()
            .map(|time| duration(*time))
            .collect();
        assert_eq!(
            told,
            ["7.00 ns", "999 ns", "1.00 µs", "12.3 µs", "123 ms", "2.00 s"]
        );
    }

    #[test]
    fn a_line_has_medians_and_ratios() {
        let row = row_named("checksum").expect("there is such a row");
        let rounds = Rounds(vec![[4000.0, 2000.0, 1000.0]; 3]);
        let line = times_line(row, 512, &rounds);
        assert_eq!(
            line,
            "| checksum of a directory | 512 entries | 4.00 µs | 2.00 µs | 1.00 µs | 4.00 (4.00 to 4.00) | 2.00 (2.00 to 2.00) |"
        );
        let doubled = Rounds(vec![[8000.0, 2000.0, 1500.0]; 3]);
        let line = growth_line(row, &[(8, rounds), (64, doubled)]);
        assert_eq!(
            line,
            "| checksum of a directory | 8, 64 entries | 4.00 µs, 8.00 µs | ×2.00 | 1.00 µs, 1.50 µs | ×1.50 |"
        );
    }
}
