//! The clock, the rounds in which the three programs take turns, and the middle of what was measured.

use crate::rows::{Row, Work, PROGRAMS};

/// How much processor time a sample takes at least.
const SAMPLE: u64 = 4_000_000;

#[repr(C)]
struct TimeSpec {
    seconds: i64,
    nanoseconds: i64,
}

extern "C" {
    fn clock_gettime(clock: i32, time: *mut TimeSpec) -> i32;
}

/// Linux's number for the clock that counts the processor time of the process.
const PROCESS_TIME: i32 = 2;

/// The processor time that this process has taken, in nanoseconds: what other programs take meanwhile is not in it.
pub fn processor_time() -> u64 {
    let mut time = TimeSpec {
        seconds: 0,
        nanoseconds: 0,
    };
    // SAFETY: the call writes the time, whose form is that of the C library on x86-64.
    let status = unsafe { clock_gettime(PROCESS_TIME, &mut time) };
    assert_eq!(status, 0, "Linux has a clock for processor time");
    time.seconds as u64 * 1_000_000_000 + time.nanoseconds as u64
}

/// What the programs took, in nanoseconds for one piece of work, round by round.
pub struct Rounds(pub Vec<[f64; 3]>);

/// The quartiles of some numbers.
#[derive(Clone, Copy, Debug, PartialEq)]
pub struct Quartiles {
    pub lower: f64,
    pub median: f64,
    pub upper: f64,
}

impl Quartiles {
    /// Those of at least one number, by the nearest rank.
    pub fn of(mut numbers: Vec<f64>) -> Quartiles {
        numbers.sort_by(f64::total_cmp);
        let last = numbers.len() - 1;
        let at = |quarters: usize| numbers[(last * quarters + 2) / 4];
        Quartiles {
            lower: at(1),
            median: at(2),
            upper: at(3),
        }
    }
}

impl Rounds {
    /// What a program took.
    pub fn times(&self, program: usize) -> Quartiles {
        Quartiles::of(self.0.iter().map(|round| round[program]).collect())
    }

    /// How many times as long as another a program took, round by round: a machine that is slow for a while is slow for both.
    pub fn ratios(&self, program: usize, other: usize) -> Quartiles {
        let ratio = |round: &[f64; 3]| round[program] / round[other];
        Quartiles::of(self.0.iter().map(ratio).collect())
    }
}

/// The programs do the work of a row once each. The error tells how their answers differ.
pub fn check(row: &Row, n: usize) -> Result<[Work; 3], String> {
    let mut work = (row.work)(n);
    // Where a piece of work leaves something behind, the next one starts from it: so it is done more than once.
    for _ in 0..3 {
        let answers = [0, 1, 2].map(|program| work[program]());
        if answers.iter().any(|answer| *answer != answers[0]) {
            let told: Vec<String> = PROGRAMS
                .iter()
                .zip(answers)
                .map(|(name, answer)| format!("{name} 0x{answer:x}"))
                .collect();
            return Err(format!(
                "{} with n = {n}: the answers differ, folded to {}",
                row.name,
                told.join(", ")
            ));
        }
    }
    Ok(work)
}

/// Measures a row: the programs take turns, and each begins as often as the others.
pub fn measure(row: &Row, n: usize, rounds: usize) -> Result<Rounds, String> {
    let mut work = check(row, n)?;
    let times = [0, 1, 2].map(|program| times_for_a_sample(&mut work[program]));
    let mut measured = Vec::with_capacity(rounds);
    for round in 0..rounds {
        let mut took = [0.0; 3];
        for turn in 0..3 {
            let program = (round + turn) % 3;
            took[program] = time(&mut work[program], times[program]) as f64 / times[program] as f64;
        }
        measured.push(took);
    }
    Ok(Rounds(measured))
}

/// How often a piece of work is done for one sample.
fn times_for_a_sample(work: &mut Work) -> u64 {
    let mut times = 1;
    while time(work, times) < SAMPLE {
        times *= 2;
    }
    times
}

/// The processor time of doing a piece of work so many times.
fn time(work: &mut Work, times: u64) -> u64 {
    let began = processor_time();
    for _ in 0..times {
        // The programs stand in other crates and in C, so that no call of them can be left out.
        work();
    }
    processor_time() - began
}

#[cfg(test)]
mod tests {
    use super::*;

    #[test]
    fn quartiles_are_those_of_the_sorted_numbers() {
        let of = |numbers: &[f64]| {
            let found = Quartiles::of(numbers.to_vec());
            (found.lower, found.median, found.upper)
        };
        assert_eq!(of(&[5.0, 1.0, 4.0, 2.0, 3.0]), (2.0, 3.0, 4.0));
        assert_eq!(of(&[7.0]), (7.0, 7.0, 7.0));
        assert_eq!(of(&[2.0, 1.0]), (1.0, 2.0, 2.0));
    }

    #[test]
    fn ratios_are_taken_round_by_round() {
        let rounds = Rounds(vec![[2.0, 1.0, 1.0], [40.0, 10.0, 5.0], [6.0, 1.0, 3.0]]);
        assert_eq!(rounds.ratios(0, 2).median, 2.0);
        assert_eq!(rounds.times(0).median, 6.0);
    }

    #[test]
    fn processor_time_does_not_run_backwards() {
        let first = processor_time();
        let mut sum = 0u64;
        while processor_time() == first {
            sum = sum.wrapping_add(1);
        }
        assert!(processor_time() > first);
    }

    #[test]
    fn answers_that_differ_are_told() {
        let row = Row {
            name: "odd",
            what: "",
            counted: "",
            n: 1,
            growth: &[],
            short: 1,
            work: |_| {
                let mut calls = 0;
                let third = move || {
                    calls += 1;
                    u64::from(calls == 3)
                };
                [Box::new(|| 0), Box::new(|| 0), Box::new(third)]
            },
        };
        let told = check(&row, 1).err().expect("the third answer differs");
        assert!(
            told.contains("odd") && told.contains("plain C 0x1"),
            "{told}"
        );
    }
}
