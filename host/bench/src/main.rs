//! `bench`: the proved library beside the second program and beside a plain reading in C.

use bench::measure::{check, measure, Rounds};
use bench::memory::{self, WAYS};
use bench::report;
use bench::rows::{row_named, Row, PROGRAMS, ROWS};
use bench::stack;
use std::process::ExitCode;

const HELP: &str = "\
bench: the proved library beside the second program and a plain reading of document 01 in C, doing the same work in turn.

  bench [--rounds N] [--row NAME]...   four tables: memory, times and their ratios, growth, stack
  bench --stack                        the table of stack alone: how much each call of the library takes at its deepest
  bench --quick                        no times: every row once, to see that the three give the same answers
  bench --list                         for each row its name, a small n, and what is done
  bench --repeat NAME N PROGRAM TIMES  the work of one program, from 0 to 2, so many times, with nothing else

  --rounds N    how often each program is measured (21 where it is not given)
  --row NAME    a row to measure (all of them, the memory and the stack, where none is named)

The status is 0 where the three agree, 1 where they do not, 2 for a wrong word.";

/// What the command line asks for.
enum Wanted {
    Tables {
        rounds: usize,
        rows: Vec<&'static Row>,
    },
    Stack,
    Quick,
    List,
    Repeat {
        row: &'static Row,
        n: usize,
        program: usize,
        times: usize,
    },
}

fn main() -> ExitCode {
    let words: Vec<String> = std::env::args().skip(1).collect();
    if words == ["--help"] || words == ["-h"] {
        println!("{HELP}");
        return ExitCode::SUCCESS;
    }
    let done = match wanted(&words) {
        Ok(Wanted::Tables { rounds, rows }) => tables(rounds, &rows),
        Ok(Wanted::Stack) => stack_table(),
        Ok(Wanted::Quick) => return quick(),
        Ok(Wanted::List) => {
            list();
            Ok(())
        }
        Ok(Wanted::Repeat {
            row,
            n,
            program,
            times,
        }) => {
            let work = &mut (row.work)(n)[program];
            for _ in 0..times {
                work();
            }
            Ok(())
        }
        Err(wrong) => {
            eprintln!("bench: {wrong}. `bench --help` has the words.");
            return ExitCode::from(2);
        }
    };
    match done {
        Ok(()) => ExitCode::SUCCESS,
        Err(wrong) => {
            eprintln!("bench: {wrong}");
            ExitCode::from(1)
        }
    }
}

/// Reads the command line. The error is what is wrong with it.
fn wanted(words: &[String]) -> Result<Wanted, String> {
    let words: Vec<&str> = words.iter().map(String::as_str).collect();
    match words[..] {
        ["--stack"] => return Ok(Wanted::Stack),
        ["--quick"] => return Ok(Wanted::Quick),
        ["--list"] => return Ok(Wanted::List),
        ["--repeat", name, n, program, times] => {
            let program = number(program)?;
            if program >= PROGRAMS.len() {
                return Err(format!("there is no program {program}, but 0 to 2"));
            }
            return Ok(Wanted::Repeat {
                row: named(name)?,
                n: number(n)?,
                program,
                times: number(times)?,
            });
        }
        _ => (),
    }
    let (mut rounds, mut rows) = (21, Vec::new());
    let mut words = words.into_iter();
    while let Some(option) = words.next() {
        let value = words.next().ok_or(format!("{option:?} has no value"))?;
        match option {
            "--rounds" => rounds = number(value)?,
            "--row" => rows.push(named(value)?),
            _ => return Err(format!("there is no option {option:?}")),
        }
    }
    if rounds == 0 {
        return Err("no rounds measure nothing".into());
    }
    Ok(Wanted::Tables { rounds, rows })
}

fn named(name: &str) -> Result<&'static Row, String> {
    let names: Vec<&str> = ROWS.iter().map(|row| row.name).collect();
    row_named(name).ok_or(format!("there is no row {name:?}, but {names:?}"))
}

fn number(word: &str) -> Result<usize, String> {
    word.parse()
        .map_err(|_| format!("{word:?} is no number of at most 64 bits"))
}

fn list() {
    for row in ROWS {
        println!("{} {} {}", row.name, row.short, row.what);
    }
}

/// Every row once. The last line is 'N passed, M failed', counting rows.
fn quick() -> ExitCode {
    let mut failed = 0;
    for row in ROWS {
        match check(row, row.n) {
            Ok(_) => println!(
                "bench: {}: the same answers from {}",
                row.name,
                PROGRAMS.join(", ")
            ),
            Err(told) => {
                failed += 1;
                println!("bench: {told}");
            }
        }
    }
    println!("{} passed, {failed} failed", ROWS.len() - failed);
    ExitCode::from(u8::from(failed > 0))
}

/// The tables of the rows named, or of all rows, the memory and the stack.
fn tables(rounds: usize, named: &[&'static Row]) -> Result<(), String> {
    let all: Vec<&Row> = ROWS.iter().collect();
    let rows = if named.is_empty() { &all } else { named };
    // The memory first: a child's peak counts from what this program has when it starts one.
    if named.is_empty() {
        println!("{}", report::memory_head());
        for way in WAYS {
            println!("{}", report::memory_line(way, &memory::measure(way)?));
        }
        println!();
    }
    println!("{}", report::times_head());
    for row in rows {
        let measured = measured(row, row.n, rounds)?;
        println!("{}", report::times_line(row, row.n, &measured));
    }
    println!("\n{}", report::growth_head());
    for row in rows.iter().filter(|row| !row.growth.is_empty()) {
        let counts = row.growth.iter();
        let all: Result<Vec<(usize, Rounds)>, String> = counts
            .map(|n| Ok((*n, measured(row, *n, rounds)?)))
            .collect();
        println!("{}", report::growth_line(row, &all?));
    }
    // The stack last: from the first thread that is started on, an emulator orders every access to memory, and each takes longer.
    if named.is_empty() {
        println!();
        stack_table()?;
    }
    Ok(())
}

fn stack_table() -> Result<(), String> {
    let depths = stack::measure()?;
    println!("{}", report::stack_head());
    for depth in &depths {
        println!("{}", report::stack_line(depth));
    }
    Ok(())
}

/// Measures a row, and says so.
fn measured(row: &Row, n: usize, rounds: usize) -> Result<Rounds, String> {
    eprintln!("bench: {} with n = {n}", row.name);
    measure(row, n, rounds)
}

#[cfg(test)]
mod tests {
    use super::*;

    fn wanted_by(line: &str) -> Result<Wanted, String> {
        let words: Vec<String> = line.split_whitespace().map(String::from).collect();
        wanted(&words)
    }

    #[test]
    fn the_words_are_read() {
        match wanted_by("--rounds 7 --row checksum --row mailbox") {
            Ok(Wanted::Tables { rounds, rows }) => {
                let names: Vec<&str> = rows.iter().map(|row| row.name).collect();
                assert_eq!((rounds, names), (7, vec!["checksum", "mailbox"]));
            }
            _ => panic!("these words ask for tables"),
        }
        match wanted_by("--repeat extend 8 2 5") {
            Ok(Wanted::Repeat {
                row,
                n,
                program,
                times,
            }) => assert_eq!((row.name, n, program, times), ("extend", 8, 2, 5)),
            _ => panic!("these words ask to repeat a row's work"),
        }
        assert!(matches!(wanted_by("--stack"), Ok(Wanted::Stack)));
        assert!(matches!(wanted_by("--quick"), Ok(Wanted::Quick)));
        assert!(matches!(wanted_by("--list"), Ok(Wanted::List)));
    }

    #[test]
    fn wrong_words_are_told() {
        for line in [
            "--rounds",
            "--rounds x",
            "--rounds 0",
            "--row none",
            "--quick --list",
            "--stack --rounds 3",
            "--repeat checksum 8 3 1",
            "--repeat checksum 8",
            "7",
        ] {
            assert!(wanted_by(line).is_err(), "{line}");
        }
    }
}
