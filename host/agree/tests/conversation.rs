//! A program holds a conversation over a pipe: each answer comes before the next line is sent.

use agree::cases;
use agree::programs::Program;
use std::io::{BufRead, BufReader, Write};
use std::process::Stdio;
use std::sync::mpsc;
use std::thread;
use std::time::Duration;

const CONVERSATION: [(&str, &str); 6] = [
    ("buffer a 3 0x41\n", "ok length=3"),
    ("show a 0 3\n", "bytes 414141"),
    ("# a comment has no answer\n\n  \nnonsense\n", "bad line"),
    ("patch a 1 00\n", "ok"),
    ("show a 0 3 # and a comment after it\r\n", "bytes 410041"),
    ("digest a\n", "digest length=3 fnv=0xfb029819a1274a3f"),
];

#[test]
fn the_tool_holds_a_conversation() {
    converse_with(&Program::tool());
}

#[test]
fn the_second_program_holds_a_conversation() {
    converse_with(&Program::second());
}

fn converse_with(program: &Program) {
    let mut child = program
        .command(&cases::folder())
        .stdin(Stdio::piped())
        .stdout(Stdio::piped())
        .spawn()
        .expect("the program starts");
    let mut calls = child.stdin.take().unwrap();
    let answers = BufReader::new(child.stdout.take().unwrap());
    let (sender, receiver) = mpsc::channel();
    // A program that keeps its answers back would have both sides wait for ever.
    thread::spawn(move || {
        for line in answers.lines().map_while(Result::ok) {
            drop(sender.send(line));
        }
    });
    for (call, expected) in CONVERSATION {
        calls.write_all(call.as_bytes()).unwrap();
        match receiver.recv_timeout(Duration::from_secs(60)) {
            Ok(answer) if expected == "bad line" => assert!(answer.starts_with("bad line: ")),
            Ok(answer) => assert_eq!(answer, expected, "to {call:?}"),
            Err(_) => {
                drop(child.kill());
                panic!("{} keeps its answer to {call:?} back", program.name);
            }
        }
    }
    drop(calls);
    let status = child.wait().unwrap();
    assert_eq!(status.code(), Some(1), "a line was bad");
}
