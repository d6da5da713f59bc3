//! `kpalumere check` as auditors start it: recorded answers that are those of the library and that are not, the recorded cases joined
//! to such files, whose word a caller of the mailbox took, its messages and its statuses.

use agree::cases::{self, Case};
use agree::compare::{answers_of, calls_of};
use agree::programs::{run, Program};
use agree::workplace::{Outcome, Workplace};

/// Checks a text that comes over standard input, in the folder of the cases.
fn check(text: &[u8]) -> Outcome {
    let mut command = Program::tool_as_people_start_it().command(&cases::folder());
    command.args(["check", "-"]);
    Outcome::of(run(command, text))
}

/// The calls of a case, without their comments, each with its recorded answer.
fn calls_and_answers(case: &Case) -> Vec<(Vec<u8>, Vec<u8>)> {
    let answers = answers_of(&case.answers);
    let calls: Vec<Vec<u8>> = calls_of(&case.script)
        .map(|(_, call)| {
            let comment = call.iter().position(|&byte| byte == b'#');
            call[..comment.unwrap_or(call.len())].to_vec()
        })
        .collect();
    assert_eq!(calls.len(), answers.len(), "{}", case.name);
    calls.into_iter().zip(answers).collect()
}

/// Calls and answers as `check` reads them, on a line each.
fn joined(recorded: &[(Vec<u8>, Vec<u8>)]) -> Vec<u8> {
    let line = |(call, answer): &(Vec<u8>, Vec<u8>)| [call, &b" => "[..], answer, b"\n"].concat();
    recorded.iter().flat_map(line).collect()
}

/// Cases of every subject, and of the language itself.
const CASES: [&str; 14] = [
    "images/machine-5-thirteenth-of-twelve",
    "images/machine-6-two-programs",
    "images/refused-18-repeated",
    "aspt",
    "build",
    "files",
    "flash-find",
    "guids",
    "hex",
    "line-ends",
    "lines",
    "mailbox-story",
    "strange-bytes",
    "view",
];

#[test]
fn recorded_cases_are_answered_as_recorded_and_one_change_is_seen() {
    let all = cases::all().expect("the cases can be read");
    for name in CASES {
        let case = all.iter().find(|case| case.name == name).expect(name);
        let mut recorded = calls_and_answers(case);
        let amount = recorded.len();
        check(&joined(&recorded)).expect(0, &format!("{amount} answers checked, 0 differ\n"));
        // Another answer in the middle: it alone is shown.
        let middle = amount / 2;
        recorded[middle].1 = b"another answer".to_vec();
        let outcome = check(&joined(&recorded));
        assert_eq!(outcome.status, Some(1), "{name}: {outcome:?}");
        let shown: Vec<&str> = outcome.wrote.lines().collect();
        let begins = format!("line {}: ", middle + 1);
        assert!(shown[0].starts_with(&begins), "{name}: {shown:?}");
        assert_eq!(shown[1], "  expected  another answer", "{name}");
        assert!(shown[2].starts_with("  given     "), "{name}: {shown:?}");
        let last = format!("{amount} answers checked, 1 differ");
        assert_eq!(shown[3..], [last.as_str()], "{name}");
    }
}

#[test]
fn what_differs_is_shown_with_its_line() {
    let text = "# set up\nbuffer a 4\n\npost 3 0x81 0 => ok\npost 3 0x81 0   =>   ok # wrong\nshow a 0 4 => bytes 00000000\n\
                digest a => digest length=4\n";
    check(text.as_bytes()).expect(
        1,
        "line 5: post 3 0x81 0\n  expected  ok\n  given     refused 10\n\
         line 7: digest a\n  expected  digest length=4\n  given     digest length=4 fnv=0x4d25767f9dce13f5\n\
         4 answers checked, 2 differ\n",
    );
}

#[test]
fn bad_lines_are_compared_and_told() {
    check(b"bufer a 4 => bad line\nbufer a 4 => bad line: for another reason\n")
        .expect(0, "2 answers checked, 0 differ\n");
    let outcome = check(b"buffer a 4 => bad line\nbufer a 4 => ok length=4\nshow a 0 9\n=> ok\n");
    outcome.expect(
        1,
        "line 1: buffer a 4\n  expected  bad line\n  given     ok length=4\n\
         line 2: bufer a 4\n  expected  ok length=4\n  \
         given     bad line: line 2: 'bufer' is not a call; `kpalumere ask --help` lists the calls\n\
         line 3: show a 0 9\n  expected  a call\n  given     bad line: line 3: 9 bytes from 0 on do not lie in the buffer, \
         which has 4; ask for bytes that do\n\
         line 4: \n  expected  ok\n  given     bad line: line 4: it has no call; `kpalumere ask --help` lists the calls\n\
         4 answers checked, 4 differ\n",
    );
}

#[test]
fn line_ends_comments_and_white_space_change_nothing() {
    let text = b"\r\n# only a comment\r\n\tbuffer\ta  4\t=>  ok\tlength=4 \r\n  # another => ok\nload=> no\r\n";
    let outcome = check(text);
    assert_eq!(outcome.status, Some(1));
    assert!(outcome
        .wrote
        .starts_with("line 5: load=> no\n  expected  a call\n"));
    assert!(outcome.wrote.ends_with("2 answers checked, 1 differ\n"));
    // The last line may lack its end.
    check(b"buffer a 4 => ok length=4").expect(0, "1 answers checked, 0 differ\n");
    check(b"").expect(0, "0 answers checked, 0 differ\n");
}

#[test]
fn a_line_may_be_long() {
    let (length, zeros) = (200_000, "0".repeat(400_000));
    let text = format!(
        "buffer a {length}\npatch a 0 {zeros} => ok\nshow a 0 {length} => bytes {zeros}\nshow a 0 {length} => bytes {}1\n",
        &zeros[1..]
    );
    let outcome = check(text.as_bytes());
    let shown: Vec<&str> = outcome.wrote.lines().collect();
    let zeros = &zeros[..40];
    let expected = [
        format!("line 4: show a 0 {length}"),
        format!("  expected  ...{zeros}1"),
        format!("  given     ...{zeros}0"),
        String::from("3 answers checked, 1 differ"),
    ];
    assert_eq!(shown, expected);
}

/// Two callers ask, and both words lie ready.
const TWO_ASK: &str =
    "post 3 0x81 0 => ok\npost 5 0x80 5 => ok\nload\nturn\nunload\nload\nturn\nunload\n";

#[test]
fn whose_word_a_caller_took_is_told() {
    let text = format!("{TWO_ASK}take 3 => ok word=0x80800005\ntake 5 => ok word=0x80810001\n");
    check(text.as_bytes()).expect(
        1,
        "line 9: take 3\n  expected  ok word=0x80800005\n  given     ok word=0x80810001\n  \
         0x80800005 is the answer to caller 5's post on line 2\n\
         line 10: take 5\n  expected  ok word=0x80810001\n  given     ok word=0x80800005\n  \
         0x80810001 is the answer to caller 3's post on line 1\n\
         4 answers checked, 2 differ\n",
    );
    // The other's word, before it is taken and where the library gives none; and one that nobody was given.
    let text = "post 5 0x80 5\nload\nturn\nunload\ntake 3 => ok word=0x80800005\ntake 3 => ok word=0x80800006\n";
    check(text.as_bytes()).expect(
        1,
        "line 5: take 3\n  expected  ok word=0x80800005\n  given     refused 8\n  \
         0x80800005 is the answer to caller 5's post on line 1\n\
         line 6: take 3\n  expected  ok word=0x80800006\n  given     refused 8\n  \
         0x80800006 is the answer to no post of this mailbox\n\
         2 answers checked, 2 differ\n",
    );
}

#[test]
fn words_of_another_mailbox_are_not_this_ones() {
    let text = format!("{TWO_ASK}mailbox\ntake 3 => ok word=0x80800005\n");
    let outcome = check(text.as_bytes());
    let told = "\n  0x80800005 is the answer to no post of this mailbox\n";
    assert!(outcome.wrote.contains(told), "{outcome:?}");
}

#[test]
fn a_file_is_read_by_its_name_and_one_that_is_not_there_is_told() {
    let place = Workplace::new("check");
    place.put("calls.check", "load => no\n");
    place
        .tool(&["check", "calls.check"])
        .expect(0, "1 answers checked, 0 differ\n");
    for name in ["none.check", "."] {
        let outcome = place.tool(&["check", name]);
        assert_eq!((outcome.status, outcome.wrote.as_str()), (Some(3), ""));
        let begins = format!("kpalumere: \"{name}\" cannot be read: ");
        assert!(outcome.said.starts_with(&begins), "{outcome:?}");
        assert!(outcome.said.contains("Name a file of calls and answers"));
    }
}

#[test]
fn wrong_words_end_with_2() {
    let place = Workplace::new("check-words");
    for words in [
        &["check"][..],
        &["check", "a", "b"],
        &["check", "--all", "a"],
    ] {
        let outcome = place.tool(words);
        assert_eq!((outcome.status, outcome.wrote.as_str()), (Some(2), ""));
        assert!(
            outcome.said.contains("kpalumere check --help"),
            "{outcome:?}"
        );
    }
}
