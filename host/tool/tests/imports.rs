//! The modules of the tool stand in folders, one above the other. An import goes down this list and never up, and a command
//! imports no other command.

use std::fs;
use std::path::{Path, PathBuf};

/// The folders of src/, from the highest on. Above them all is main.rs, which may import any.
const FOLDERS: [&str; 6] = [
    "commands",
    "language",
    "samples",
    "shown",
    "arguments",
    "system",
];

/// Something that a source file names which it may not, and the line that does.
#[derive(Debug, PartialEq, Eq)]
struct Fault {
    line: usize,
    path: String,
}

/// A word or a sign of Rust, and the line that it stands on.
struct Token<'a> {
    line: usize,
    text: &'a str,
}

/// The words and signs of a source file, without its comments. `::` is one sign.
fn tokens_of(text: &str) -> Vec<Token<'_>> {
    let is_word = |c: char| c.is_alphanumeric() || c == '_';
    let mut tokens = Vec::new();
    for (line, text) in (1..).zip(text.lines()) {
        let mut rest = text.split("//").next().unwrap_or_default().trim_start();
        while let Some(first) = rest.chars().next() {
            let length = match first {
                _ if is_word(first) => rest.find(|c| !is_word(c)).unwrap_or(rest.len()),
                ':' if rest.starts_with("::") => 2,
                _ => first.len_utf8(),
            };
            let text = &rest[..length];
            tokens.push(Token { line, text });
            rest = rest[length..].trim_start();
        }
    }
    tokens
}

/// The module that a source file is: `commands/ask/mod.rs` is `commands`, `ask`.
fn module_of(file: &str) -> Vec<&str> {
    let name = file.trim_end_matches(".rs").trim_end_matches("/mod");
    match name {
        "main" => Vec::new(),
        name => name.split('/').collect(),
    }
}

/// The paths that go on from a token, which stands behind a `::` or at the start of a group: one, or one for each item of the
/// group. Each begins with what stands before it.
fn paths_from(tokens: &[Token], at: usize, before: &[String]) -> (Vec<Vec<String>>, usize) {
    let text = |at: usize| tokens.get(at).map_or("", |token| token.text);
    if text(at) == "{" {
        let (mut paths, mut at) = (Vec::new(), at + 1);
        while !matches!(text(at), "}" | "") {
            let (more, end) = paths_from(tokens, at, before);
            paths.extend(more);
            // Behind an item may stand `as NAME`.
            at = (end..)
                .find(|at| matches!(text(*at), "," | "}" | ""))
                .unwrap_or(end);
            at += usize::from(text(at) == ",");
        }
        return (paths, at + 1);
    }
    let mut path = before.to_vec();
    match text(at) {
        "super" => drop(path.pop()),
        "self" => (),
        name => path.push(name.to_string()),
    }
    match text(at + 1) {
        "::" => paths_from(tokens, at + 2, &path),
        _ => (vec![path], at + 1),
    }
}

/// Whether a module may name what a path from the crate's root leads to, which it wrote from that root on or from its own place.
fn may_name(module: &[&str], path: &[String], from_root: bool) -> bool {
    let rank = |folder: &str| FOLDERS.iter().position(|known| *known == folder);
    let own = match module.first() {
        Some(own) => *own,
        None => return true,
    };
    match path.first() {
        // A command may name what is its own, from its own place; the table may name every command.
        Some(folder) if folder == "commands" => {
            let is_own = || path.get(1).map(String::as_str) == Some(module[1]);
            own == "commands" && !from_root && (module.len() == 1 || is_own())
        }
        Some(folder) => rank(folder) >= rank(own) && rank(folder).is_some(),
        None => false,
    }
}

/// What a source file names which it may not.
fn faults_of(file: &str, text: &str) -> Vec<Fault> {
    let own = module_of(file);
    let tokens = tokens_of(text);
    let mut module: Vec<String> = own.iter().map(|name| name.to_string()).collect();
    let mut faults = Vec::new();
    for at in 0..tokens.len() {
        let text = |back: usize| at.checked_sub(back).map_or("", |at| tokens[at].text);
        // A module within the file is the tests', and stands last.
        if text(2) == "mod" && text(0) == "{" {
            module.push(text(1).to_string());
        }
        let begins = matches!(text(0), "crate" | "super" | "self") && text(1) != "::";
        let goes_on = tokens.get(at + 1).map(|token| token.text);
        let paths = match (begins, text(0), goes_on) {
            (true, "crate", Some("::")) => paths_from(&tokens, at + 2, &[]).0,
            (true, _, Some("::")) => paths_from(&tokens, at, &module).0,
            // The crate or the module above by another name would hide what is named.
            (true, "crate" | "super", Some("as")) => vec![vec![text(0).to_string()]],
            _ => continue,
        };
        let from_root = text(0) == "crate";
        let wrong = paths
            .into_iter()
            .filter(|path| !may_name(&own, path, from_root));
        faults.extend(wrong.map(|path| Fault {
            line: tokens[at].line,
            path: path.join("::"),
        }));
    }
    faults
}

fn source_files(folder: &Path) -> Vec<PathBuf> {
    let entries = fs::read_dir(folder).expect("the folder can be read");
    let paths = entries.map(|entry| entry.expect("a file has a name").path());
    paths
        .flat_map(|path| match path.is_dir() {
            true => source_files(&path),
            false => vec![path],
        })
        .collect()
}

#[test]
fn imports_go_down_and_never_from_command_to_command() {
    let source = Path::new(env!("CARGO_MANIFEST_DIR")).join("src");
    let files = source_files(&source);
    let mut told = String::new();
    for file in &files {
        let name = file.strip_prefix(&source).expect("it lies there");
        let name = name.to_str().expect("its name is text");
        let text = fs::read_to_string(file).expect("a source file can be read");
        let folder = module_of(name).first().map_or("", |folder| folder);
        let known = folder.is_empty() || FOLDERS.contains(&folder);
        assert!(known, "src/{name} stands in none of {FOLDERS:?}");
        for Fault { line, path } in faults_of(name, &text) {
            told.push_str(&format!("src/{name}, line {line}: names {path}\n"));
        }
    }
    assert!(told.is_empty(), "imports that do not go down:\n{told}");
    assert!(files.len() > FOLDERS.len(), "few files: {files:?}");
}

#[test]
fn what_does_not_go_down_is_told_with_its_line() {
    for (file, text, line, path) in [
        (
            "system/files.rs",
            "use crate::shown::json;",
            1,
            "shown::json",
        ),
        (
            "system/mod.rs",
            "\npub use super::arguments::words;",
            2,
            "arguments::words",
        ),
        (
            "shown/json.rs",
            "fn f() {\n    crate::commands::find::run()\n}",
            2,
            "commands::find::run",
        ),
        (
            "arguments/words.rs",
            "use super::super::shown::names;",
            1,
            "shown::names",
        ),
        (
            "arguments/words.rs",
            "use crate::{system::files, shown::names};",
            1,
            "shown::names",
        ),
        (
            "arguments/words.rs",
            "use crate::{\n    system::files::{read, MOST as M},\n    commands,\n};",
            1,
            "commands",
        ),
        ("arguments/words.rs", "use crate::*;", 1, "*"),
        ("arguments/words.rs", "use crate as all;", 1, "crate"),
        (
            "arguments/words.rs",
            "mod tests {\n    use super::super::super::commands::COMMANDS;\n}",
            2,
            "commands::COMMANDS",
        ),
        (
            "commands/find.rs",
            "use super::entry::COMMAND;",
            1,
            "commands::entry::COMMAND",
        ),
        (
            "commands/find.rs",
            "use super::COMMANDS;",
            1,
            "commands::COMMANDS",
        ),
        ("commands/find.rs", "use super::*;", 1, "commands::*"),
        (
            "commands/find.rs",
            "use super::{find::read, entry};",
            1,
            "commands::entry",
        ),
        (
            "commands/ask/mod.rs",
            "use crate::commands::ask::call;",
            1,
            "commands::ask::call",
        ),
        (
            "commands/ask/view.rs",
            "use super::super::find;",
            1,
            "commands::find",
        ),
        (
            "commands/ask/mod.rs",
            "use super::find;",
            1,
            "commands::find",
        ),
    ] {
        let path = path.to_string();
        assert_eq!(
            faults_of(file, text),
            [Fault { line, path }],
            "{file}: {text}"
        );
    }
}

#[test]
fn what_goes_down_or_stays_is_no_fault() {
    for (file, text) in [
        ("main.rs", "use crate::commands::COMMANDS;\nuse self::shown::json;"),
        ("commands/mod.rs", "use crate::shown::json;\nuse self::find::COMMAND;\nmod tests {\n    use super::*;\n}"),
        ("commands/find.rs", "use crate::{shown::names, arguments::{self, words::Words as W}, system};"),
        ("commands/find.rs", "mod tests {\n    use super::*;\n    use super::read;\n}"),
        ("commands/ask/view.rs", "use super::call::Call;\nmod tests {\n    use super::super::tests::answers;\n}"),
        ("commands/ask/mod.rs", "use self::call::Call;"),
        ("shown/json.rs", "use super::csv;\nuse crate::shown::names;\npub(crate) fn f(self) {}\nimpl A { fn g(&self) {} }"),
        ("system/files.rs", "// as crate::commands does\nuse std::fs; // not super::super::commands\nuse crate::system::opening;"),
    ] {
        assert_eq!(faults_of(file, text), [], "{file}: {text}");
    }
}
