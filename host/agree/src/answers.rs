//! What the calls of the ask language may answer, and how often they answered it.

use crate::compare::BAD_LINE;
use std::collections::BTreeMap;
use std::fmt;

/// What a refusal carries behind its number.
#[derive(Clone, Copy, Debug, PartialEq, Eq, PartialOrd, Ord)]
pub enum Carried {
    Nothing,
    /// How many entries a lookup tested.
    Tested,
    /// A directory's level, of a refusal that was met in its header; 0 where no cookie told it.
    Header(u8),
    /// A directory's level and an index, of a refusal that was met in that entry.
    Entry(u8),
}

use Carried::{Entry, Header, Nothing, Tested};

impl Carried {
    /// Reads what stands behind a refusal's number.
    fn of(words: &[&str]) -> Option<Carried> {
        let number = |word: &str, name: &str| -> Option<u64> {
            let digits = word.strip_prefix(name)?;
            let is_number = digits.bytes().all(|byte| byte.is_ascii_digit());
            digits.parse().ok().filter(|_| is_number)
        };
        let level = |word| number(word, "level=").and_then(|level| u8::try_from(level).ok());
        match words {
            [] => Some(Nothing),
            [word] if word.starts_with("tested=") => number(word, "tested=").map(|_| Tested),
            [word] => level(word).map(Header),
            [first, second] => number(second, "index=").and(level(first)).map(Entry),
            _ => None,
        }
    }
}

impl fmt::Display for Carried {
    fn fmt(&self, to: &mut fmt::Formatter<'_>) -> fmt::Result {
        match self {
            Nothing => Ok(()),
            Tested => write!(to, " tested"),
            Header(level) => write!(to, " level={level}"),
            Entry(level) => write!(to, " level={level} index"),
        }
    }
}

/// Numbers of refusals, with what they carry.
type Refusals = &'static [(Carried, &'static [u8])];

/// A call: its name, the first word of its answer where it is accepted, and the refusals that it may give: those of its own, and those
/// that it passes on from a directory.
pub struct Call {
    pub name: &'static str,
    pub given: &'static [&'static str],
    refusals: [Refusals; 2],
}

const fn call(name: &'static str, given: &'static [&'static str], own: Refusals) -> Call {
    on_directory(name, given, own, &[])
}

const fn on_directory(
    name: &'static str,
    given: &'static [&'static str],
    own: Refusals,
    passed_on: Refusals,
) -> Call {
    Call {
        name,
        given,
        refusals: [own, passed_on],
    }
}

impl Call {
    /// Every refusal that the call may give.
    fn refusals(&self) -> impl Iterator<Item = (u8, Carried)> {
        let lists = self.refusals.into_iter().flatten();
        lists.flat_map(|(carried, numbers)| numbers.iter().map(move |number| (*number, *carried)))
    }
}

/// The refusals of directories that the EFS leads to: the six checks of a header; the checks of an entry, and in level one the 7 and 16 of
/// the entry that leads to level two.
#[rustfmt::skip]
const BY_LEVEL: Refusals = &[
    (Header(1), &[1, 2, 3, 4, 5]), (Entry(1), &[5, 7, 16, 18]),
    (Header(2), &[1, 2, 3, 4, 5]), (Entry(2), &[5, 14, 18]),
];

/// The same where an entry's bytes are asked for: its own 7, 16 and 17 as well.
#[rustfmt::skip]
const BYTES_BY_LEVEL: Refusals = &[
    (Header(1), &[1, 2, 3, 4, 5]), (Entry(1), &[5, 7, 16, 17, 18]),
    (Header(2), &[1, 2, 3, 4, 5]), (Entry(2), &[5, 7, 14, 16, 17, 18]),
];

/// The refusals of a directory whose level its cookie tells.
#[rustfmt::skip]
const BY_COOKIE: Refusals = &[
    (Header(0), &[1, 2]),
    (Header(1), &[1, 3, 4, 5]), (Entry(1), &[5, 18]),
    (Header(2), &[1, 3, 4, 5]), (Entry(2), &[5, 14, 18]),
];

/// The same where an entry's bytes are asked for.
#[rustfmt::skip]
const BYTES_BY_COOKIE: Refusals = &[
    (Header(0), &[1, 2]),
    (Header(1), &[1, 3, 4, 5]), (Entry(1), &[5, 7, 16, 17, 18]),
    (Header(2), &[1, 3, 4, 5]), (Entry(2), &[5, 7, 14, 16, 17, 18]),
];

/// Every call, in the order of docs/ASK.md, with the numbers that document 01 and requests 02, 05 and 07 have for it.
#[rustfmt::skip]
pub const CALLS: &[Call] = &[
    call("buffer", &["ok"], &[]),
    call("file", &["ok"], &[]),
    call("copy", &["ok"], &[]),
    call("patch", &["ok"], &[]),
    call("show", &["bytes"], &[]),
    call("digest", &["digest"], &[]),
    on_directory("directory", &["ok"], &[(Nothing, &[2, 7, 8, 9, 15])], BY_LEVEL),
    on_directory("entry", &["ok"], &[(Nothing, &[2, 7, 8, 9, 15])], BY_LEVEL),
    on_directory("bytes", &["ok"], &[(Nothing, &[2, 7, 8, 9, 15])], BYTES_BY_LEVEL),
    on_directory("find", &["ok"], &[(Nothing, &[2, 7, 9, 15]), (Tested, &[8])], BY_LEVEL),
    on_directory("find-image", &["ok"], &[(Nothing, &[2, 7, 15]), (Tested, &[8])], BY_LEVEL),
    on_directory("view", &["ok"], &[(Nothing, &[2, 7, 8, 9, 15])], BY_LEVEL),
    on_directory("view-entry", &["ok"], &[(Nothing, &[7, 8, 15])], BY_COOKIE),
    on_directory("view-bytes", &["ok"], &[(Nothing, &[7, 8, 15])], BYTES_BY_COOKIE),
    call("start", &["ok"], &[(Nothing, &[9, 12])]),
    on_directory("extend", &["ok"], &[(Nothing, &[3, 5, 12, 14, 18])], BY_COOKIE),
    call("aspt-read", &["ok"], &[(Nothing, &[1, 2, 3, 4, 5, 6, 7])]),
    call("aspt-write", &["ok"], &[(Nothing, &[5, 6, 7, 12])]),
    call("guids", &["ok"], &[(Nothing, &[1, 2, 3, 6])]),
    call("guid-find", &["ok"], &[(Nothing, &[1, 2, 3, 6]), (Tested, &[8])]),
    call("guid-start", &["ok"], &[(Nothing, &[12])]),
    call("guid-extend", &["ok"], &[(Nothing, &[1, 2, 3, 6, 12, 13])]),
    call("mailbox", &["ok"], &[]),
    call("mailbox-of", &["ok"], &[]),
    call("post", &["ok"], &[(Nothing, &[5, 9, 10])]),
    call("load", &["yes", "no"], &[(Nothing, &[5])]),
    call("turn", &["yes", "no"], &[(Nothing, &[5])]),
    call("unload", &["yes", "no"], &[(Nothing, &[5])]),
    call("take", &["ok"], &[(Nothing, &[5, 8, 9, 11])]),
    call("firmware", &["ok"], &[]),
];

/// What an answer counts as.
#[derive(Clone, Debug, PartialEq, Eq, PartialOrd, Ord)]
pub enum Kind {
    /// The call was accepted; the answer's first word.
    Given(String),
    /// The number of the refusal, and what it carries.
    Refused(u8, Carried),
    BadLine,
    /// No answer that the language has.
    Strange(String),
}

impl Kind {
    fn of(answer: &[u8]) -> Kind {
        if answer == BAD_LINE {
            return Kind::BadLine;
        }
        let text = String::from_utf8_lossy(answer);
        let words: Vec<&str> = text.split(' ').collect();
        match words[..] {
            ["refused", number, ref behind @ ..] => match (number.parse(), Carried::of(behind)) {
                (Ok(number), Some(carried)) => Kind::Refused(number, carried),
                _ => Kind::Strange(text.into_owned()),
            },
            [first, ..] => Kind::Given(first.to_string()),
            [] => Kind::Strange(text.into_owned()),
        }
    }

    /// Whether the call may answer this.
    fn fits(&self, call: &Call) -> bool {
        match self {
            Kind::Given(word) => call.given.contains(&word.as_str()),
            Kind::Refused(number, carried) => call.refusals().any(|due| due == (*number, *carried)),
            Kind::BadLine => true,
            Kind::Strange(_) => false,
        }
    }
}

impl fmt::Display for Kind {
    fn fmt(&self, to: &mut fmt::Formatter<'_>) -> fmt::Result {
        match self {
            Kind::Given(word) => write!(to, "{word}"),
            Kind::Refused(number, carried) => write!(to, "refused {number}{carried}"),
            Kind::BadLine => write!(to, "bad line"),
            Kind::Strange(text) => write!(to, "strange answer {text:?}"),
        }
    }
}

/// How often each call answered what.
#[derive(Clone, Debug, Default, PartialEq, Eq)]
pub struct Tally {
    /// By the place of the call in [`CALLS`]; beyond them all, the lines whose first word is no call.
    kinds: BTreeMap<usize, BTreeMap<Kind, u64>>,
}

impl Tally {
    /// Counts the answer to a line.
    pub fn count(&mut self, line: &[u8], answer: &[u8]) {
        let ends = |byte: &u8| matches!(byte, b' ' | b'\t' | b'#' | b'\r' | b'\n');
        let first = line.split(ends).find(|word| !word.is_empty());
        let place = |word| CALLS.iter().position(|call| call.name.as_bytes() == word);
        let place = first.and_then(place).unwrap_or(CALLS.len());
        let kinds = self.kinds.entry(place).or_default();
        *kinds.entry(Kind::of(answer)).or_default() += 1;
    }

    /// Adds what another tally counted.
    pub fn add(&mut self, other: &Tally) {
        for (place, kinds) in &other.kinds {
            let own = self.kinds.entry(*place).or_default();
            for (kind, amount) in kinds {
                *own.entry(kind.clone()).or_default() += amount;
            }
        }
    }

    /// How many answers were counted in all.
    pub fn answers(&self) -> u64 {
        self.kinds.values().flat_map(BTreeMap::values).sum()
    }

    /// How many answers were of a call that is the library's, which are all but those on the script's own buffers and
    /// on how its mailbox is set up and shown. A bad line never comes to the library.
    pub fn answers_of_library(&self) -> u64 {
        const OWN: [&str; 9] = [
            "buffer",
            "file",
            "copy",
            "patch",
            "show",
            "digest",
            "mailbox",
            "mailbox-of",
            "firmware",
        ];
        let of_call = |(place, kinds): (&usize, &BTreeMap<Kind, u64>)| match CALLS.get(*place) {
            Some(call) if !OWN.contains(&call.name) => {
                let answered = kinds.iter().filter(|(kind, _)| **kind != Kind::BadLine);
                answered.map(|(_, amount)| amount).sum()
            }
            _ => 0,
        };
        self.kinds.iter().map(of_call).sum()
    }

    /// How often a call answered this.
    pub fn amount(&self, call: &str, kind: &Kind) -> u64 {
        let place = CALLS.iter().position(|known| known.name == call);
        let kinds = place.and_then(|place| self.kinds.get(&place));
        kinds
            .and_then(|kinds| kinds.get(kind))
            .copied()
            .unwrap_or(0)
    }

    /// The answers that a call may give and that came fewer than `least` times; a bad line needs to come once.
    pub fn missed(&self, least: u64) -> Vec<String> {
        let mut missed = Vec::new();
        for call in CALLS {
            let given = call.given.iter().map(|word| Kind::Given(word.to_string()));
            let refused = call.refusals();
            let refused = refused.map(|(number, carried)| Kind::Refused(number, carried));
            for kind in given.chain(refused).chain([Kind::BadLine]) {
                let amount = self.amount(call.name, &kind);
                let least = if kind == Kind::BadLine { 1 } else { least };
                if amount < least {
                    missed.push(format!("{}: {kind}: {amount}", call.name));
                }
            }
        }
        missed
    }

    /// The answers that came although the call may not give them. Two programs that are wrong alike show here.
    pub fn misplaced(&self) -> Vec<String> {
        let mut misplaced = Vec::new();
        for (place, kinds) in &self.kinds {
            for (kind, amount) in kinds {
                let (name, fits) = match CALLS.get(*place) {
                    Some(call) => (call.name, kind.fits(call)),
                    None => ("no call", *kind == Kind::BadLine),
                };
                if !fits {
                    misplaced.push(format!("{name}: {kind}: {amount}"));
                }
            }
        }
        misplaced
    }
}

/// A line for each call: `directory: ok: 8, refused 4 level=1: 3, bad line: 2`.
impl fmt::Display for Tally {
    fn fmt(&self, to: &mut fmt::Formatter<'_>) -> fmt::Result {
        for (place, kinds) in &self.kinds {
            let name = CALLS.get(*place).map_or("no call", |call| call.name);
            let kinds = kinds
                .iter()
                .map(|(kind, amount)| format!("{kind}: {amount}"));
            writeln!(to, "{name}: {}", kinds.collect::<Vec<_>>().join(", "))?;
        }
        Ok(())
    }
}

#[cfg(test)]
mod tests {
    use super::*;
    use std::collections::BTreeSet;
    use std::fs;
    use std::path::Path;

    fn tally(answers: &[(&str, &str)]) -> Tally {
        let mut tally = Tally::default();
        for (line, answer) in answers {
            tally.count(line.as_bytes(), answer.as_bytes());
        }
        tally
    }

    #[test]
    fn answers_are_counted_by_call_and_by_what_they_tell() {
        let tally = tally(&[
            ("find a 1 2 3", "refused 8 tested=3"),
            ("\tfind\ta 1 2 3 # why", "ok index=0 tested=1"),
            ("find a 1 2 4", "refused 15"),
            ("find a 2 2 4", "refused 5 level=1 index=7"),
            ("find a 2 2 4", "refused 5 level=1 index=511"),
            ("find a 2 2 4", "refused 5 level=2"),
            ("find# a", "bad line"),
            ("findings", "bad line"),
            ("load", "yes"),
        ]);
        let shown =
            "find: ok: 1, refused 5 level=2: 1, refused 5 level=1 index: 2, refused 8 tested: 1, \
                     refused 15: 1, bad line: 1\nload: yes: 1\nno call: bad line: 1\n";
        assert_eq!(tally.to_string(), shown);
        assert_eq!((tally.answers(), tally.answers_of_library()), (9, 7));
        assert_eq!(tally.misplaced(), [""; 0]);
        let mut twice = tally.clone();
        twice.add(&tally);
        assert_eq!(twice.answers(), 18);
        assert_eq!(twice.amount("find", &Kind::Refused(15, Nothing)), 2);
        assert_eq!(twice.amount("find", &Kind::Refused(5, Entry(1))), 4);
        assert_eq!(twice.amount("find", &Kind::Refused(5, Entry(2))), 0);
    }

    #[test]
    fn an_answer_that_a_call_does_not_have_is_misplaced() {
        for (line, answer) in [
            ("find a 1 2 3", "refused 17"),
            ("find a 1 2 3", "yes"),
            ("find a 1 2 3", "refused x"),
            ("find a 1 2 3", "refused 8"),
            ("find a 1 2 3", "refused 15 tested=0"),
            ("directory a 1", "refused 8 tested=0"),
            ("load", "ok"),
            ("nothing", "ok"),
        ] {
            assert_eq!(tally(&[(line, answer)]).misplaced().len(), 1, "{line}");
        }
    }

    #[test]
    fn a_place_that_a_refusal_does_not_have_is_misplaced() {
        for (line, due, not_due) in [
            // the checks of a header, with the level asked for or that of the cookie
            ("directory a 1", "refused 4 level=1", "refused 4"),
            ("directory a 1", "refused 2 level=1", "refused 2 level=0"),
            ("directory a 2", "refused 5 level=2", "refused 5 level=3"),
            ("view-entry a 0 0", "refused 2 level=0", "refused 2 level=1"),
            ("view-entry a 0 0", "refused 2 level=0", "refused 2"),
            (
                "extend a 1 0 0 0 0",
                "refused 1 level=0",
                "refused 4 level=0",
            ),
            // inside an entry
            (
                "entry a 1 0",
                "refused 5 level=1 index=0",
                "refused 14 level=1 index=0",
            ),
            (
                "entry a 2 0",
                "refused 14 level=2 index=9",
                "refused 14 level=2",
            ),
            (
                "entry a 2 0",
                "refused 16 level=1 index=2",
                "refused 16 level=2 index=2",
            ),
            (
                "view-entry a 0 0",
                "refused 18 level=1 index=1",
                "refused 7 level=1 index=1",
            ),
            ("bytes a 2 0", "refused 17 level=2 index=0", "refused 17"),
            (
                "view-bytes a 0 0",
                "refused 7 level=2 index=0",
                "refused 7 level=0 index=0",
            ),
            // nowhere
            ("directory a 1", "refused 7", "refused 7 level=1"),
            ("directory a 2", "refused 8", "refused 8 level=1"),
            ("extend a 1 0 0 0 0", "refused 12", "refused 12 level=1"),
            ("start a 1", "refused 12", "refused 12 level=1"),
            ("aspt-read a", "refused 5", "refused 5 level=1"),
            // in words of another form
            ("directory a 1", "refused 4 level=1", "refused 4 index=1"),
            ("directory a 1", "refused 4 level=1", "refused 4 level=1 "),
            ("directory a 1", "refused 4 level=1", "refused 4 level="),
            ("directory a 1", "refused 4 level=1", "refused 4 level=+1"),
            (
                "directory a 1",
                "refused 5 level=1 index=2",
                "refused 5 index=2 level=1",
            ),
            (
                "directory a 1",
                "refused 5 level=1 index=2",
                "refused 5 level=1 index=2 tested=0",
            ),
        ] {
            assert_eq!(tally(&[(line, due)]).misplaced(), [""; 0], "{due}");
            assert_eq!(tally(&[(line, not_due)]).misplaced().len(), 1, "{not_due}");
        }
    }

    #[test]
    fn no_call_has_a_refusal_twice() {
        for call in CALLS {
            let all: Vec<(u8, Carried)> = call.refusals().collect();
            let different: BTreeSet<&(u8, Carried)> = all.iter().collect();
            assert_eq!(all.len(), different.len(), "{}", call.name);
        }
    }

    #[test]
    fn what_did_not_come_often_enough_is_missed() {
        let tally = tally(&[
            ("start a 1", "ok"),
            ("start a 1", "ok"),
            ("start a 3", "refused 9"),
        ]);
        let of_start = |least| -> Vec<String> {
            let missed = tally.missed(least).into_iter();
            missed.filter(|text| text.starts_with("start: ")).collect()
        };
        assert_eq!(of_start(1), ["start: refused 12: 0", "start: bad line: 0"]);
        assert_eq!(of_start(2).len(), 3);
    }

    /// The names in the tables of the page: each row's first cell has one call or more, each between backquotes.
    #[test]
    fn the_calls_are_those_of_the_page() {
        let page = Path::new(env!("CARGO_MANIFEST_DIR")).join("../../docs/ASK.md");
        let page = fs::read_to_string(page).expect("the page can be read");
        let rows = page.lines().filter(|line| line.starts_with("| `"));
        let cells = rows.filter_map(|row| row.split('|').nth(1));
        let calls = cells.flat_map(|cell| cell.split('`').skip(1).step_by(2));
        let on_page: BTreeSet<&str> = calls.filter_map(|call| call.split(' ').next()).collect();
        let known: BTreeSet<&str> = CALLS.iter().map(|call| call.name).collect();
        assert_eq!(known, on_page);
    }
}
