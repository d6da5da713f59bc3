//! A line with the answer that somebody saw behind its call: `CALL => ANSWER`.

/// The word that parts a call from its answer.
const PARTS: &[u8] = b"=>";

/// The words of the call, and those of the answer where one is recorded.
pub fn parted<'a>(words: &'a [&'a [u8]]) -> (&'a [&'a [u8]], Option<&'a [&'a [u8]]>) {
    let mut sides = words.splitn(2, |word| *word == PARTS);
    (sides.next().unwrap_or_default(), sides.next())
}

#[cfg(test)]
mod tests {
    use super::*;
    use crate::arguments::lines::words_of;

    #[test]
    fn the_first_arrow_parts() {
        for (line, call, answer) in [
            ("load => yes", "load", Some("yes")),
            ("load", "load", None),
            ("load =>", "load", Some("")),
            ("=> yes", "", Some("yes")),
            ("a => b => c", "a", Some("b => c")),
            ("load=>yes", "load=>yes", None),
        ] {
            let words = words_of(line.as_bytes());
            let (found, seen) = parted(&words);
            assert_eq!(found, words_of(call.as_bytes()), "{line}");
            let due = answer.map(|answer| words_of(answer.as_bytes()));
            assert_eq!(seen, due.as_deref(), "{line}");
        }
    }
}
