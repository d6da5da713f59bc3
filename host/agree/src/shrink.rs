//! Shrinks a script to a few lines that still show a difference.

/// How many shorter scripts are tried at most: each starts both programs.
const MOST_TRIES: usize = 300;

/// Drops lines for as long as `differs` says that the rest still shows the difference.
pub fn shrunk(
    mut lines: Vec<Vec<u8>>,
    mut differs: impl FnMut(&[Vec<u8>]) -> bool,
) -> Vec<Vec<u8>> {
    let mut tries = 0;
    let mut part = (lines.len() / 2).max(1);
    loop {
        let mut dropped = false;
        let mut at = 0;
        while at < lines.len() && tries < MOST_TRIES {
            let mut shorter = lines.clone();
            shorter.drain(at..(at + part).min(lines.len()));
            tries += 1;
            if differs(&shorter) {
                lines = shorter;
                dropped = true;
            } else {
                at += part;
            }
        }
        if tries == MOST_TRIES || (part == 1 && !dropped) {
            return lines;
        }
        part = (part / 2).max(1);
    }
}

#[cfg(test)]
mod tests {
    use super::*;

    fn script(numbers: impl IntoIterator<Item = u32>) -> Vec<Vec<u8>> {
        let line = |number: u32| number.to_string().into_bytes();
        numbers.into_iter().map(line).collect()
    }

    #[test]
    fn only_the_lines_that_matter_are_left() {
        let matter = script([17, 404, 999]);
        let left = shrunk(script(0..1000), |lines| {
            matter.iter().all(|line| lines.contains(line))
        });
        assert_eq!(left, matter);
    }

    #[test]
    fn a_difference_that_needs_every_line_keeps_them() {
        let all = script(0..20);
        assert_eq!(shrunk(all.clone(), |lines| lines.len() == 20), all);
    }

    #[test]
    fn the_tries_are_bounded() {
        let mut tries = 0;
        shrunk(script(0..5000), |_| {
            tries += 1;
            false
        });
        assert_eq!(tries, MOST_TRIES);
    }
}
