#!/usr/bin/env bash
# Shows that the gate is shut to what must not pass: breaks a small repository on purpose, and takes it through the same steps.
set -u
own=$(cd "$(dirname "${BASH_SOURCE[0]}")" && pwd -P) || exit 1
# shellcheck source=host/expect.sh
. "$own/expect.sh"
# Outside the repository, where its crates would count as files that no crate has.
root=$(mktemp -d) || exit 1
trap 'rm -rf "$root"' EXIT

# A repository of this form: a library, a program that shows a line, and a host with a test.
write_repository() {
    mkdir -p "$root/crates/kpalumere/src" "$root/crates/shown/src" "$root/host/src"
    printf '%s\n' 'kpalumere staticlib:' 'shown:' >"$root/crates.txt"
    cat >"$root/crates/kpalumere/src/lib.rt" <<'END'
// A library with one exported call.
#![tactic(auto)]

ghost use Rattle.std.specs.Prelude.{◌≡◌};

#[unsafe(no_mangle)]
pub extern "C" fn kpalumere_seven() -> u64
    ensures { result ≡ 7 }
{
    7
}
END
    cat >"$root/crates/shown/src/main.rt" <<'END'
// A program that writes a line.
#![tactic(auto)]

use std::io;

fn main(rt: HostRuntime) -> io::Result<()> {
    println!(rt; "7")
}
END
    echo 7 >"$root/crates/shown/stdout"
    cat >"$root/host/Cargo.toml" <<'END'
[package]
name = "small"
version = "0.1.0"
edition = "2021"

[lib]
doctest = false
END
    cat >"$root/host/src/lib.rs" <<'END'
//! A host with one test.

#[test]
fn seven_is_seven() {
    let seven = 7;
    assert_eq!(seven, 7);
}
END
    printf '%s\n' 'version = 3' '' '[[package]]' 'name = "small"' 'version = "0.1.0"' >"$root/host/Cargo.lock"
}

# Takes the small repository through the steps. What they print is in `printed`, the status in `status`.
take_through_steps() {
    printed=$(
        # shellcheck source=host/setup.sh
        . "$own/setup.sh"
        # shellcheck source=host/steps.sh
        . "$own/steps.sh"
        common_steps
        verdict
    )
    status=$?
    last=$(tail -n 1 <<<"$printed")
}

# The last line and the status tell the same.
ended_with() { # PASSED FAILED
    if [ "$last" = "$1 passed, $2 failed" ] && [ $((status == 0)) = $(($2 == 0)) ]; then return; fi
    printf '%s\nstatus %s, and not %s passed, %s failed\n' "$printed" "$status" "$1" "$2"
    return 1
}

counted() { # STEP PASSED FAILED
    grep -qF "== $1: $2 passed, $3 failed" <<<"$printed"
}

put() { # FILE OLD NEW
    sed -i "s/$2/$3/" "$root/$1"
}

write_repository
take_through_steps
expect 'a good repository passes' ended_with 7 0

# Edits, without the proofs that they would wait for.
in_steps() ( # COMMAND...
    # shellcheck source=host/setup.sh
    . "$own/setup.sh"
    # shellcheck source=host/steps.sh
    . "$own/steps.sh"
    "$@"
)
edits_are_tried() { in_steps edits_fit; }
stray_edit_is_named() { ! edits_are_tried >"$root/said" && grep -qF 'crates/kpalumere/must-fail/eight.edit does not fit: its old text stands 0 times' "$root/said"; }
mkdir "$root/crates/kpalumere/must-fail"
printf '%s\n' 'file: src/lib.rt' 'old:     7' 'new:     8' >"$root/crates/kpalumere/must-fail/eight.edit"
expect 'an edit that fits its file is taken' edits_are_tried
put crates/kpalumere/must-fail/eight.edit 'old:     7' 'old:     9'
expect 'an edit that does not is named before the proofs' stray_edit_is_named
rm -r "$root/crates/kpalumere/must-fail" "$root/said"

# What the log of the proofs says of them.
edits_are_read() { in_steps edits_show_facts; }
are_named() { ! edits_are_read >"$root/said" && grep -qF -- "$1" "$root/said"; } # WORDS
log=$root/host/target/log/proofs.log
mkdir -p "${log%/*}" "$root/crates/kpalumere/must-fail"
touch "$root/crates/kpalumere/must-fail/eight.edit" "$root/crates/kpalumere/must-fail/nine.edit"
echo 'rt: kpalumere proved' >"$log"
expect 'that no edit was tried is told' are_named 'no edit was tried'
echo 'rt: must-fail kpalumere/eight.edit: refused, as it must be: note: src/lib.rt:6:1: it is not proved that what the function ensures holds' >>"$log"
expect 'that not every edit was tried is told' are_named 'there are 2 edits, and host/target/log/proofs.log tells of 1'
rm "$root/crates/kpalumere/must-fail/nine.edit"
expect 'an edit that is refused for a fact is taken' edits_are_read
echo 'rt: must-fail kpalumere/eight.edit: refused, as it must be (only because a proof file names what the edit took away, so this says little of the contract: change a value and keep the names): proofs/seven/Answers.antt:9:1: error: `add-t4`: module `Goals` has no `add-t4` that can be named from here' >"$log"
expect 'one that is refused for its shape alone is named' are_named 'the edit kpalumere/eight.edit is refused for its shape alone'
echo 'rt: must-fail kpalumere/eight.edit: refused, as it must be: ./specs/Seven.antt:3:9: error: `seven`: `Nat.plus`: module `Nat` has no `plus` that can be named from here' >"$log"
expect 'one that is refused for a name that is not there is named' are_named 'the edit kpalumere/eight.edit is refused for a name that is not there'
echo 'rt: must-fail kpalumere/eight.edit: refused, as it must be: ./proofs/seven/Answers.antt:43:39: error: `seven-requires`: record `Rattle.kpalumere.proofs.seven' >"$log"
expect 'one whose reason is cut off before the name is named' are_named 'the edit kpalumere/eight.edit is refused for a name that is not there'
echo 'rt: must-fail kpalumere/eight.edit: BAD EDIT: it did not reach the prover; the first lines of what it said:' >"$log"
expect 'one that does not compile is named' are_named 'the edit kpalumere/eight.edit is not refused because of a fact'

# The line with which rt ci passes.
line_passes() { in_steps no_edit_is_bad "$root/said"; }
bad_is_told() { ! line_passes >"$root/told" && grep -qF 'an edit that is bad shows nothing' "$root/told" && [ "$(tail -n 1 "$root/told")" = '3 passed, 0 failed' ]; }
printf '%s\n' 'rt: ok; handles allowed: none; must-fail edits: 12 refused; every proof and must-fail edit was done in this run' '3 passed, 0 failed' >"$root/said"
expect 'a line with no bad edit passes' line_passes
printf '%s\n' 'rt: ok; handles allowed: none; must-fail edits: 11 refused, 1 bad; every proof and must-fail edit was done in this run' '3 passed, 0 failed' >"$root/said"
expect 'a line with a bad edit does not' bad_is_told
printf '%s\n' '3 passed, 0 failed' >"$root/said"
expect 'no line at all does not' bad_is_told
printf '%s\n' 'file: src/lib.rt' 'old:     7' 'new:     seven' >"$root/crates/kpalumere/must-fail/eight.edit"
bad_edit_fails() { ! in_steps prove_everything >"$root/told" 2>&1 && grep -q '^rt: ok.*, 1 bad' "$root/told" && grep -qF 'an edit that is bad shows nothing' "$root/told"; }
expect 'an edit that does not compile fails the proofs' bad_edit_fails
rm -r "$root/crates/kpalumere/must-fail" "$root/said" "$root/told" "$log"

# A directory whose fields any crate may fill.
by_hand_is_tried() (
    # shellcheck source=host/setup.sh
    . "$own/setup.sh"
    # shellcheck source=host/steps.sh
    . "$own/steps.sh"
    root=$root/filled
    directory_by_hand_refused
)
open_field_is_named() { ! by_hand_is_tried >"$root/said" && grep -qF 'may fill the field total of a directory by hand' "$root/said"; }
mkdir -p "$root/filled/crates/directory/src" "$root/filled/crates/window/src"
printf '%s\n' 'window:' 'directory: window' >"$root/filled/crates.txt"
printf '%s\n' '#![tactic(auto)]' '' 'pub struct Offset(pub u32);' >"$root/filled/crates/window/src/lib.rt"
cat >"$root/filled/crates/directory/src/lib.rt" <<'END'
#![tactic(auto)]

use window::Offset;

pub struct Directory {
    place: Offset,
    level: u32,
    pub total: u32,
}
END
expect 'a field of a directory that any crate may fill is named' open_field_is_named
put filled/crates/directory/src/lib.rt 'pub total' 'total'
expect 'fields that are all private are taken' by_hand_is_tried
rm -r "$root/filled" "$root/said"

# Each change below breaks steps of its own, so that several can be tried in one run.
echo '// A file that no crate has.' >"$root/crates/lost.rt"
put host/src/lib.rs 'seven, 7' 'seven, 8'
take_through_steps
expect 'an unlisted file of Rattle and a failing host test are two failures' ended_with 4 2
expect 'the unlisted file fails the proofs' counted proofs 0 1
expect 'the failing test fails the host tests' counted 'host tests' 0 1
rm "$root/crates/lost.rt"
put host/src/lib.rs 'seven, 8' 'seven, 7'

put crates/kpalumere/src/lib.rt '^    7' '    8'
put crates/shown/src/main.rt '    println' 'println'
put host/src/lib.rs 'let seven = 7' 'let seven=7'
take_through_steps
expect 'an unproved function and files out of layout, of Rattle and of Rust, are four failures' ended_with 3 4
expect 'the unproved function and the Rattle file out of layout fail the proofs' counted proofs 0 2
expect 'the Rattle file out of layout is named' grep -qF 'src/main.rt is not in the layout' <<<"$printed"
expect 'the unproved function fails the library' counted library 0 1
expect 'the Rust file out of layout fails its step' counted 'layout of the Rust files' 0 1
put crates/kpalumere/src/lib.rt '^    8' '    7'
put crates/shown/src/main.rt 'println' '    println'
put host/src/lib.rs 'let seven=7' 'let seven = 7'

put crates/shown/stdout 7 8
echo 'fn unused() {}' >>"$root/host/src/lib.rs"
take_through_steps
expect 'a wrong stdout and a warning are three failures' ended_with 5 3
expect 'the wrong stdout fails the proofs' counted proofs 2 1
expect 'the warning fails the host build' counted 'host build' 0 1
expect 'tests that cannot be built are a failure' counted 'host tests' 0 1

# The second program, from which a text that a change needs was taken away.
cp -r "$own/mutate.sh" "$own/setup.sh" "$own/second" "$own/mutations" "$root/host/"
expect 'every change of the second program can be made' "$root/host/mutate.sh" --check
put host/second/src/guids.rs LARGEST_TOTAL LARGEST
names_lost_change() {
    ! printed=$("$root/host/mutate.sh" --check 2>&1) && grep -q 'guids-extend-larger: .* no longer has this text' <<<"$printed"
}
expect 'a change that can no longer be made is named' names_lost_change

# The page of the benchmarks, and counts of instructions, both made up.
# shellcheck source=host/bench/instructions.sh
. "$own/bench/instructions.sh"
write_page_and_counts() {
    cat >"$root/page.md" <<'END'
## Instructions

Counted with rustc 1 and gcc 2.

| Row | n | library | second program | plain C | library / C | library / second |
|---|---:|---:|---:|---:|---:|---:|
| first row | 64 | 100 | 50 | 200 | 0.50 | 2.00 |
| second row | 1 | 300 | 50 | 150 | 2.00 | 6.00 |

## Growth

| third row | 8 | 100 | 50 | 200 | 0.50 | 2.00 |
END
    printf '%s\t%d\t%d\t%d\n' 'first row' 64 100 200 'second row' 1 300 150 >"$root/counted"
}

# The counts, held to the page, come to this, and these words are printed.
held() { # PASSED FAILED WORDS [MAKERS]
    printed=$(hold_to_page "$root/counted" "$root/page.md" "$(tenths_allowed "$root/page.md" "${4-rustc 1 and gcc 2}")")
    status=$?
    last=$(tail -n 1 <<<"$printed")
    ended_with "$1" "$2" && { grep -qF -- "$3" <<<"$printed" || { printf '%s\n' "$printed"; false; }; }
}

write_page_and_counts
expect 'instructions as the page has them pass' held 2 0 'first row with n = 64: library / C is 0.50 (100 / 200)'
put counted 100 110
expect 'a tenth above the page passes' held 2 0 'is 0.55 (110 / 200), on the page 0.50 (100 / 200)'
put counted 110 111
expect 'more than a tenth above the page fails' held 1 1 'FAILED: first row with n = 64'
expect 'by other compilers it passes' held 2 0 'is 0.56 (111 / 200)' 'rustc 3 and gcc 2'
put counted 111 151
expect 'more than a half above the page fails by any compiler' held 1 1 'more than 5 tenths above' 'rustc 3 and gcc 2'
put counted 151 89
expect 'more than a tenth below the page passes, and the page is out of date' held 2 0 'which is out of date'
put counted 89 ''
expect 'a row that was not counted fails' held 1 1 'first row with n = 64: not counted'
write_page_and_counts
put page.md '300 | 50 | 150 | 2.00' '150 | 50 | 150 | 1.00'
expect 'half of a ratio on the page fails' held 1 1 'FAILED: second row with n = 1: library / C is 2.00'
put page.md '150 | 50 | 150 | 1.00' '300 | 50 | 150 | 1.00'
expect 'a ratio that is not the quotient of its counts fails' held 1 1 'second row: docs/BENCHMARKS.md has 1.00 for 300 / 150'
write_page_and_counts
put page.md 'second row' 'another row'
expect 'a row that the page lacks and one that only the page has are two failures' held 1 2 'second row: the table of instructions'
expect 'the row that only the page has is named' held 1 2 'FAILED: another row: docs/BENCHMARKS.md has this row'

expected
