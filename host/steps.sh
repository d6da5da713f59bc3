# The steps of ./test: each says what it does and how long it took, and each is counted.
# shellcheck shell=bash disable=SC2154
# It is sourced after setup.sh, by a script that has set `root` to the folder of the repository to be tested.

passed=0 failed=0 failed_steps=''
logs=$root/host/target/log

# Runs a command as a step. COUNTER sets `step_passed` and `step_failed` from the command's status and log.
step() { # LABEL COUNTER COMMAND...
    local label=$1 counter=$2 began=$SECONDS status log
    shift 2
    log=$logs/${label// /-}.log
    mkdir -p "$logs"
    printf '== %s\n' "$label"
    "$@" </dev/null 2>&1 | tee "$log"
    status=${PIPESTATUS[0]}
    "$counter" "$status" "$log"
    passed=$((passed + step_passed)) failed=$((failed + step_failed))
    [ "$step_failed" -eq 0 ] || failed_steps="$failed_steps, $label"
    printf '== %s: %d passed, %d failed (%d s)\n\n' "$label" "$step_passed" "$step_failed" $((SECONDS - began))
}

# Prints the verdict, whose last line is 'N passed, M failed'. Its status is 0 only where nothing failed.
verdict() {
    [ -z "$failed_steps" ] || printf 'Failed:%s. What each step printed is in %s.\n' "${failed_steps#,}" "$logs"
    printf '%d passed, %d failed\n' "$passed" "$failed"
    [ "$failed" -eq 0 ]
}

# ---- how a step is counted

# A step with no tests in it: it counts as one.
count_one() { # STATUS LOG
    step_passed=$(($1 == 0)) step_failed=$(($1 != 0))
}

# A build: one, and a warning fails it.
count_build() { # STATUS LOG
    count_one "$1" "$2"
    if grep -q '^warning' "$2"; then step_passed=0 step_failed=1; fi
}

# A command whose last line is 'N passed, M failed'.
count_last_line() { # STATUS LOG
    step_passed=0 step_failed=0
    if [[ $(tail -n 1 "$2") =~ ^([0-9]+)\ passed,\ ([0-9]+)\ failed$ ]]; then
        step_passed=${BASH_REMATCH[1]} step_failed=${BASH_REMATCH[2]}
    fi
    count_silence "$1"
}

# Cargo's tests. One that is ignored, and a program of tests that did not come to its end, have failed.
count_cargo() { # STATUS LOG
    read -r step_passed step_failed < <(awk '
        /^ +(Running|Doc-tests) / { begun++ }
        /^test result: / { ended++; passed += $4; failed += $6 + $8 }
        END { print passed + 0, failed + (begun > ended ? begun - ended : 0) }' "$2")
    count_silence "$1"
}

# A step that fails and names no failed test, or that ran no test at all, is one failure.
count_silence() { # STATUS
    if [ "$step_failed" -eq 0 ] && { [ "$1" -ne 0 ] || [ "$step_passed" -eq 0 ]; }; then step_failed=1; fi
}

# ---- what the steps do

# Installs what is missing, and notes what the run is made with.
prepare_machine() {
    install_missing tests || return
    printf '%s, %s processors; %s; %s; %s\n' "$machine" "$(nproc)" "$("$rustc" --version)" "$("$cargo" --version)" "$("$c_compiler" --version | head -n 1)"
    [ -z "$emulator" ] || "$emulator" --version | head -n 1
    ! command -v rt >/dev/null || rt version
}

# Each must-fail edit fits its file: the text that it takes away stands there once. Told in a second, before the proofs, which would tell it at their end.
edits_fit() {
    local edit file='' line found lost=0
    for edit in "$root"/crates/*/must-fail/*.edit; do
        [ -e "$edit" ] || continue
        while IFS= read -r line; do
            case $line in
            'file: '*) file=${edit%/must-fail/*}/${line#file: } ;;
            'old: '*)
                found=$(grep -oF -- "${line#old: }" "$file" 2>/dev/null | wc -l)
                [ "$found" -eq 1 ] || { printf '%s does not fit: its old text stands %d times in %s\n' "${edit#"$root/"}" "$found" "${file#"$root/"}"; lost=1; }
                ;;
            esac
        done <"$edit"
    done
    [ "$lost" -eq 0 ]
}

# Each must-fail edit was refused because a fact does not hold. One that is refused only because a proof no longer fits the code, or because
# a name is not there, says nothing of what the changed program does: `rt ci` says so on the edit's line, which is in the log of the proofs. It cuts
# the reason off, so a record or a module that begins it is taken for a missing name.
edits_show_facts() {
    local log=$logs/proofs.log line edit tried=0 lost=0 there
    there=$(find "$root"/crates/*/must-fail -name '*.edit' 2>/dev/null | wc -l)
    while IFS= read -r line; do
        tried=$((tried + 1))
        edit=${line#rt: must-fail }
        edit=${edit%%:*}
        case $line in
        *'only because a proof file names what the edit took away'*)
            printf 'the edit %s is refused for its shape alone. Exchange an operand, and keep the names.\n' "$edit"
            lost=1
            ;;
        *': refused, as it must be'*' has no `'* | *': refused, as it must be'*'can be named from here'* | *': refused, as it must be'*'no module is found by the path'* | \
            *': refused, as it must be'*' has no field'* | *': refused, as it must be'*' is not in scope'* | \
            *': refused, as it must be'*': record `'* | *': refused, as it must be'*': module `'*)
            printf 'the edit %s is refused for a name that is not there: %s. Write names that the file has.\n' "$edit" "${line#*: refused, as it must be: }"
            lost=1
            ;;
        *': refused, as it must be: '* | *': refused, as it must be (only by a limit of the prover'*) ;;
        *)
            printf 'the edit %s is not refused because of a fact: %s\n' "$edit" "${line#*: *: }"
            lost=1
            ;;
        esac
    done < <(grep -aE '^rt: must-fail [^ ]+: ' "$log" 2>/dev/null)
    [ "$tried" -gt 0 ] || { echo "no edit was tried: ${log#"$root/"} has none"; return 1; }
    [ "$tried" -eq "$there" ] || { echo "there are $there edits, and ${log#"$root/"} tells of $tried"; return 1; }
    [ "$lost" -eq 0 ] && echo "$tried edits were refused, each because a fact does not hold"
}

# A crate that fills the fields of a directory by hand is refused by the language, so that only a check gives one (F7).
# No edit can show it, since an edit must reach the prover. It is tried in a copy of the crates, whose proofs it does not come to.
directory_by_hand_refused() {
    require_rt || return
    local scratch said field
    scratch=$(mktemp -d) || return
    (cd "$root" && find crates -path 'crates/*/out' -prune -o -type f -print0 | xargs -0 cp --parents -t "$scratch") || return
    mkdir -p "$scratch/crates/by_hand/src"
    { cat "$root/crates.txt"; echo 'by_hand: directory window'; } >"$scratch/crates.txt"
    cat >"$scratch/crates/by_hand/src/lib.rt" <<'END'
// A directory of thirteen entries that no check gave.
#![tactic(auto)]

use directory::Directory;
use window::Offset;

pub fn made_by_hand() -> Directory {
    Directory {
        place: Offset(0),
        level: 1,
        total: 13,
    }
}
END
    said=$(cd "$scratch/crates/by_hand" && rt check 2>&1)
    rm -rf "$scratch"
    for field in place level total; do
        if ! grep -qF "field \`$field\` of struct \`Directory\` is private" <<<"$said"; then
            printf '%s\n' "$said"
            echo "a crate above may fill the field $field of a directory by hand: make it private in crates/directory/src/lib.rt"
            return 1
        fi
    done
    echo 'a directory made by hand is refused: its place, its level and its total are private'
}

# All proofs, edits and programs, by the gate of the kit, which also refuses a file of crates/ that is not laid out as rt fmt does it.
prove_everything() {
    local said=$logs/rt-ci.log
    require_rt || return
    edits_fit || return
    (cd "$root" && rt ci) 2>&1 | tee "$said"
    [ "${PIPESTATUS[0]}" -eq 0 ] && no_edit_is_bad "$said"
}

# rt ci passes where an edit cannot be applied, compiled or read, and counts it on its line `rt: ok`. Here it fails, and the last line is told again.
no_edit_is_bad() { # LOG
    local ok
    ok=$(grep -a '^rt: ok' "$1") && ! grep -qE ', [0-9]+ bad' <<<"$ok" && return
    echo 'an edit that is bad shows nothing: mend those that are told above as a BAD EDIT'
    tail -n 1 "$1"
    return 1
}

check_rust_layout() {
    choose_compilers
    cd "$root/host" && find . -name target -prune -o -name '*.rs' -print0 | xargs -0 "$rustfmt" --edition 2021 --check \
        && echo "every file of host/ is laid out as rustfmt does it"
}

# Cargo with every warning an error.
run_strict_cargo() { # VERB WORDS...
    choose_compilers
    export CARGO_TARGET_X86_64_UNKNOWN_LINUX_GNU_RUSTFLAGS="$rust_flags -D warnings" CARGO_TERM_COLOR=never
    run_cargo "$@" --workspace
}

# The steps that any repository of this form has.
common_steps() {
    step 'what the machine must have' count_one prepare_machine
    step 'layout of the Rust files' count_one check_rust_layout
    step 'proofs' count_last_line prove_everything
    step 'library' count_one make_library
    step 'host build' count_build run_strict_cargo build
    step 'host tests' count_cargo run_strict_cargo test --no-fail-fast
}

# A caller in C: the header is complete, compiles without a warning, and says what the archive does.
check_c() {
    local archive=$root/target/staticlib/libkpalumere.a program=$root/host/target/c-check
    choose_compilers
    cd "$root/host" && check_exported_names "$archive" && check_needed_names "$archive" || return
    # shellcheck disable=SC2086
    "$c_compiler" -std=c99 -Wall -Wextra -Werror -pedantic $c_flags -o "$program" c-check/main.c "$archive" || return
    # shellcheck disable=SC2086
    $emulator "$program"
}

# The programs of docs/LIBRARY.md, in C and in Rust, are built as the page says, and print what stands there of a board that the
# caller in C writes.
check_library_page() {
    local page=$root/docs/LIBRARY.md room status
    choose_compilers
    room=$(mktemp -d) || return
    # In a folder that looks like the repository's to the lines of the page.
    ln -s "$root/host" "$root/target" "$room/"
    (cd "$room" && build_and_run_page "$page")
    status=$?
    rm -rf "$room"
    return "$status"
}

# In a folder of its own, made by `check_library_page`.
build_and_run_page() { # PAGE
    block_of_page "$1" c >directories.c
    block_of_page "$1" console >expected
    type_console <expected >written || { cat written; return 1; }
    diff expected written || { echo "< $1, > what its lines print"; return 1; }

    mkdir src
    block_of_page "$1" toml >Cargo.toml
    block_of_page "$1" rust >src/main.rs
    "$cargo" build --quiet --offline --target "$rust_target" --target-dir built || return
    # shellcheck disable=SC2086
    $emulator "built/$rust_target/debug/directories" board.rom >written || return
    diff <(shown_of_directories <expected) written || { echo "< $1, > its program in Rust"; return 1; }
    echo 'the programs of docs/LIBRARY.md print what stands there'
}

# Types the lines of a console that begin with a dollar sign, and prints each with what it prints. Where the machine is no x86-64,
# compiler and emulator are those for it.
type_console() {
    local line
    while IFS= read -r line; do
        # shellcheck disable=SC2086
        case $line in
        '$ cc '*) echo "$line" && "$c_compiler" $c_flags ${line#'$ cc '} ;;
        '$ '*) echo "$line" && $emulator ${line#'$ '} ;;
        esac || return
    done
}

# What stands in a console below the line that runs the program.
shown_of_directories() { sed '1,/^\$ \.\/directories /d'; }

# The block of a language in a page; there is one.
block_of_page() { awk -v begin="\`\`\`$2" '$0 == "```" { on = 0 } on; $0 == begin { on = 1 }' "$1"; } # PAGE LANGUAGE

# The archive, the header, the bindings and the caller in C have the same calls.
check_exported_names() { # ARCHIVE
    local exported declared bound called
    exported=$("$list_symbols" --defined-only --extern-only "$1" | awk '$3 ~ /^kpalumere_/ { print $3 }' | sort -u)
    declared=$(names_of_calls kpalumere.h)
    bound=$(grep -rhoE '\bfn kpalumere_[a-z0-9_]+\(' bindings/src | names_of_calls)
    called=$(names_of_calls c-check/main.c)
    if [ -z "$exported" ]; then echo "the archive $1 exports no call"; return 1; fi
    if [ "$exported" != "$declared" ] || [ "$exported" != "$bound" ] || [ "$exported" != "$called" ]; then
        printf 'the calls differ\n-- of the archive:\n%s\n-- of host/kpalumere.h:\n%s\n-- of host/bindings:\n%s\n-- of host/c-check:\n%s\n' \
            "$exported" "$declared" "$bound" "$called"
        return 1
    fi
    printf 'the archive, the header, the bindings and the caller in C have the same calls: %s\n' "$(echo "$exported" | tr '\n' ' ')"
}

# The archive needs from outside the names that docs/LIBRARY.md says, and no others: who links it without a C library brings those alone.
check_needed_names() { # ARCHIVE
    local needed told
    needed=$("$list_symbols" --undefined-only "$1" | awk 'NF == 2 { print $2 }' | sort -u)
    told=$(grep -oE 'nothing but the C library \([^)]*\)' "$root/docs/LIBRARY.md" | grep -oE '`[a-z0-9_]+`' | tr -d '`' | sort -u)
    if [ -z "$told" ] || [ "$needed" != "$told" ]; then
        printf 'the archive %s needs other names than docs/LIBRARY.md says\n-- needed:\n%s\n-- told:\n%s\n' "$1" "$needed" "$told"
        return 1
    fi
    printf 'the archive needs from outside: %s\n' "$(echo "$needed" | tr '\n' ' ')"
}

# The names in a file, or in what is read, that a parenthesis follows as in a call or its declaration.
names_of_calls() { # [FILE]
    grep -hoE '\bkpalumere_[a-z0-9_]+\(' "$@" | tr -d '(' | sort -u
}

# Random calls, given to the tool and the second program. The seed is printed. Of so many calls more than 50,000 come to the library.
check_agreement() {
    choose_compilers
    # shellcheck disable=SC2086
    $emulator "$root/host/target/$rust_target/release/agree" --calls "${KPALUMERE_CALLS:-160000}"
}

# The three programs that the benchmarks compare give the same answers on every row. No time is taken.
check_benchmarks() {
    choose_compilers
    # shellcheck disable=SC2086
    $emulator "$root/host/target/$rust_target/release/bench" --quick
}

# The library takes at most a tenth more instructions beside plain C than docs/BENCHMARKS.md says. Times decide nothing.
check_instructions() {
    local counted=$root/host/target/counted-instructions page=$root/docs/BENCHMARKS.md tenths
    choose_compilers
    tenths=$(tenths_allowed "$page" "$(makers)")
    [ "$tenths" = 1 ] || echo "the page's counts are of other compilers than $(makers): a row fails where it is more than $tenths tenths above it"
    count_rows_of_page "$root/host/target/$rust_target/release/bench" "$page" >"$counted" || return
    hold_to_page "$counted" "$page" "$tenths"
}
