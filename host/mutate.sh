#!/usr/bin/env bash
# Is the net of cases and random calls tight? Changes the second program in one place at a time, in a copy, and sees whether that is noticed.
# host/mutate.sh [--check] [NAME...]: all changes of host/mutations/*.txt, or those named. --check only sees that each can still be made.
# KPALUMERE_CALLS sets how many random calls are tried in all where the cases notice nothing (50000 where it is not set).
#
# A change in host/mutations/*.txt, blank lines and lines that start with # aside:
#   change NAME
#   what   what it makes of the program
#   file   a file of host/second/src
#   same   why no answer differs, where that is so: then the change must stay unnoticed   (left out else)
#   - the old text, which the file has once; a second line of it follows as another line of this form
#   + the new text, likewise
set -u
shopt -s extglob
export LC_ALL=C
root=$(cd "$(dirname "${BASH_SOURCE[0]}")/.." && pwd -P) || exit 1
# shellcheck source=host/setup.sh
. "$root/host/setup.sh"

# ---- the list of changes

names=() whats=() files=() sames=() olds=() news=()

# Reads the changes of a list into the arrays. A line of no form is told.
read_list() { # FILE
    local line at=0 last
    while IFS= read -r line; do
        at=$((at + 1)) last=$((${#names[@]} - 1))
        case $line in
            '' | '#'*) ;;
            'change '*)
                names+=("${line#change }") whats+=('') files+=('') sames+=('') olds+=('') news+=('')
                ;;
            'what   '*) whats[last]=${line#what   } ;;
            'file   '*) files[last]=${line#file   } ;;
            'same   '*) sames[last]=${line#same   } ;;
            '-' | '- '*) olds[last]+=${olds[last]:+$'\n'}${line##-?( )} ;;
            '+' | '+ '*) news[last]+=${news[last]:+$'\n'}${line##+?( )} ;;
            *)
                say "$1, line $at is no part of a change: $line"
                return 1
                ;;
        esac
    done <"$1"
}

# Prints the file with the change made, and a dot, so that line ends at its end are kept.
changed_file() { # PLACE
    local file=$root/host/second/src/${files[$1]} old=${olds[$1]} text before after
    if [ -z "$old" ] || [ ! -f "$file" ]; then
        say "${names[$1]}: it has no old text, or there is no file $file"
        return 1
    fi
    text=$(cat "$file" && echo .)
    before=${text%%"$old"*}
    if [ "$before" = "$text" ]; then
        say "${names[$1]}: $file no longer has this text; change it in host/mutations as well:"
        printf '%s\n' "$old" >&2
        return 1
    fi
    # Cut by its length: a pattern that starts with * takes a thousand times as long.
    after=${text:${#before}+${#old}}
    if [ "${after%%"$old"*}" != "$after" ]; then
        say "${names[$1]}: $file has this text more than once; add a line to it:"
        printf '%s\n' "$old" >&2
        return 1
    fi
    printf '%s' "$before${news[$1]}$after"
}

# ---- one change

copy=$root/host/target/mutations
mutant=$copy/host/target/$rust_target/release/second
agree=$root/host/target/$rust_target/release/agree

# A copy of the second program, with a workspace of its own around it.
make_copy() {
    rm -rf "$copy/host/second"
    mkdir -p "$copy/host" && cp -r "$root/host/second" "$copy/host/" || return
    sed 's/^members = .*/members = ["second"]/' "$root/host/Cargo.toml" >"$copy/host/Cargo.toml"
}

# Builds what stands in the copy. Little is made faster, so that the build is.
build_mutant() {
    CARGO_PROFILE_RELEASE_OPT_LEVEL=1 CARGO_INCREMENTAL=1 root=$copy run_cargo build --package second >"$copy/build.log" 2>&1
}

# Makes a change, builds, and prints what notices it: a case, random calls, or nobody. Status 1 where it cannot be tried.
try_change() { # PLACE
    local file=$copy/host/second/src/${files[$1]} random_log=$copy/random.${names[$1]}.log text status
    text=$(changed_file "$1") || return
    printf '%s' "${text%.}" >"$file"
    build_mutant
    status=$?
    cp -p "$root/host/second/src/${files[$1]}" "$file" && touch "$file"
    if [ "$status" -ne 0 ]; then
        say "${names[$1]}: the changed program does not build; $copy/build.log has why"
        return 1
    fi
    # shellcheck disable=SC2086
    if ! $emulator "$agree" --cases --first --second "$mutant" >"$copy/cases.log" 2>&1; then
        sed -n 's/^agree: \([^ ]*\.ask\),.*/the case \1/p' "$copy/cases.log" | grep . && return
        say "${names[$1]}: agree failed and names no case; see $copy/cases.log"
        return 1
    fi
    # shellcheck disable=SC2086
    if ! $emulator "$agree" --first --second "$mutant" --seed 1 --calls "${KPALUMERE_CALLS:-50000}" >"$random_log" 2>&1; then
        grep -q ': DIFFERENT\. ' "$random_log" && echo "random calls alone; $random_log has a script for a new case" && return
        say "${names[$1]}: agree failed and shows no difference; see $random_log"
        return 1
    fi
    echo nobody
}

# ---- all of them

check_only=no
if [ "${1:-}" = --check ]; then check_only=yes; shift; fi
for list in "$root"/host/mutations/*.txt; do read_list "$list" || exit 1; done
for name in "$@"; do
    case " ${names[*]} " in
        *" $name "*) ;;
        *) say "no change is called $name; host/mutations/*.txt have the names"; exit 2 ;;
    esac
done
if [ "$(printf '%s\n' "${names[@]}" | sort | uniq -d | wc -l)" -ne 0 ]; then
    say "two changes have the same name: $(printf '%s\n' "${names[@]}" | sort | uniq -d | tr '\n' ' ')"
    exit 1
fi

passed=0 failed=0
count() { # STATUS
    if [ "$1" -eq 0 ]; then passed=$((passed + 1)); else failed=$((failed + 1)); fi
}

if [ "$check_only" = yes ]; then
    for place in "${!names[@]}"; do
        changed_file "$place" >/dev/null
        count $?
    done
    [ "$failed" -eq 0 ] || { say "$failed of ${#names[@]} changes of host/mutations cannot be made any more"; exit 1; }
    echo "each of the ${#names[@]} changes of host/mutations can still be made"
    exit
fi

choose_compilers
[ -x "$agree" ] || { say "$agree is not built; run ./test first"; exit 1; }
make_copy || { say "the second program cannot be copied to $copy"; exit 1; }
build_mutant || { say "the second program as it is does not build; $copy/build.log has why"; exit 1; }
# shellcheck disable=SC2086
$emulator "$agree" --cases --second "$mutant" >"$copy/cases.log" 2>&1 || { say "the second program as it is departs from a case; see $copy/cases.log"; exit 1; }
say "${#names[@]} changes are known; one takes some seconds, the random calls where they are needed ten more"
for place in "${!names[@]}"; do
    name=${names[$place]} same=${sames[$place]}
    [ $# -eq 0 ] || case " $* " in *" $name "*) ;; *) continue ;; esac
    began=$SECONDS
    if ! noticed=$(try_change "$place"); then
        verdict='FAILED: it cannot be tried'
    elif [ "$noticed" != nobody ] && [ -n "$same" ]; then
        verdict="FAILED: noticed by $noticed, although it is said to be the same program"
    elif [ "$noticed" != nobody ]; then
        verdict="noticed by $noticed"
    elif [ -n "$same" ]; then
        verdict="the same program: $same"
    else
        verdict='FAILED: noticed by nobody. Add a case that tells it apart, or say in the list why it is the same program'
    fi
    [[ $verdict != FAILED* ]]
    count $?
    printf '%s (%s): %s\n' "$name" "${whats[$place]}" "$verdict"
    say "$name took $((SECONDS - began)) s; $passed are as they should be, $failed are not, of ${#names[@]}"
done
printf '%d passed, %d failed\n' "$passed" "$failed"
[ "$failed" -eq 0 ]
