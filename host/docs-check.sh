#!/usr/bin/env bash
# Holds docs/ to the tree: every name that TRACE.md and PROMISES.md cite is there, PROMISES.md has every public call and every edit, and
# TRUST.md the lines of specs/ as they are.
# The written forms of a citation are explained at the top of docs/TRACE.md.
set -u
root=$(cd "$(dirname "${BASH_SOURCE[0]}")/.." && pwd -P) || exit 1
# shellcheck source=host/expect.sh
. "$root/host/expect.sh"
cd "$root" || exit 1

# The words between backquotes, one a line.
# shellcheck disable=SC2016
quoted() { grep -o '`[^`]*`' | tr -d '`'; }

# A file has a name as a whole word.
has() { [ -f "$1" ] && grep -qwF -- "$2" "$1"; } # FILE NAME

# A file of specs/ declares a name; one that begins with a capital letter is also proved.
declares() { # CRATE FILE NAME
    grep -qE "^ *((unfoldable|abbrev) )*pub ((record|data) )?$3( |$)" "crates/$1/specs/$2.antt" 2>/dev/null || return
    case $3 in [A-Z]*) grep -rqE "^pub [^ ]+ : $3 *$" "crates/$1/proofs" ;; esac
}

there() { # CITATION
    local crate=${1%%[/:]*} name=${1##*:} path=${1%:*}
    case $1 in
    *.ask) [ -f "host/cases/$1" ] ;;
    *.*:*) has "crates/$path" "$name" || has "host/$path" "$name" ;;
    *::*) grep -rqE "\bfn $name\b" "crates/$crate/src" 2>/dev/null ;;
    */*:*) declares "$crate" "${path#*/}" "$name" ;;
    */*) [ -f "crates/$crate/must-fail/${1#*/}.edit" ] ;;
    *) false ;;
    esac
}

# Each line names a citation: those that lead nowhere are printed, and fail. So does a page with none.
all_there() {
    local citation count=0 lost=0
    while IFS= read -r citation; do
        count=$((count + 1))
        there "$citation" || { printf 'there is no %s\n' "$citation"; lost=1; }
    done
    [ "$lost" -eq 0 ] && [ "$count" -gt 0 ]
}

# The rows of the tables under a heading that awk's PATTERN matches.
rows_under() { awk -v wanted="$2" '/^## / { on = $0 ~ wanted } on && /^\| / && !/^\|---/' "docs/$1"; } # PAGE PATTERN

# One column of the tables under a crate's heading in PROMISES.md, counted from the left, or from the right where it is below 0.
cells() { rows_under PROMISES.md "^## $1\$" | awk -F' *[|] *' -v k="$2" '{ print k < 0 ? $(NF + k) : $(k + 1) }' | quoted; } # CRATE COLUMN

# A crate's public calls; one of a type with the type's name before it.
calls_of() { # CRATE
    find "crates/$1/src" -name '*.rt' -exec awk '
        /^impl(<[^>]*>)? / { type = $2; sub(/<.*/, "", type); type = type "::" }
        /^}/ { type = "" }
        match($0, /^ *pub (extern "C" )?fn [a-z0-9_]+/) { n = split(substr($0, RSTART, RLENGTH), word, " "); print type word[n] }' {} + | sort
}
edits_of() { find "crates/$1/must-fail" -name '*.edit' 2>/dev/null | sed 's:.*/::; s:\.edit$::' | sort; } # CRATE

# A crate's calls and edits are those of its tables, no more and no fewer, and each definition in its promises is one that it uses.
crate_is_told() { # CRATE
    local word lost=0
    diff <(calls_of "$1") <(cells "$1" 1 | sort -u) || { echo "< a call of $1, > a call in docs/PROMISES.md"; lost=1; }
    diff <(edits_of "$1") <(cells "$1" -1 | sort -u) || { echo "< an edit of $1, > an edit in docs/PROMISES.md"; lost=1; }
    while IFS= read -r word; do
        [ "$word" = s ] || grep -rqwF -- "$word" "crates/$1/src" || { printf 'the contracts of %s do not use %s\n' "$1" "$word"; lost=1; }
    done < <(cells "$1" 2; cells "$1" 3)
    [ "$lost" -eq 0 ]
}

# A row for each crate that has specs/: its lines that are neither empty nor a comment nor an import, in files of definitions and in files of statements.
# A file's first line says which it is.
lines_to_believe() {
    local folder
    for folder in crates/*/specs; do
        awk -v crate="$(basename "$(dirname "$folder")")" '
            FNR == 1 { kind = /stated|these are statements|and statements/ }
            /^ *$|^ *--|^use |^pub mod / { next }
            { count[kind]++ }
            END { printf "| %s | %d | %d |\n", crate, count[0], count[1] }' "$folder"/*.antt
    done | awk -F' *[|] *' '{ print; one += $3; two += $4 } END { printf "| all | %d | %d |\n", one, two }'
}

lines_are_told() {
    diff <(lines_to_believe) <(grep -E '^\| [a-z0-9_]+ \| [0-9]+ \| [0-9]+ \|$' docs/TRUST.md) || { echo '< the tree, > docs/TRUST.md'; return 1; }
}

# The pages that a page leads to.
links_lead() { # PAGE
    local link lost=0
    while IFS= read -r link; do
        [ -e "$(dirname "$1")/$link" ] || { printf '%s leads to %s, which is not there\n' "$1" "$link"; lost=1; }
    done < <(grep -oE '\]\([^)#:]+\)' "$1" | tr -d '()]')
    [ "$lost" -eq 0 ]
}

expect 'every name in docs/TRACE.md is there, and every statement proved' all_there < <(grep -E '^\| [0-9]+\.[0-9]+ \|' docs/TRACE.md | quoted)
expect 'every name under "Told apart" and "Wrong programs" is there' all_there < <(rows_under PROMISES.md '^## (Told apart|Wrong programs)$' | quoted)
while IFS=: read -r crate _; do
    # A program has no public call.
    [ -f "crates/$crate/src/main.rt" ] || expect "docs/PROMISES.md has all of $crate, and no more" crate_is_told "$crate"
done < <(grep -E '^[a-z0-9_]+( staticlib)?:' crates.txt | sed 's, staticlib,,')
expect 'docs/TRUST.md has the lines of specs/ as they are' lines_are_told
for page in README.md CHANGELOG.md docs/*.md docs/landings/*.md; do
    expect "what $page leads to is there" links_lead "$page"
done
expected
