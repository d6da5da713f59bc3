# Counts instructions of x86-64, and holds them to the table under '## Instructions' of docs/BENCHMARKS.md.
# shellcheck shell=bash disable=SC2154
# It is sourced after setup.sh, by a script that has chosen the compilers. A count is the same in every run, whatever else the
# machine does.

# The programs of a row, by the numbers that the bench has for them.
library=0 second_program=1 plain_c=2

# ---- counting

# Builds the emulator's plugin that counts, as `plugin`.
prepare_counter() { # BENCH
    local interface said=''
    plugin=$root/host/target/instruction-counter.so
    if ! works "$instruction_counter"; then
        say "instructions are counted by $instruction_counter, which is not there. Install Debian's package qemu-user, and start again."
        return 1
    fi
    if [ ! -x "$1" ]; then
        say "no instructions are counted, since there is no $1. Build the host first: ./kpalumere-bench and ./test do."
        return 1
    fi
    mkdir -p "$root/host/target"
    # Emulators of different years ask for different forms of their interface. What the plugin uses is the same in all of them.
    for interface in 1 2 3 4 5 6; do
        cc -std=c99 -O2 -Wall -Wextra -Werror -pedantic -shared -fPIC -DINTERFACE="$interface" -o "$plugin" "$root/host/bench/counter.c" || {
            say "the plugin that counts instructions, host/bench/counter.c, cannot be compiled; what cc said stands above"
            return 1
        }
        said+=$("$instruction_counter" -plugin "$plugin" "$1" --list 2>&1)$'\n' && return
    done
    printf '%s' "$said" >&2
    say "$instruction_counter does not count with the plugin host/bench/counter.c; what it said of each form of its interface stands above. That of Debian's qemu-user 7.2 does."
    return 1
}

# Prints the instructions of one piece of work: three of them, less one, halved. So what comes before and after is not counted.
instructions_of() { # BENCH ROW N PROGRAM
    local one three
    one=$(instructions_in "$@" 1) && three=$(instructions_in "$@" 3) && echo $(((three - one) / 2))
}

instructions_in() { # BENCH ROW N PROGRAM TIMES
    local counted
    if ! counted=$("$instruction_counter" -plugin "$plugin" "$1" --repeat "${@:2}") || [[ ! $counted =~ ^[0-9]+$ ]]; then
        say "the instructions of '$1 --repeat ${*:2}' cannot be counted: $instruction_counter printed '$counted', and no number"
        return 1
    fi
    echo "$counted"
}

# Prints the table: for each row what one piece of work takes in each program.
count_instructions() { # BENCH
    local bench=$1 name n what counts
    prepare_counter "$bench" || return
    echo '| Row | n | library | second program | plain C | library / C | library / second |'
    echo '|---|---:|---:|---:|---:|---:|---:|'
    while read -r name n what; do
        say "counting $name with n = $n"
        counts=$(for program in $library $second_program $plain_c; do instructions_of "$bench" "$name" "$n" "$program" || exit; done) || return
        # shellcheck disable=SC2086
        awk -v what="$what" -v n="$n" 'BEGIN {
            printf "| %s | %d | %d | %d | %d | %.2f | %.2f |\n", what, n, ARGV[1], ARGV[2], ARGV[3], ARGV[1] / ARGV[3], ARGV[1] / ARGV[2] }' $counts
    done < <($emulator "$bench" --list)
}

# ---- the page

# Prints the rows of the page's table: what is done, n, the library's count, plain C's, and their ratio, with tabs between them.
rows_of_page() { # PAGE
    awk -F' *[|] *' -v OFS='\t' '/^## / { on = $0 == "## Instructions" } on && $3 ~ /^[0-9]+$/ { print $2, $3, $4, $6, $7 }' "$1"
}

# Counts each row with the n that the page has for it, and prints what is done, n, the library's count and plain C's. A row
# that the page lacks, or that cannot be counted, has no counts.
count_rows_of_page() { # BENCH PAGE
    local bench=$1 name what n counts
    prepare_counter "$bench" || return
    while read -r name _ what; do
        n=$(rows_of_page "$2" | awk -F'\t' -v what="$what" '$1 == what { print $2; exit }') counts=
        if [ -n "$n" ]; then
            say "counting $name with n = $n"
            counts=$(instructions_of "$bench" "$name" "$n" $library && instructions_of "$bench" "$name" "$n" $plain_c) || counts=
        fi
        printf '%s\t%s\t%s\n' "$what" "$n" "${counts/$'\n'/$'\t'}"
    done < <($emulator "$bench" --list)
}

# Prints the compilers that made the bench, in the words that the page has for its own.
makers() { echo "rustc $("$rustc" --version | awk '{ print $2 }') and gcc $("$c_compiler" -dumpfullversion 2>/dev/null)"; }

# Prints how much more than on the page the library may take beside plain C, in tenths: one where the page's counts are of the
# same compilers. Others make other code of the Rust around each call, which is a good part of a short row: then five.
tenths_allowed() { # PAGE MAKERS
    if grep -qF "Counted with $2." "$1"; then echo 1; else echo 5; fi
}

# Holds what was counted, as `count_rows_of_page` prints it, to the page: beside plain C the library takes at most so many tenths
# more than the page says. A line for each row; the last is 'N passed, M failed'.
hold_to_page() { # COUNTED PAGE TENTHS
    rows_of_page "$2" | awk -F'\t' -v tenths="$3" '
        function pass(told) { passed++; print "ok: " told }
        function fail(told) { failed++; print "FAILED: " told }
        function quotient(above, below) { return sprintf("%.2f (%d / %d)", above / below, above, below) }
        BEGIN { anew = "make the table anew with ./kpalumere-bench --instructions" }
        from_page { n[$1] = $2; library[$1] = $3; plain[$1] = $4; ratio[$1] = $5; next }
        { met[$1] = 1 }
        !($1 in n) {
            fail($1 ": the table of instructions in docs/BENCHMARKS.md has no such row. To mend this, " anew ".")
            next
        }
        $3 + 0 == 0 || $4 + 0 == 0 { fail($1 " with n = " $2 ": not counted; what went wrong stands above."); next }
        library[$1] + 0 == 0 || plain[$1] + 0 == 0 || sprintf("%.2f", library[$1] / plain[$1]) != ratio[$1] {
            fail($1 ": docs/BENCHMARKS.md has " ratio[$1] " for " library[$1] " / " plain[$1] ", which it is not. To mend this, " anew ".")
            next
        }
        {
            told = $1 " with n = " $2 ": library / C is " quotient($3, $4) ", on the page " quotient(library[$1], plain[$1])
            # In whole numbers, which are exact: so many tenths more are no failure yet.
            counted = 10 * $3 * plain[$1]
            said = library[$1] * $4
        }
        counted > (10 + tenths) * said {
            fail(told ". That is more than " (tenths == 1 ? "a tenth" : tenths " tenths") " above docs/BENCHMARKS.md. Find the change that made it slower; if it is meant, " anew ".")
            next
        }
        tenths == 1 && counted < 9 * said { told = told ". More than a tenth below docs/BENCHMARKS.md, which is out of date: " anew "." }
        { pass(told) }
        END {
            for (row in n) if (!(row in met))
                fail(row ": docs/BENCHMARKS.md has this row, and ./kpalumere-bench --list has not. To mend this, " anew ".")
            printf "%d passed, %d failed\n", passed, failed
            exit failed > 0
        }' from_page=1 - from_page=0 "$1"
}
