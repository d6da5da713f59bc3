# Counts what is expected of a script. Sourced by docs-check.sh, tool-check.sh and gate-check.sh.
# shellcheck shell=bash
good=0 bad=0

# The command must end with status 0.
expect() { # LABEL COMMAND...
    local label=$1
    shift
    if "$@"; then
        good=$((good + 1))
        printf 'ok: %s\n' "$label"
    else
        bad=$((bad + 1))
        printf 'FAILED: %s\n' "$label"
    fi
}

# Prints the count as the last line. Its status is 0 only where all was as expected.
expected() {
    printf '%d passed, %d failed\n' "$good" "$bad"
    [ "$bad" -eq 0 ]
}
