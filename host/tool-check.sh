#!/usr/bin/env bash
# Tries ./kpalumere as people start it: from any folder, twice at once, with its input, output and status passed through.
set -u
own=$(cd "$(dirname "${BASH_SOURCE[0]}")" && pwd -P) || exit 1
# shellcheck source=host/expect.sh
. "$own/expect.sh"
script=$own/../kpalumere
room=$(mktemp -d) || exit 1
trap 'rm -rf "$room"' EXIT
cd "$room" || exit 1

# What the tool writes, says and ends with is kept in files.
start() { # WORDS...
    "$script" "$@" >wrote 2>said
    echo "$?" >ended
}

# The last start ended with a status and wrote a text.
gave() { # STATUS TEXT
    if [ "$(cat ended)" = "$1" ] && [ "$(cat wrote)" = "$2" ]; then return; fi
    printf 'status %s, and on standard output:\n' "$(cat ended)"
    cat wrote
    printf 'and on standard error:\n'
    cat said
    return 1
}

says() { grep -qF -- "$1" said; }
silent() { [ ! -s said ]; }

# Two at once, both of which find the tool not built: one builds, the other waits.
rm -f "$own/target/kpalumere/kpalumere.sources"
printf 'buffer a 2 0xab\nshow a 0 2\n' >calls.ask
answers='ok length=2
bytes abab'
"$script" ask calls.ask >first 2>first-said &
other=$!
start ask calls.ask
wait "$other"
echo "$?" >other-ended
expect 'the tool is built where it is not, and answers' gave 0 "$answers"
expect 'another that is started at the same time answers too' test "$(cat other-ended first)" = "0
$answers"

start ask calls.ask
expect 'once built it starts without a word; a file is looked for in the folder of the caller' gave 0 "$answers"
expect 'nothing is said on standard error then' silent

start ask <calls.ask
expect 'standard input is passed through' gave 0 "$answers"

start ask <<<'nonsense'
expect 'a bad line ends with 1' test "$(cat ended)" = 1

start register
expect 'the register of the sample is shown, and its verdict is good' grep -qxF "the tool's sample board: good" wrote
expect 'its boot loader is found, so the status is 0' test "$(cat ended)" = 0

start register missing.rom
expect 'an image that is not there ends with 3' test "$(cat ended)" = 3

start nonsense
expect 'a wrong word ends with 2 and writes nothing' gave 2 ''
expect 'the message says what to do' says 'kpalumere --help'

start ask missing.ask
expect 'a file that is not there ends with 3 and writes nothing' gave 3 ''

start ask 'missing with  two spaces.ask'
expect 'a word with spaces in it stays one word' says 'missing with  two spaces.ask'

ln -s "$script" linked
script=./linked start --version
expect 'it may be started through a link' grep -qE '^kpalumere [0-9]+\.[0-9]+\.[0-9]+$' wrote

"$script" ask calls.ask | head -n 0
expect 'a reader that closes the pipe is no fault' test "${PIPESTATUS[0]}" -ne 4

# A repository of which nothing is built, where the library cannot be proved.
mkdir -p broken/host/bindings broken/host/tool/src broken/crates/kpalumere fake
cp "$script" broken/
cp "$own/setup.sh" "$own/Cargo.toml" broken/host/
cp "$own/tool/Cargo.toml" broken/host/tool/
echo 'kpalumere staticlib:' >broken/crates.txt
printf '#!/bin/sh\necho "fn kpalumere::seven: not proved"\nexit 1\n' >fake/rt
chmod +x fake/rt
script=broken/kpalumere PATH=$room/fake:$PATH start --version
expect 'where the library is not proved nothing is run, and the status is 4' gave 4 ''
expect 'what failed is said' says 'kpalumere::seven: not proved'

expected
