# What ./test and ./kpalumere share: what the machine must have, and how the library and the host are built.
# shellcheck shell=bash disable=SC2034,SC2154
# It is sourced, by a script that has set `root` to the repository's folder. It changes nothing until a function is called.

# The library is for x86-64, so the host is too; on another processor its programs run under an emulator. Instructions are
# counted under it on every processor.
machine=$(uname -m)
rust_target=x86_64-unknown-linux-gnu
if [ "$machine" = x86_64 ]; then emulator=; else emulator=/usr/bin/qemu-x86_64; fi
instruction_counter=${emulator:-qemu-x86_64}

say() { printf '%s: %s\n' "${0##*/}" "$*" >&2; }

works() { "$@" --version >/dev/null 2>&1; }

# ---- the compilers

# Sets `cargo`, `rustfmt`, `c_compiler`, `c_flags` and `list_symbols`, and exports what cargo goes by. Cargo and rustc are
# always of one origin: the machine's own pair where it has one for x86-64, else Debian's.
choose_compilers() {
    # These would override what is set here.
    unset RUSTC RUSTFLAGS CARGO_ENCODED_RUSTFLAGS CARGO_BUILD_RUSTFLAGS CARGO_BUILD_TARGET CARGO_TARGET_DIR
    rustc=/usr/bin/rustc cargo=/usr/bin/cargo rustfmt=/usr/bin/rustfmt
    if [ "$machine" = x86_64 ]; then
        c_compiler=cc c_flags='' list_symbols=nm rust_flags=''
        if works cargo && works rustc; then cargo=cargo rustc=rustc; fi
        if works rustfmt; then rustfmt=rustfmt; fi
    else
        # Linked statically: under the emulator a program that loads the C library stops at once.
        c_compiler=x86_64-linux-gnu-gcc c_flags=-static list_symbols=x86_64-linux-gnu-nm
        rust_flags='-C target-feature=+crt-static -C relocation-model=static'
        export CARGO_TARGET_X86_64_UNKNOWN_LINUX_GNU_LINKER=$c_compiler
        export CARGO_TARGET_X86_64_UNKNOWN_LINUX_GNU_RUNNER=$emulator
        # A program with threads that starts another may hang in the emulator, whose small pieces of memory have a lock that a
        # fork does not open again. Taken from malloc they have none.
        export G_SLICE=always-malloc
    fi
    [ "$rustc" = rustc ] || export RUSTC=$rustc
    export CARGO_TARGET_X86_64_UNKNOWN_LINUX_GNU_RUSTFLAGS=$rust_flags
    export KPALUMERE_RUNNER=$emulator
}

# Where Debian's packages put the sources of Rust libraries.
rust_sources=/usr/share/cargo/registry

# Cargo with the words given, for x86-64 and without the network: the tool's libraries come from the folder of Debian's sources.
run_cargo() { # VERB WORDS...
    local verb=$1 sources=()
    shift
    if [ -d "$rust_sources" ]; then
        sources=(--config 'source.crates-io.replace-with="debian"' --config "source.debian.directory=\"$rust_sources\"")
    fi
    (cd "$root/host" && "$cargo" "$verb" --release --offline --target "$rust_target" "${sources[@]}" "$@")
}

# ---- what the machine must have

can_link_c() {
    # shellcheck disable=SC2086
    echo 'int main(void) { return 0; }' | "$c_compiler" $c_flags -x c -o /dev/null - 2>/dev/null
}

has_rust_library() {
    local folder
    folder=$("$rustc" --target "$rust_target" --print target-libdir 2>/dev/null) || return
    compgen -G "$folder/libstd-*.rlib" >/dev/null
}

# The tool's libraries, as Debian has their sources: a folder of `rust_sources` begins with the name, and the package has the rest.
rust_libraries='clap-4:clap-4 clap_complete-4:clap-complete serde_json-1:serde-json csv-1:csv indicatif-0.17:indicatif strsim-0.10:strsim'

# Prints the Debian packages that hold what the machine lacks. Only the tests need the formatter, the OVMF images, Python, which
# reads the JSON and CSV that the tool writes and holds the JSON to its schema, and what counts instructions: the emulator, and a
# compiler for its plugin.
missing_packages() { # tool | tests
    local library
    works "$rustc" || echo rustc
    works "$cargo" || echo cargo
    for library in $rust_libraries; do
        compgen -G "$rust_sources/${library%:*}*" >/dev/null || echo "librust-${library#*:}-dev"
    done
    if [ "$1" = tests ]; then
        works "$rustfmt" || echo rustfmt
        compgen -G '/usr/share/OVMF/*.fd' >/dev/null || echo ovmf
        python3 -c 'import csv, json, pty' 2>/dev/null || echo python3
        python3 -c 'import jsonschema' 2>/dev/null || echo python3-jsonschema
    fi
    if [ "$machine" = x86_64 ]; then
        can_link_c || printf '%s\n' gcc libc6-dev
        [ "$1" != tests ] || works "$instruction_counter" || echo qemu-user
    else
        works "$emulator" || echo qemu-user
        [ "$1" != tests ] || works cc || printf '%s\n' gcc libc6-dev
        can_link_c || printf '%s\n' gcc-x86-64-linux-gnu libc6-dev:amd64
        has_rust_library || echo libstd-rust-dev:amd64
    fi
}

# Installs what the machine lacks, or says what to run as root.
install_missing() { # tool | tests
    choose_compilers
    local packages command log=$root/host/target/install.log
    packages=$(missing_packages "$1" | tr '\n' ' ')
    packages=${packages% }
    [ -n "$packages" ] || return 0
    command="apt-get update && apt-get install -y --no-install-recommends $packages"
    [ "$machine" = x86_64 ] || command="dpkg --add-architecture amd64 && $command"
    if ! command -v apt-get >/dev/null; then
        say "this machine lacks what the Debian packages $packages hold, and has no apt-get. Install the same by its own means, and start again."
        return 1
    fi
    if [ "$(id -u)" -ne 0 ]; then
        say "this machine lacks $packages. Run this as root, and start again:"
        printf '    %s\n' "$command" >&2
        return 1
    fi
    say "installing $packages (less than a minute with a good network)"
    mkdir -p "$root/host/target"
    if ! DEBIAN_FRONTEND=noninteractive sh -c "$command" </dev/null >"$log" 2>&1; then
        tail -n 15 "$log" >&2
        say "the packages cannot be installed; all that apt-get said is in $log. Once this works as root, start again: $command"
        return 1
    fi
    choose_compilers
    packages=$(missing_packages "$1" | tr '\n' ' ')
    [ -z "$packages" ] || { say "after the installation the machine still lacks $packages; $log has what apt-get said"; return 1; }
}

require_rt() {
    command -v rt >/dev/null && return
    say "there is no rt. Install the Rattle kit, which proves the library, and put its folder bin/ on the PATH."
    return 1
}

# ---- the lock

# One build at a time in this folder: proofs and builds share the crates' out/, target/ and host/target/.
lock_builds() {
    local lock=$root/host/target/lock
    if ! { mkdir -p "$root/host/target" && : >>"$lock"; }; then
        say "nothing can be built, since $lock cannot be written. Make the folder writable, or work in a copy of it."
        return 1
    fi
    exec 9>>"$lock"
    flock -n 9 && return
    say "another build is running in this folder; this one waits for it to end"
    flock 9
}

unlock_builds() { exec 9>&-; }

# ---- the library and the tool

# A number that changes with what any of the files holds, but for what rt makes.
sources_of() { # FILE-OR-FOLDER...
    (cd "$root" && find "$@" -path 'crates/*/out' -prune -o -type f -print0 | LC_ALL=C sort -z | xargs -0 sha256sum) | sha256sum | cut -d' ' -f1
}

# Proves the library and writes the archive, whatever stands there. rt writes it to the crate's out/; callers find it in target/staticlib/.
make_library() {
    local archive=$root/target/staticlib/libkpalumere.a sources
    require_rt || return
    sources=$(sources_of crates crates.txt)
    rm -f "$archive" "$archive.sources"
    (cd "$root/crates/kpalumere" && rt lib) || return
    mkdir -p "${archive%/*}" && cp "$root/crates/kpalumere/out/libkpalumere.a" "$archive" || return
    printf '%s\n' "$sources" >"$archive.sources"
}

library_is_current() {
    local archive=$root/target/staticlib/libkpalumere.a
    [ -f "$archive" ] && [ "$(cat "$archive.sources" 2>/dev/null)" = "$(sources_of crates crates.txt)" ]
}

# The tool that ./kpalumere runs. It stands apart from what ./test builds, which is built with other words.
tool_folder=$root/host/target/kpalumere
tool=$tool_folder/kpalumere

tool_sources() {
    echo "$machine $(sources_of crates crates.txt host/Cargo.toml host/setup.sh host/bindings host/tool/Cargo.toml host/tool/src)"
}

tool_is_current() {
    [ -x "$tool" ] && [ "$(cat "$tool.sources" 2>/dev/null)" = "$(tool_sources)" ]
}

# Proves and builds the library where it is not current. All that rt says is kept in a log; its words on each crate are shown.
bring_library() { # LOG
    if library_is_current; then return; fi
    say "proving and building the library: some minutes the first time, then only what changed"
    make_library 2>&1 | tee "$1" | grep --line-buffered -E '^rt: |: (no proof|not proved)|: error|: there is no rt' >&2
    [ "${PIPESTATUS[0]}" -eq 0 ] || { say "the library is not proved or not built; all that was said is in $1"; return 1; }
}

# Builds what the tool lacks. All that the builders say is kept.
build_tool() {
    local log=$tool_folder/build.log sources
    mkdir -p "$tool_folder"
    sources=$(tool_sources)
    install_missing tool || return
    bring_library "$log" || return
    say "building the tool: about a minute the first time, then less"
    if ! run_cargo build --package tool --target-dir "$tool_folder/cargo" >"$log" 2>&1; then
        cat "$log" >&2
        say "the tool cannot be built; what cargo said stands above and in $log"
        return 1
    fi
    # Put in place in one step, so that whoever starts it at this moment gets the old one or the new one.
    cp "$tool_folder/cargo/$rust_target/release/kpalumere" "$tool.new" && mv -f "$tool.new" "$tool" || return
    printf '%s\n' "$sources" >"$tool.sources"
}
