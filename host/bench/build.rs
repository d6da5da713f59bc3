//! Compiles the plain reading in C, with the compiler that cargo links with.

use std::path::{Path, PathBuf};
use std::process::Command;

const SOURCES: [&str; 4] = ["aspt.c", "flash.c", "guids.c", "mailbox.c"];

fn main() {
    let folder = Path::new("plain");
    let out = PathBuf::from(variable("OUT_DIR"));
    // On another processor cargo is told a linker for x86-64; it is the driver of a C compiler.
    let compiler = std::env::var("RUSTC_LINKER").unwrap_or_else(|_| "cc".into());
    println!("cargo:rerun-if-changed=plain");
    println!("cargo:rerun-if-env-changed=RUSTC_LINKER");
    let mut objects = Vec::new();
    for source in SOURCES {
        let object = out.join(source).with_extension("o");
        run(Command::new(&compiler)
            .args([
                "-std=c99",
                "-O2",
                "-Wall",
                "-Wextra",
                "-Werror",
                "-pedantic",
                "-c",
                "-o",
            ])
            .arg(&object)
            .arg(folder.join(source)));
        objects.push(object);
    }
    let archive = out.join("libplain.a");
    // `ar` adds to an archive that is there.
    drop(std::fs::remove_file(&archive));
    run(Command::new(archiver(&compiler))
        .arg("crs")
        .arg(&archive)
        .args(&objects));
    println!("cargo:rustc-link-search=native={}", out.display());
    println!("cargo:rustc-link-lib=static=plain");
}

/// The `ar` that belongs to the compiler.
fn archiver(compiler: &str) -> String {
    let told = Command::new(compiler).arg("-print-prog-name=ar").output();
    let told = told.unwrap_or_else(|error| panic!("{compiler} cannot be started: {error}"));
    String::from_utf8_lossy(&told.stdout).trim().to_string()
}

fn run(command: &mut Command) {
    let status = command
        .status()
        .unwrap_or_else(|error| panic!("{command:?} cannot be started: {error}"));
    assert!(status.success(), "{command:?} ended with {status}");
}

fn variable(name: &str) -> String {
    std::env::var(name).unwrap_or_else(|_| panic!("cargo sets {name}"))
}
