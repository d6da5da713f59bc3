//! Links the proved library, the archive that `rt lib` writes in crates/kpalumere, and ./kpalumere and ./test copy to target/staticlib/.

use std::path::Path;

fn main() {
    let package = std::env::var("CARGO_MANIFEST_DIR").expect("cargo sets CARGO_MANIFEST_DIR");
    let root = Path::new(&package)
        .ancestors()
        .nth(2)
        .expect("the package lies two folders below the repository's root");
    let folder = root.join("target").join("staticlib");
    let archive = folder.join("libkpalumere.a");
    println!("cargo:rerun-if-changed={}", archive.display());
    if !archive.is_file() {
        eprintln!(
            "The proved library is not built: there is no {}. Run `./kpalumere --help` in {}, \
             which builds all that is missing.",
            archive.display(),
            root.display()
        );
        std::process::exit(1);
    }
    println!("cargo:rustc-link-search=native={}", folder.display());
    println!("cargo:rustc-link-lib=static=kpalumere");
}
