//! Links the archive of the proved gate, `target/staticlib/libgate.a` of the repository.

use std::path::Path;

fn main() {
    if std::env::var_os("CARGO_FEATURE_PROVED").is_none() {
        return;
    }
    let folder = Path::new(env!("CARGO_MANIFEST_DIR")).join("../target/staticlib");
    let archive = folder.join("libgate.a");
    println!("cargo::rerun-if-changed={}", archive.display());
    println!("cargo::rerun-if-changed=build.rs");
    if !archive.exists() {
        println!(
            "cargo::error=The archive of the proved gate is not there: {}. Make it at the root of the repository with \
             `tests/c/archive` (it proves the gate first), then run cargo again. The model alone needs no archive: \
             `cargo test --offline --no-default-features`.",
            archive.display()
        );
        return;
    }
    let folder = folder.canonicalize().expect("the folder of the archive");
    println!("cargo::rustc-link-search=native={}", folder.display());
    println!("cargo::rustc-link-lib=static=gate");
}
