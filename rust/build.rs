//! For the feature `proved`: links libcontribution_book.a from the folder that
//! CONTRIBUTION_BOOK_LIB names, or else from ../target/staticlib.

use std::env;
use std::path::Path;

fn main() {
    println!("cargo::rerun-if-env-changed=CONTRIBUTION_BOOK_LIB");
    println!("cargo::rerun-if-changed=build.rs");
    if env::var_os("CARGO_FEATURE_PROVED").is_none() {
        return;
    }
    let package = env::var("CARGO_MANIFEST_DIR").expect("cargo sets it");
    let folder = env::var("CONTRIBUTION_BOOK_LIB").unwrap_or("../target/staticlib".into());
    let folder = Path::new(&package).join(folder);
    let archive = folder.join("libcontribution_book.a");
    println!("cargo::rerun-if-changed={}", archive.display());
    if archive.is_file() {
        println!("cargo::rustc-link-search=native={}", folder.display());
        println!("cargo::rustc-link-lib=static=contribution_book");
    } else {
        println!(
            "cargo::error={} is not there: run `scripts/library` in the \
             repository's root, or set CONTRIBUTION_BOOK_LIB to the folder that has it",
            archive.display()
        );
    }
}
