//! Links the proved code: `libexports.a` in the directory that
//! CAVINDORUM_STATICLIB names, or where `rt lib` makes it.

use std::env;
use std::path::{Path, PathBuf};

fn main() {
    println!("cargo:rerun-if-env-changed=CAVINDORUM_STATICLIB");
    let made = || Path::new(env!("CARGO_MANIFEST_DIR")).join("../../crates/exports/out");
    let named = env::var_os("CAVINDORUM_STATICLIB").map(PathBuf::from);
    let directory = named.unwrap_or_else(made);
    let library = directory.join("libexports.a");
    println!("cargo:rerun-if-changed={}", library.display());
    if !library.exists() {
        let library = library.display();
        eprintln!("{library} is missing; `rt lib` in crates/exports makes it");
        std::process::exit(1);
    }
    println!("cargo:rustc-link-search=native={}", directory.display());
    println!("cargo:rustc-link-lib=static=exports");
}
