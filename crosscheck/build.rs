//! Tells cargo where the static archive of the library lies. Without the feature `library` there is nothing to link.

use std::env;
use std::path::PathBuf;
use std::process::exit;

const ARCHIVE: &str = "librulebook.a";

fn main() {
    println!("cargo:rerun-if-changed=build.rs");
    println!("cargo:rerun-if-env-changed=RULEBOOK_LIB_DIR");
    if env::var_os("CARGO_FEATURE_LIBRARY").is_none() {
        return;
    }
    let package = PathBuf::from(env::var_os("CARGO_MANIFEST_DIR").expect("cargo names the package's directory"));
    let directory = match env::var_os("RULEBOOK_LIB_DIR") {
        Some(given) => PathBuf::from(given),
        None => package.join("../target/staticlib"),
    };
    let archive = directory.join(ARCHIVE);
    println!("cargo:rerun-if-changed={}", archive.display());
    if !archive.is_file() {
        eprintln!("{ARCHIVE} is not in {}.", directory.display());
        eprintln!("Build it first by tools/archive, or name its directory in RULEBOOK_LIB_DIR,");
        eprintln!("or leave the library out with --no-default-features.");
        exit(1);
    }
    println!("cargo:rustc-link-search=native={}", directory.display());
    println!("cargo:rustc-link-lib=static=rulebook");
}
