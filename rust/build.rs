//! Finds the archive `libdhikmarul.a` and tells cargo to link it.
//!
//! It is looked for in the folder named by the environment variable
//! `DHIKMARUL_LIB` (a relative one counts from this package), else where
//! `rt lib` in `crates/dhikmarul` puts it: in `crates/dhikmarul/out` of the
//! repository this package stands in.

use std::env;
use std::path::PathBuf;
use std::process::exit;

const ARCHIVE: &str = "libdhikmarul.a";
const FOLDER_VARIABLE: &str = "DHIKMARUL_LIB";

fn main() {
    println!("cargo:rerun-if-env-changed={FOLDER_VARIABLE}");
    println!("cargo:rerun-if-changed=build.rs");
    let folder = archive_folder();
    let archive = folder.join(ARCHIVE);
    // Named even where it is missing, so that a later build looks again.
    println!("cargo:rerun-if-changed={}", archive.display());
    if !archive.is_file() {
        eprintln!(
            "error: {} is missing.\n\
             Build it with `rt lib` in the repository's folder crates/dhikmarul,\n\
             or name the folder that holds {ARCHIVE} in {FOLDER_VARIABLE}.",
            archive.display()
        );
        exit(1);
    }
    println!("cargo:rustc-link-search=native={}", folder.display());
    println!("cargo:rustc-link-lib=static=dhikmarul");
}

/// The folder the archive is expected in.
fn archive_folder() -> PathBuf {
    let package = env::var_os("CARGO_MANIFEST_DIR").expect("cargo sets CARGO_MANIFEST_DIR");
    let package = PathBuf::from(package);
    match env::var_os(FOLDER_VARIABLE) {
        // Joining an absolute folder gives that folder.
        Some(folder) => package.join(folder),
        None => package.join("..").join("crates").join("dhikmarul").join("out"),
    }
}
