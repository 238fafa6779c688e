//! Links libexports.a, which bindings/archive.sh writes to target/staticlib at the repository's root. The variable
//! PLANNER_LIB_DIR names another folder that has it.

use std::env;
use std::path::{Path, PathBuf};

fn main() {
    println!("cargo:rerun-if-env-changed=PLANNER_LIB_DIR");
    let folder = match env::var_os("PLANNER_LIB_DIR") {
        Some(folder) => PathBuf::from(folder),
        None => Path::new(&env::var_os("CARGO_MANIFEST_DIR").expect("cargo sets it")).join("../../target/staticlib"),
    };
    let archive = folder.join("libexports.a");
    println!("cargo:rerun-if-changed={}", archive.display());
    let Ok(archive) = archive.canonicalize() else {
        eprintln!(
            "{} is not there: run `bash bindings/archive.sh` at the root of the planner's repository,",
            archive.display()
        );
        eprintln!("or set PLANNER_LIB_DIR to the folder that has libexports.a (an absolute path)");
        std::process::exit(1);
    };
    println!("cargo:rustc-link-search=native={}", archive.parent().expect("a file has a folder").display());
    println!("cargo:rustc-link-lib=static=exports");
}
