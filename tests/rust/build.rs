//! Links liblockplan.a where the feature asks for it. Its folder is LOCKPLAN_LIB,
//! or target/staticlib at the top of the repository.

use std::env;
use std::path::PathBuf;

fn main() {
    println!("cargo:rerun-if-changed=build.rs");
    println!("cargo:rerun-if-env-changed=LOCKPLAN_LIB");
    if env::var_os("CARGO_FEATURE_LIBRARY").is_none() {
        return;
    }
    let here = PathBuf::from(env::var_os("CARGO_MANIFEST_DIR").expect("set by cargo"));
    let folder = match env::var_os("LOCKPLAN_LIB") {
        Some(folder) => here.join(folder),
        None => here.join("../../target/staticlib"),
    };
    let archive = folder.join("liblockplan.a");
    println!("cargo:rerun-if-changed={}", archive.display());
    if !archive.is_file() {
        eprintln!("{} is not there: scripts/program library makes it,", archive.display());
        eprintln!("and LOCKPLAN_LIB names its folder where it is another.");
        std::process::exit(1);
    }
    println!("cargo:rustc-link-search=native={}", folder.display());
    println!("cargo:rustc-link-lib=static=lockplan");
}
