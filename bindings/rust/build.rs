//! Links libstarlark_checks.a from the folder that STARLARK_LIB names (default: target/native of the repository).

use std::env;
use std::path::Path;
use std::process::exit;

fn main() {
    println!("cargo:rerun-if-env-changed=STARLARK_LIB");
    let here = env::var("CARGO_MANIFEST_DIR").expect("cargo sets it");
    let folder = env::var("STARLARK_LIB").unwrap_or(format!("{here}/../../target/native"));
    let archive = Path::new(&folder).join("libstarlark_checks.a");
    println!("cargo:rerun-if-changed={}", archive.display());
    if !archive.is_file() {
        eprintln!("there is no {}", archive.display());
        eprintln!("`./ducat build` in the repository makes target/native/libstarlark_checks.a; STARLARK_LIB names another folder that has it");
        exit(1);
    }
    println!("cargo:rustc-link-search=native={folder}");
    println!("cargo:rustc-link-lib=static=starlark_checks");
}
