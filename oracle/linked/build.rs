//! Links the archive that ORACLE_ARCHIVE names. An archive that lacks a function of the C interface is not linked.

use std::env;

fn main() {
    println!("cargo:rerun-if-env-changed=ORACLE_ARCHIVE");
    let archive = env::var("ORACLE_ARCHIVE").expect("ORACLE_ARCHIVE names the archive to compare");
    println!("cargo:rerun-if-changed={archive}");
    println!("cargo:rustc-link-arg-bins={archive}");
}
