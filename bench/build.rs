//! Links the port's two archives: the C interface, and the benchmark's entry to the file's route.

use std::env;

fn main() {
    for name in ["BENCH_FFI", "BENCH_FILE"] {
        println!("cargo:rerun-if-env-changed={name}");
        let archive = env::var(name).unwrap_or_else(|_| panic!("{name} names an archive"));
        println!("cargo:rerun-if-changed={archive}");
        println!("cargo:rustc-link-arg-bins={archive}");
    }
}
