//! Links the proved library, which `bindings/library exports` writes: from the folder that the variable
//! `DRIVER_BENCH_LIB` names, by default `target/staticlib` of the repository.
use std::env;

fn main() {
    let beside = concat!(env!("CARGO_MANIFEST_DIR"), "/../../target/staticlib");
    let folder = env::var("DRIVER_BENCH_LIB").unwrap_or(beside.to_string());
    println!("cargo:rerun-if-env-changed=DRIVER_BENCH_LIB");
    println!("cargo:rerun-if-changed={folder}/libexports.a");
    println!("cargo:rustc-link-search=native={folder}");
    println!("cargo:rustc-link-lib=static=exports");
}
