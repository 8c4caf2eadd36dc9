//! Links the proved libraries, which `bindings/library` writes.
fn main() {
    let folder = concat!(env!("CARGO_MANIFEST_DIR"), "/../target/staticlib");
    println!("cargo:rustc-link-search=native={folder}");
    for name in ["exports", "raw_exports"] {
        println!("cargo:rerun-if-changed={folder}/lib{name}.a");
        println!("cargo:rustc-link-lib=static={name}");
    }
}
