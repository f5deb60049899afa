//! Says where the static libraries are, and to link again when one has changed.
fn main() {
    let folder = concat!(env!("CARGO_MANIFEST_DIR"), "/../target/staticlib");
    println!("cargo:rustc-link-search=native={}", folder);
    println!("cargo:rerun-if-changed=build.rs");
    for name in ["judge", "exports"] {
        println!("cargo:rerun-if-changed={}/lib{}.a", folder, name);
    }
}
