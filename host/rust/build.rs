//! Links the archive that `make lib` writes.

fn main() {
    let package = std::env::var("CARGO_MANIFEST_DIR").unwrap_or_default();
    let directory = format!("{package}/../../target/staticlib");
    println!("cargo:rustc-link-search=native={directory}");
    println!("cargo:rustc-link-lib=static=mschap");
    println!("cargo:rerun-if-changed={directory}/libmschap.a");
    println!("cargo:rerun-if-changed=build.rs");
}
