//! Links the proved library, which `rt lib` has made in crates/clib.

fn main() {
    let here = std::env::var("CARGO_MANIFEST_DIR").expect("cargo names the package's folder");
    let archive = format!("{here}/../crates/clib/out");
    println!("cargo:rustc-link-search=native={archive}");
    println!("cargo:rustc-link-lib=static=clib");
    println!("cargo:rerun-if-changed={archive}/libclib.a");
}
