//! Links the library that `scripts/static-library.sh` writes.

fn main() {
    let root = std::env::var("CARGO_MANIFEST_DIR").expect("cargo sets it");
    println!("cargo:rustc-link-search=native={root}/../target/staticlib");
    println!("cargo:rustc-link-lib=static=leskofar");
    println!("cargo:rerun-if-changed={root}/../target/staticlib/libleskofar.a");
}
