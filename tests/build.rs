//! Links the static library that `build/crate swap` writes.
fn main() {
    let top = std::env::var("CARGO_MANIFEST_DIR").expect("cargo names the package's folder");
    println!("cargo:rustc-link-search=native={top}/../target/staticlib");
    println!("cargo:rustc-link-lib=static=swap");
    println!("cargo:rerun-if-changed={top}/../target/staticlib/libswap.a");
}
