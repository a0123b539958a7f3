//! Links the library of inner calls, which `tools/staticlib inside` writes.
fn main() {
    let root = std::env::var("CARGO_MANIFEST_DIR").unwrap();
    println!("cargo:rustc-link-search=native={root}/../../target/staticlib");
    println!("cargo:rustc-link-lib=static=inside");
    println!("cargo:rerun-if-changed={root}/../../target/staticlib/libinside.a");
}
