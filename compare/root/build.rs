//! Finds the inside of the library, which compare/run compiles.
use std::env;
use std::path::PathBuf;

fn main() {
    let folder = PathBuf::from(env::var_os("CARGO_MANIFEST_DIR").unwrap()).join("../../target/root");
    println!("cargo:rerun-if-changed={}", folder.join("libinside.a").display());
    println!("cargo:rustc-link-search=native={}", folder.display());
    println!("cargo:rustc-link-lib=static=inside");
    println!("cargo:rustc-link-lib=m");
}
