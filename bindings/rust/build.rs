//! Finds the archive: in the folder LAXOMBIIT_LIB, or where `make lib` puts it in the repository.
use std::env;
use std::path::PathBuf;

fn main() {
    println!("cargo:rerun-if-env-changed=LAXOMBIIT_LIB");
    let folder = match env::var_os("LAXOMBIIT_LIB") {
        Some(folder) => PathBuf::from(folder),
        None => PathBuf::from(env::var_os("CARGO_MANIFEST_DIR").unwrap()).join("../../target/lib"),
    };
    let archive = folder.join("liblaxombiit.a");
    println!("cargo:rerun-if-changed={}", archive.display());
    if !archive.is_file() {
        eprintln!("laxombiit: there is no {}.", archive.display());
        eprintln!("Run `make lib` at the root of the repository, or set LAXOMBIIT_LIB to the folder of liblaxombiit.a.");
        std::process::exit(1);
    }
    println!("cargo:rustc-link-search=native={}", folder.display());
    println!("cargo:rustc-link-lib=static=laxombiit");
}
