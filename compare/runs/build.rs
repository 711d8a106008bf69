//! Finds the archive: in the folder LAXOMBIIT_LIB, or where `make lib` puts it in the repository. Its
//! hash lets a run say what it called.
use std::env;
use std::fs;
use std::path::PathBuf;
use std::process;

fn main() {
    println!("cargo:rerun-if-env-changed=LAXOMBIIT_LIB");
    let root = PathBuf::from(env::var_os("CARGO_MANIFEST_DIR").unwrap()).join("../..");
    let folder = match env::var_os("LAXOMBIIT_LIB") {
        Some(folder) => root.join(folder),
        None => root.join("target/lib"),
    };
    let archive = folder.join("liblaxombiit.a");
    println!("cargo:rerun-if-changed={}", archive.display());
    let Ok(bytes) = fs::read(&archive) else {
        eprintln!("there is no {}; `make lib` builds it", archive.display());
        process::exit(1);
    };
    println!("cargo:rustc-env=LAXOMBIIT_HASH={:016x}", bytes.into_iter().fold(0xcbf2_9ce4_8422_2325, fnv));
    println!("cargo:rustc-link-search=native={}", folder.display());
    println!("cargo:rustc-link-lib=static=laxombiit");
    println!("cargo:rustc-link-lib=m");
}

fn fnv(hash: u64, byte: u8) -> u64 {
    (hash ^ u64::from(byte)).wrapping_mul(0x0100_0000_01b3)
}
