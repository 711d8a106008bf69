//! Names the sources as modules, by their paths: in the folder ANIMATO_SRC, or ../shared/docs/src from
//! the repository's root. They are read where they lie, and hashed, so that a run can say what it read.
use std::env;
use std::fmt::Write;
use std::fs;
use std::path::PathBuf;
use std::process;

const MODULES: [(&str, &str); 5] = [
    ("easing", "crates/animato-core/src/easing.rs"),
    ("math", "crates/animato-core/src/math.rs"),
    ("loop_mode", "crates/animato-tween/src/loop_mode.rs"),
    ("tween", "crates/animato-tween/src/tween.rs"),
    ("keyframe", "crates/animato-tween/src/keyframe.rs"),
];

fn main() {
    println!("cargo:rerun-if-env-changed=ANIMATO_SRC");
    let root = PathBuf::from(env::var_os("CARGO_MANIFEST_DIR").unwrap()).join("../..");
    let sources = match env::var_os("ANIMATO_SRC") {
        Some(folder) => root.join(folder),
        None => root.join("../shared/docs/src"),
    };
    let (mut modules, mut hash) = (String::new(), 0xcbf2_9ce4_8422_2325);
    for (name, file) in MODULES {
        let path = sources.join(file);
        println!("cargo:rerun-if-changed={}", path.display());
        let Ok(path) = path.canonicalize() else {
            eprintln!(
                "there is no {}; set ANIMATO_SRC to a checkout of animato at fd9d7198f7",
                path.display()
            );
            process::exit(1);
        };
        hash = fs::read(&path).unwrap().into_iter().fold(hash, fnv);
        writeln!(modules, "#[path = {path:?}]\npub mod {name};").unwrap();
    }
    println!("cargo:rustc-env=ANIMATO_HASH={hash:016x}");
    let out = PathBuf::from(env::var_os("OUT_DIR").unwrap());
    fs::write(out.join("modules.rs"), modules).unwrap();
}

fn fnv(hash: u64, byte: u8) -> u64 {
    (hash ^ u64::from(byte)).wrapping_mul(0x0100_0000_01b3)
}
