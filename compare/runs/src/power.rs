//! Shows that the short run would notice: each change in compare/changes.txt is made, alone, in a copy of
//! the comparing side and of the sources, and the short run of that copy must report a difference.
use std::env;
use std::fs;
use std::io;
use std::path::{Path, PathBuf};
use std::process::{Child, Command, Stdio};
use std::thread;
use std::time::{Duration, Instant};

const ROOT: &str = concat!(env!("CARGO_MANIFEST_DIR"), "/../..");
const SOURCES: [&str; 5] = [
    "crates/animato-core/src/easing.rs",
    "crates/animato-core/src/math.rs",
    "crates/animato-tween/src/loop_mode.rs",
    "crates/animato-tween/src/tween.rs",
    "crates/animato-tween/src/keyframe.rs",
];
/// What `refusals` reads.
const REFUSALS: &str = "docs/refusals.txt";
/// No run of a copy takes longer.
const SECONDS: u64 = 300;

struct Change {
    what: String,
    file: PathBuf,
    edits: Vec<(String, String)>,
}

/// Whether every change was noticed, or the one at a place from 1 on.
pub fn run(only: Option<u64>) -> bool {
    let work = PathBuf::from(ROOT).join("target/power");
    let changes = fs::read_to_string(format!("{ROOT}/compare/changes.txt")).map(|text| read(&text, &work));
    match changes.and_then(|changes| try_all(&work, &changes, only)) {
        Ok((noticed, all)) => {
            println!("power: {noticed} of {all} changes noticed");
            all > 0 && noticed == all
        }
        Err(error) => {
            println!("power: {error}");
            false
        }
    }
}

fn read(text: &str, work: &Path) -> Vec<Change> {
    let mut changes: Vec<Change> = Vec::new();
    for line in text.lines() {
        let (key, rest) = line.split_once(' ').unwrap_or((line, ""));
        match (key, changes.last_mut()) {
            ("#", _) => changes.push(Change { what: rest.into(), file: PathBuf::new(), edits: Vec::new() }),
            ("file:", Some(change)) => change.file = work.join(rest.trim()),
            ("old:", Some(change)) => change.edits.push((rest.trim().into(), String::new())),
            ("new:", Some(change)) => {
                change.edits.last_mut().expect("an old before its new").1 = rest.trim().into()
            }
            _ => {}
        }
    }
    changes
}

/// How many changes were noticed, and how many tried.
fn try_all(work: &Path, changes: &[Change], only: Option<u64>) -> io::Result<(usize, usize)> {
    let _ = fs::remove_dir_all(work.join("compare"));
    copy(&Path::new(ROOT).join("compare"), &work.join("compare"))?;
    fs::create_dir_all(work.join("docs"))?;
    fs::copy(Path::new(ROOT).join(REFUSALS), work.join(REFUSALS))?;
    let sources = Path::new(ROOT).join(env::var_os("ANIMATO_SRC").unwrap_or("../shared/docs/src".into()));
    for file in SOURCES {
        fs::create_dir_all(work.join("src").join(file).parent().expect("a folder"))?;
        fs::write(work.join("src").join(file), fs::read(sources.join(file))?)?;
    }
    let unchanged = short_run(work)?;
    if !unchanged.ends_with("0 differences") {
        return Err(io::Error::other(format!("the unchanged run: {unchanged}")));
    }
    println!("nothing changed: {unchanged}");
    let (mut noticed, mut tried) = (0, 0);
    for (place, change) in (1..).zip(changes).filter(|(place, _)| only.is_none_or(|only| only == *place)) {
        let seen = with_change(change, || short_run(work))?;
        println!("{place:>3} {}: {seen}", change.what);
        noticed += usize::from(seen.starts_with("caught"));
        tried += 1;
    }
    Ok((noticed, tried))
}

fn copy(from: &Path, to: &Path) -> io::Result<()> {
    fs::create_dir_all(to)?;
    for entry in fs::read_dir(from)? {
        let entry = entry?;
        let target = to.join(entry.file_name());
        if entry.file_type()?.is_dir() {
            if entry.file_name() != "target" {
                copy(&entry.path(), &target)?;
            }
        } else {
            fs::write(target, fs::read(entry.path())?)?;
        }
    }
    Ok(())
}

/// Makes the change, runs, and takes it back.
fn with_change(change: &Change, run: impl FnOnce() -> io::Result<String>) -> io::Result<String> {
    let before = fs::read_to_string(&change.file)?;
    let mut after = before.clone();
    for (old, new) in &change.edits {
        if after.matches(old).count() != 1 {
            return Ok(format!("NOT TRIED: '{old}' is not there once"));
        }
        after = after.replacen(old, new, 1);
    }
    fs::write(&change.file, after)?;
    let seen = run();
    fs::write(&change.file, before)?;
    seen
}

/// Builds the copy and runs it; in one line what came of it.
fn short_run(work: &Path) -> io::Result<String> {
    let target = work.join("target");
    if let Some(error) = build(work, &target)? {
        return Ok(format!("NOT BUILT: {error}"));
    }
    let out = work.join("out.txt");
    let run = Command::new(target.join("release/compare"))
        .arg("short")
        .stdout(fs::File::create(&out)?)
        .stderr(Stdio::null())
        .spawn()?;
    if !ended(run)? {
        return Ok(format!("NOT CAUGHT in {SECONDS} s"));
    }
    Ok(seen(&fs::read_to_string(out)?))
}

/// The first error, where there is one.
fn build(work: &Path, target: &Path) -> io::Result<Option<String>> {
    let library = Path::new(ROOT).join(env::var_os("LAXOMBIIT_LIB").unwrap_or("target/lib".into()));
    let built = Command::new("cargo")
        .args(["build", "--release", "--offline", "--quiet", "--manifest-path"])
        .arg(work.join("compare/Cargo.toml"))
        .env("ANIMATO_SRC", work.join("src").canonicalize()?)
        .env("LAXOMBIIT_LIB", library.canonicalize()?)
        .env("CARGO_TARGET_DIR", target)
        .env("CARGO_INCREMENTAL", "1")
        .output()?;
    let errors = String::from_utf8_lossy(&built.stderr);
    let first = errors.lines().find(|line| line.starts_with("error")).unwrap_or("cargo failed");
    Ok((!built.status.success()).then(|| first.to_string()))
}

fn ended(mut run: Child) -> io::Result<bool> {
    let began = Instant::now();
    while run.try_wait()?.is_none() {
        if began.elapsed().as_secs() > SECONDS {
            run.kill()?;
            run.wait()?;
            return Ok(false);
        }
        thread::sleep(Duration::from_millis(20));
    }
    Ok(true)
}

fn seen(out: &str) -> String {
    let last = out.lines().last().unwrap_or("nothing printed").trim_start_matches("compare: ");
    let by = out.lines().find_map(|line| line.strip_prefix("difference: "));
    match (by, last.split_once(" inputs")) {
        (Some(by), Some((inputs, _))) => format!("caught after {inputs} inputs by {by}"),
        _ => last.to_string(),
    }
}
