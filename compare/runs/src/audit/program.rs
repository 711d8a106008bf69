//! The program, run on files in a folder of its own.
use super::Files;
use std::env;
use std::ffi::OsStr;
use std::fmt;
use std::fs;
use std::io::{self, Write};
use std::path::{Path, PathBuf};
use std::process::{self, Command, Stdio};

pub const ROOT: &str = concat!(env!("CARGO_MANIFEST_DIR"), "/../..");

/// What came of a run.
#[derive(PartialEq)]
pub struct Ended {
    pub output: String,
    pub errors: String,
    pub normally: bool,
}

impl fmt::Display for Ended {
    fn fmt(&self, f: &mut fmt::Formatter) -> fmt::Result {
        f.write_str(&self.output)?;
        self.errors.lines().try_for_each(|line| writeln!(f, "(standard error) {line}"))?;
        f.write_str(if self.normally { "" } else { "(it did not end normally)" })
    }
}

/// It goes when the run is over.
pub struct Folder(PathBuf);

impl Folder {
    pub fn new() -> io::Result<Self> {
        let folder = env::temp_dir().join(format!("laxombiit-audit-{}", process::id()));
        fs::create_dir_all(&folder)?;
        Ok(Self(folder))
    }

    pub fn path(&self, name: &str) -> PathBuf {
        self.0.join(name)
    }

    /// Also the name of the log, which comes through a pipe or lies beside the ramp.
    pub fn audit(&self, place: u64, files: &Files, piped: bool) -> io::Result<(Ended, String)> {
        let [ramp, log] = ["ramp", "log"].map(|name| self.path(&format!("{name}{place}")));
        fs::write(&ramp, &files.ramp)?;
        fs::write(&log, &files.log)?;
        let (log_name, input) =
            if piped { (Path::new("/dev/stdin"), &files.log[..]) } else { (log.as_path(), &[][..]) };
        let ended = run([&ramp, log_name], input)?;
        fs::remove_file(&ramp)?;
        fs::remove_file(&log)?;
        Ok((ended, log_name.display().to_string()))
    }
}

impl Drop for Folder {
    fn drop(&mut self) {
        let _ = fs::remove_dir_all(&self.0);
    }
}

/// The one that LAXOMBIIT_AUDIT names, or the one that is built here; seen from the repository's root.
pub fn program() -> PathBuf {
    env::var_os("LAXOMBIIT_AUDIT").unwrap_or("target/bin/audit".into()).into()
}

pub fn run(arguments: impl IntoIterator<Item = impl AsRef<OsStr>>, input: &[u8]) -> io::Result<Ended> {
    let mut child = Command::new(Path::new(ROOT).join(program()))
        .args(arguments)
        .stdin(Stdio::piped())
        .stdout(Stdio::piped())
        .stderr(Stdio::piped())
        .spawn()?;
    // the program may end before it has read all
    let _ = child.stdin.take().expect("a pipe").write_all(input);
    let ended = child.wait_with_output()?;
    let text = |bytes: Vec<u8>| String::from_utf8_lossy(&bytes).into_owned();
    let normally = ended.status.success();
    Ok(Ended { output: text(ended.stdout), errors: text(ended.stderr), normally })
}
