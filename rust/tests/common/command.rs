//! The command `shorgavel` as tests run it.

use std::ffi::OsStr;
use std::fs;
use std::io::Write;
use std::path::{Path, PathBuf};
use std::process::{Command, Output, Stdio};
use std::sync::atomic::{AtomicUsize, Ordering};

/// The command; on another machine than x86-64, under the emulator that bin/rust-test names.
pub fn command() -> Command {
    let program = env!("CARGO_BIN_EXE_shorgavel");
    match std::env::var_os("SHORGAVEL_UNDER") {
        Some(emulator) => {
            let mut command = Command::new(emulator);
            command.arg(program);
            command
        }
        None => Command::new(program),
    }
}

pub fn run<S: AsRef<OsStr>>(words: &[S]) -> Output {
    command().args(words).output().expect("the command runs")
}

pub fn fed(words: &[&str], bytes: &[u8]) -> Output {
    let mut command = command();
    command.args(words).stdin(Stdio::piped()).stdout(Stdio::piped()).stderr(Stdio::piped());
    let mut child = command.spawn().expect("the command runs");
    child.stdin.take().unwrap().write_all(bytes).unwrap();
    child.wait_with_output().unwrap()
}

pub fn out(output: &Output) -> &str {
    std::str::from_utf8(&output.stdout).unwrap()
}

pub fn err(output: &Output) -> &str {
    std::str::from_utf8(&output.stderr).unwrap()
}

pub fn status(output: &Output) -> i32 {
    output.status.code().unwrap()
}

/// The inputs that are kept for the proved program `rows`, and of each its part of what the program writes of all: `rows` is the one on
/// standard input, `rows_NAME` the file NAME.db. The parts stand in the order of the program's arguments, each below the heading.
pub fn kept(name: &str, file: &str) -> PathBuf {
    static PARTS: AtomicUsize = AtomicUsize::new(0);
    const HEADING: &str = "page cell reading rowid values\n";
    let rows = Path::new(env!("CARGO_MANIFEST_DIR")).join("../crates/rows");
    let database = name.strip_prefix("rows_").map(|name| format!("{name}.db"));
    if file == "stdin" {
        return database.map_or(rows.join(file), |database| rows.join("data").join(database));
    }
    let named = database.unwrap_or("-".to_string());
    let at = fs::read_to_string(rows.join("args")).unwrap().lines().position(|word| word == named).unwrap();
    let all = fs::read_to_string(rows.join(file)).unwrap();
    let part = all.split(HEADING).nth(at + 1).unwrap();
    let path = Path::new(env!("CARGO_TARGET_TMPDIR")).join(format!("{name}_{}", PARTS.fetch_add(1, Ordering::Relaxed)));
    fs::write(&path, format!("{HEADING}{part}")).unwrap();
    path
}

/// A file that is gone once the test is over.
pub struct Kept(pub PathBuf);

impl Kept {
    pub fn new(name: &str, bytes: &[u8]) -> Kept {
        let path = Path::new(env!("CARGO_TARGET_TMPDIR")).join(name);
        fs::write(&path, bytes).unwrap();
        Kept(path)
    }

    pub fn show(&self, words: &[&str]) -> Output {
        command().arg(words[0]).arg(&self.0).args(&words[1..]).output().unwrap()
    }
}

impl Drop for Kept {
    fn drop(&mut self) {
        fs::remove_file(&self.0).unwrap();
    }
}
