//! Finds libexports.a, the proved readers, and links it.
//!
//! It is taken from the folder that `SHORGAVEL_LIBRARY` names, as it is there. Otherwise it is the repository's own, which
//! bin/prove proves and writes first where it is missing or older than the sources.

use std::env;
use std::fs::File;
use std::path::{Path, PathBuf};
use std::process::{self, Command, Stdio};

const VARIABLE: &str = "SHORGAVEL_LIBRARY";
const ARCHIVE: &str = "libexports.a";

fn main() {
    println!("cargo:rerun-if-changed=build.rs");
    println!("cargo:rerun-if-env-changed={VARIABLE}");
    if env::var("CARGO_CFG_TARGET_ARCH").as_deref() != Ok("x86_64") {
        fail("the proved library is for x86-64: build with --target x86_64-unknown-linux-gnu, as bin/rust-test does");
    }
    let folder = match env::var_os(VARIABLE) {
        Some(folder) => given(PathBuf::from(folder)),
        None => proved(),
    };
    println!("cargo:rerun-if-changed={}", folder.join(ARCHIVE).display());
    println!("cargo:rustc-link-search=native={}", folder.display());
    println!("cargo:rustc-link-lib=static=exports");
}

fn given(folder: PathBuf) -> PathBuf {
    if !folder.join(ARCHIVE).is_file() {
        fail(&format!("{VARIABLE} is {}, which has no {ARCHIVE}", folder.display()));
    }
    folder
}

fn proved() -> PathBuf {
    let package = PathBuf::from(env::var_os("CARGO_MANIFEST_DIR").expect("cargo names the package's folder"));
    let root = package.parent().expect("the package lies in a folder");
    for source in ["crates", "crates.txt"] {
        println!("cargo:rerun-if-changed={}", root.join(source).display());
    }
    prove(root)
}

/// A build of the library is a proof of the readers: what is not proved is not linked.
fn prove(root: &Path) -> PathBuf {
    match Command::new(root.join("bin/prove")).arg("library").stderr(heard()).output() {
        Err(error) => fail(&format!(
            "bin/prove of the repository, which proves the readers, does not run ({error}). Let {VARIABLE} name a folder \
             that has {ARCHIVE}"
        )),
        Ok(said) if !said.status.success() => fail("the readers are not proved, and are not linked"),
        Ok(said) => PathBuf::from(String::from_utf8_lossy(&said.stdout).trim_end()),
    }
}

/// A proof takes minutes and tells each crate. Cargo keeps what a build says until its end, so it is told to the terminal
/// where there is one.
fn heard() -> Stdio {
    File::options().write(true).open("/dev/tty").map_or_else(|_| Stdio::inherit(), Stdio::from)
}

fn fail(why: &str) -> ! {
    eprintln!("shorgavel: {why}");
    process::exit(1);
}
