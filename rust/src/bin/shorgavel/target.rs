//! Where the output goes: standard output, or a file that is there whole or not at all.

use std::ffi::{OsStr, OsString};
use std::fs::{self, File};
use std::io::{self, ErrorKind, StdoutLock, Write};
use std::path::{Path, PathBuf};

pub enum Target {
    Standard(StdoutLock<'static>),
    /// A device or a pipe, which takes bytes and is never replaced.
    Straight(File),
    Beside(Beside),
}

/// A file beside the one that it becomes. It is gone where it does not.
pub struct Beside {
    file: File,
    path: PathBuf,
    becomes: PathBuf,
    done: bool,
}

impl Target {
    pub fn standard() -> Target {
        Target::Standard(io::stdout().lock())
    }

    pub fn file(name: &OsStr) -> io::Result<Target> {
        match fs::metadata(name) {
            Ok(data) if data.is_dir() => Err(io::Error::new(ErrorKind::Other, "it is a folder")),
            Ok(data) if !data.is_file() => File::options().write(true).open(name).map(Target::Straight),
            // A link stays, and what it leads to is replaced.
            Ok(_) => Beside::of(fs::canonicalize(name)?).map(Target::Beside),
            Err(error) if error.kind() == ErrorKind::NotFound => Beside::of(PathBuf::from(name)).map(Target::Beside),
            Err(error) => Err(error),
        }
    }

    pub fn write(&mut self, bytes: &[u8]) -> io::Result<()> {
        match self {
            Target::Standard(to) => to.write_all(bytes).and_then(|()| to.flush()),
            Target::Straight(to) => to.write_all(bytes),
            Target::Beside(to) => to.file.write_all(bytes),
        }
    }

    /// All is written.
    pub fn end(&mut self) -> io::Result<()> {
        match self {
            Target::Standard(_) | Target::Straight(_) => Ok(()),
            Target::Beside(to) => to.end(),
        }
    }
}

impl Beside {
    fn of(becomes: PathBuf) -> io::Result<Beside> {
        let mut name = OsString::from(".");
        name.push(becomes.file_name().ok_or_else(|| io::Error::new(ErrorKind::Other, "it is no name of a file"))?);
        name.push(format!(".{}.part", std::process::id()));
        let path = becomes.parent().unwrap_or(Path::new("")).join(name);
        let file = File::options().write(true).create_new(true).open(&path)?;
        let beside = Beside { file, path, becomes, done: false };
        // Who may read the file that is replaced may read the new one.
        if let Ok(data) = fs::metadata(&beside.becomes) {
            beside.file.set_permissions(data.permissions())?;
        }
        Ok(beside)
    }

    /// The bytes reach the disk before the name does.
    fn end(&mut self) -> io::Result<()> {
        self.file.sync_all()?;
        fs::rename(&self.path, &self.becomes)?;
        self.done = true;
        Ok(())
    }
}

impl Drop for Beside {
    fn drop(&mut self) {
        if !self.done {
            let _ = fs::remove_file(&self.path);
        }
    }
}
