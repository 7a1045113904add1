//! The database that is shown.

use crate::failure::Failure;
use shorgavel::{Gauge, PageCount, Reading, Refusal};
use std::ffi::OsStr;
use std::fs::{self, File};
use std::io::{self, Read};
use std::path::{Path, PathBuf};

/// SQLite's sixteen bytes.
const OPENING: &[u8; 16] = b"SQLite format 3\0";

pub struct Database {
    pub name: String,
    /// The name of the log beside it, where there is one with writes in it.
    pub log: Option<String>,
    bytes: Vec<u8>,
    length: u64,
}

impl Database {
    /// The same as `open`; a log beside it is told.
    pub fn read(file: &OsStr) -> Result<Database, Failure> {
        let database = Database::open(file)?;
        if let Some(log) = &database.log {
            eprintln!("shorgavel: the last writes are in {log}, beside the file: they are not read");
        }
        Ok(database)
    }

    /// Reads a file whole; one that is over the limit by its length is not read, nor is a log beside it.
    pub fn open(file: &OsStr) -> Result<Database, Failure> {
        let name = match file.to_str() {
            Some("-") => "standard input".to_string(),
            _ => Path::new(file).file_name().unwrap_or(file).to_string_lossy().into_owned(),
        };
        let (bytes, length) =
            load(file).map_err(|error| Failure::Unread(file.to_string_lossy().into_owned(), error))?;
        Ok(Database { name, log: log_of(file), bytes, length })
    }

    /// The bytes, if they are not too many.
    pub fn gauge(&self) -> Result<Gauge<'_>, Refusal> {
        Gauge::within_limit(self.length)?;
        Ok(Gauge::new(&self.bytes))
    }

    /// How many pages there are and are there, where not all are.
    pub fn cut(&self) -> Option<PageCount> {
        let pages = self.gauge().and_then(|gauge| gauge.page_count(Reading::File)).ok()?;
        (pages.present < pages.count).then_some(pages)
    }
}

/// Whether a file begins as a database does.
pub fn is_database(file: &Path) -> io::Result<bool> {
    let mut opening = Vec::new();
    File::open(file)?.take(OPENING.len() as u64).read_to_end(&mut opening)?;
    Ok(opening == OPENING)
}

/// SQLite looks for it beside the file itself, wherever a link to it stands.
fn log_of(file: &OsStr) -> Option<String> {
    let mut log = fs::canonicalize(file).ok()?.into_os_string();
    log.push("-wal");
    let written = fs::metadata(&log).is_ok_and(|data| data.is_file() && data.len() > 0);
    let name = PathBuf::from(log).file_name()?.to_string_lossy().into_owned();
    (written && file != "-").then_some(name)
}

fn load(file: &OsStr) -> io::Result<(Vec<u8>, u64)> {
    if file == "-" {
        return take(io::stdin().lock(), 0);
    }
    let file = File::open(file)?;
    let length = file.metadata()?.len();
    if length > Gauge::LIMIT {
        return Ok((Vec::new(), length));
    }
    take(file, length)
}

/// A pipe has no length to ask for: at most a byte over the limit is read.
fn take(from: impl Read, expected: u64) -> io::Result<(Vec<u8>, u64)> {
    let mut bytes = Vec::with_capacity(expected as usize);
    from.take(Gauge::LIMIT + 1).read_to_end(&mut bytes)?;
    let length = bytes.len() as u64;
    Ok((bytes, length))
}
