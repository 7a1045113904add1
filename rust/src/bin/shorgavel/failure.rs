//! Why the command ends before it is done, or not well, and with which status.

use crate::trees::Work;
use shorgavel::{PageCount, Refusal};
use std::io::{self, ErrorKind};
use std::process::ExitCode;

pub enum Failure {
    /// The database, a page or a table is refused.
    Refused(Refusal),
    /// There is no such page; the words say which there are.
    Absent(Refusal, String),
    /// No table has this root page.
    NoTable(u32),
    /// The readings part, or something else wrote a row: what was to be found out, and told by the status.
    Found,
    /// A table was left out, as the output tells.
    Partial(Work),
    /// The words are wrong.
    Usage(String),
    /// A file cannot be read.
    Unread(String, io::Error),
    /// The output cannot be written.
    Unwritten(io::Error),
    /// The file that the output goes to cannot be written.
    UnwrittenFile(String, io::Error),
    /// Only a part of the file's pages is there. What there is was shown.
    Cut(PageCount),
    /// There was no row.
    Nothing(Work),
    /// A folder has no database.
    Bare(String),
    /// Of several files the worst has this status, as the output tells.
    Listed(u8),
}

impl Failure {
    /// Says why on standard error, and answers the status.
    pub fn end(self) -> ExitCode {
        self.say();
        ExitCode::from(self.status())
    }

    pub fn say(&self) {
        match self {
            Failure::Refused(refusal) => eprintln!("shorgavel: {refusal}"),
            Failure::Absent(refusal, pages) => eprintln!("shorgavel: {refusal}; {pages}"),
            Failure::NoTable(root) => {
                eprintln!("shorgavel: no table has the root page {root}; `shorgavel tables` lists the roots");
            }
            Failure::Found | Failure::Listed(_) => {}
            Failure::Partial(Work::Compare) => eprintln!("shorgavel: not all tables are compared"),
            Failure::Partial(Work::Ask) => eprintln!("shorgavel: not all tables are asked"),
            Failure::Usage(why) => eprintln!("shorgavel: {why}; `shorgavel --help` has the words"),
            Failure::Unread(file, error) => eprintln!("shorgavel: {file} cannot be read: {error}"),
            Failure::Unwritten(_) if self.is_broken_pipe() => {}
            Failure::Unwritten(error) => eprintln!("shorgavel: the output cannot be written: {error}"),
            Failure::UnwrittenFile(file, error) => eprintln!("shorgavel: {file} cannot be written: {error}"),
            Failure::Cut(PageCount { count, present }) => {
                eprintln!("shorgavel: the file is cut: {present} of its {count} pages are there");
            }
            Failure::Nothing(Work::Compare) => eprintln!("shorgavel: there is no row to compare"),
            Failure::Nothing(Work::Ask) => eprintln!("shorgavel: there is no row that could be asked"),
            Failure::Bare(folder) => eprintln!("shorgavel: {folder} is a folder with no database in it"),
        }
    }

    pub fn status(&self) -> u8 {
        match self {
            Failure::Found => 1,
            Failure::Usage(_) => 2,
            Failure::Unwritten(_) if self.is_broken_pipe() => 0,
            Failure::Unread(..) | Failure::Unwritten(_) | Failure::UnwrittenFile(..) => 3,
            Failure::Cut(_) => 4,
            Failure::Nothing(_) | Failure::Bare(_) => 5,
            Failure::Refused(_) | Failure::Absent(..) | Failure::NoTable(_) | Failure::Partial(_) => 6,
            Failure::Listed(status) => *status,
        }
    }

    /// Whoever reads has seen enough: `shorgavel rows FILE | head` is no failure.
    fn is_broken_pipe(&self) -> bool {
        matches!(self, Failure::Unwritten(error) if error.kind() == ErrorKind::BrokenPipe)
    }
}

impl From<Refusal> for Failure {
    fn from(refusal: Refusal) -> Failure {
        Failure::Refused(refusal)
    }
}

/// Errors of files are named where they are read; all others are of the output.
impl From<io::Error> for Failure {
    fn from(error: io::Error) -> Failure {
        Failure::Unwritten(error)
    }
}
