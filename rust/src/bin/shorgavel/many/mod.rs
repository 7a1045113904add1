//! Several files and folders: a line each, on all processors, and what they come to.

mod files;
mod judged;
mod room;
mod workers;

pub use judged::Judged;

use crate::failure::Failure;
use crate::form::Form;
use crate::out::Out;
use crate::progress::Progress;
use crate::words::{self, counted};
use crate::{csv, json};
use files::Files;
use room::Room;
use std::ffi::{OsStr, OsString};
use std::io::{self, Write};

/// What is said of one file among several.
pub trait Line: Send {
    /// The names of its own columns, which stand between the file's verdict and the notes.
    const COLUMNS: &'static [&'static str];
    fn of(file: &OsStr) -> Self;
    fn judged(&self) -> &Judged;
    /// What stands above the words, where names take so much room.
    fn heading(width: usize) -> Option<String>;
    fn words(&self, width: usize) -> String;
    /// What stands in its own columns.
    fn fields(&self) -> Vec<String>;
    /// The same as members of an object, each behind a comma.
    fn members(&self, out: &mut Out) -> io::Result<()>;
}

/// Of which verdict what is said of one file and of more, in the order of the last line.
const SHARES: [(&str, &str, &str); 6] = [
    ("agrees", "agrees", "agree"),
    ("parts", "parts", "part"),
    ("refused", "is refused", "are refused"),
    ("cut", "is cut", "are cut"),
    ("nothing compared", "has no row to compare", "have no row to compare"),
    ("unread", "cannot be read", "cannot be read"),
];

/// A longer name pushes the rest of its line aside.
const WIDEST: usize = 60;

/// A file that is refused stops none behind it.
pub fn show<L: Line>(names: &[OsString], form: Form, out: &mut Out) -> Result<(), Failure> {
    let files = Files::of(names);
    files.failures.iter().for_each(Failure::say);
    let mut counts = [0; SHARES.len()];
    let mut worst = files.failures.iter().map(Failure::status).max_by_key(rank).unwrap_or(0);
    let mut progress = Progress::new(files.names.len());
    let width = files.names.iter().map(|name| called(name).chars().count().min(WIDEST)).max().unwrap_or(0);
    begin::<L>(form, width, out)?;
    let room = Room::default();
    let judge = |file: &OsString| room.with(file, || L::of(file));
    workers::in_order(&files.names, judge, |line| {
        progress.step();
        let verdict = line.judged().verdict();
        counts.iter_mut().zip(SHARES).for_each(|(count, (name, ..))| *count += usize::from(name == verdict));
        let status = line.judged().done.as_ref().err().map_or(0, Failure::status);
        worst = [worst, status].into_iter().max_by_key(rank).unwrap_or(worst);
        put(&line, form, width, out)?;
        out.pass()
    })?;
    if form == Form::Words {
        writeln!(out, "{}", total(files.names.len(), &counts))?;
    }
    if worst == 0 {
        Ok(())
    } else {
        Err(Failure::Listed(worst))
    }
}

/// A file's name as it stands in a line.
pub fn called(file: &OsStr) -> String {
    if file == "-" {
        "standard input".to_string()
    } else {
        words::plain(&file.to_string_lossy())
    }
}

fn begin<L: Line>(form: Form, width: usize, out: &mut Out) -> io::Result<()> {
    match form {
        Form::Words => L::heading(width).map_or(Ok(()), |heading| writeln!(out, "{heading}")),
        Form::Csv => writeln!(out, "file,verdict,{},notes", L::COLUMNS.join(",")),
        Form::Json => Ok(()),
    }
}

fn put<L: Line>(line: &L, form: Form, width: usize, out: &mut Out) -> io::Result<()> {
    let judged = line.judged();
    match form {
        Form::Words => {
            out.text(line.words(width).as_bytes());
            judged.notes.iter().try_for_each(|note| write!(out, "; {note}"))?;
        }
        Form::Csv => {
            csv::field(out, &judged.name);
            write!(out, ",{}", judged.verdict())?;
            for field in line.fields().iter().chain([&judged.notes.join("; ")]) {
                out.text(b",");
                csv::field(out, field);
            }
        }
        Form::Json => {
            out.text(b"{\"file\":");
            json::string(out, &judged.name);
            write!(out, ",\"verdict\":\"{}\"", judged.verdict())?;
            line.members(out)?;
            out.text(b",\"notes\":[");
            for (at, note) in judged.notes.iter().enumerate() {
                out.text(if at == 0 { b"" } else { b"," });
                json::string(out, note);
            }
            out.text(b"]}");
        }
    }
    out.text(b"\n");
    Ok(())
}

/// Which status is worse: what was not seen at all is, then what was seen in part, then what was found.
fn rank(status: &u8) -> Option<usize> {
    [0, 5, 6, 1, 4, 3].iter().position(|known| known == status)
}

fn total(files: usize, counts: &[usize]) -> String {
    let told = counts.iter().zip(SHARES).filter(|(count, _)| **count > 0);
    let shares: Vec<_> =
        told.map(|(count, (_, one, more))| format!("{count} {}", if *count == 1 { one } else { more })).collect();
    match shares.is_empty() {
        true => format!("{}: nothing was compared", counted(files, "file")),
        false => format!("{}: {}", counted(files, "file"), shares.join(", ")),
    }
}
