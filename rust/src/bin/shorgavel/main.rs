//! The command `shorgavel`: shows a gauge's database in the three readings. `shorgavel --help` has its words.

#![forbid(unsafe_code)]

mod args;
mod compare;
mod csv;
mod failure;
mod folded;
mod form;
mod header;
mod input;
mod json;
mod leaf;
mod lines;
mod many;
mod options;
mod out;
mod page;
mod progress;
mod reason;
mod sheet;
mod tables;
mod target;
mod trees;
mod trust;
mod words;
mod writer;

use args::{Asked, Order};
use failure::Failure;
use input::Database;
use out::Out;
use std::ffi::OsStr;
use std::fs;
use std::process::ExitCode;

fn main() -> ExitCode {
    match args::parse(std::env::args_os().skip(1)).and_then(run) {
        Ok(()) => ExitCode::SUCCESS,
        Err(failure) => failure.end(),
    }
}

fn run(Asked { order, output }: Asked) -> Result<(), Failure> {
    let output = output.as_deref();
    if let Some(output) = output {
        order.files().iter().try_for_each(|file| spare(file, output))?;
    }
    let done = Out::new(output).map_err(Failure::from).and_then(|mut out| {
        let done = show(order, &mut out);
        out.end(done)
    });
    match (done, output) {
        (Err(Failure::Unwritten(error)), Some(file)) => {
            Err(Failure::UnwrittenFile(file.to_string_lossy().into_owned(), error))
        }
        (done, _) => done,
    }
}

/// What is read is not written over, nor is a database of a folder that is.
fn spare(file: &OsStr, output: &OsStr) -> Result<(), Failure> {
    let (Ok(read), Ok(written)) = (fs::canonicalize(file), fs::canonicalize(output)) else {
        return Ok(());
    };
    let in_folder = || written.starts_with(&read) && input::is_database(&written).unwrap_or(false);
    if written.is_file() && (read == written || in_folder()) {
        let name = output.to_string_lossy();
        return Err(Failure::Usage(format!("{name} is a file that is read: it is not written over")));
    }
    Ok(())
}

fn show(order: Order, out: &mut Out) -> Result<(), Failure> {
    match order {
        Order::Say(text) => {
            out.text(text.as_bytes());
            Ok(())
        }
        Order::Trust(file) => whole(&file, |database| trust::show(database, out)),
        Order::TrustMany(files, form) => many::show::<trust::Line>(&files, form, out),
        Order::Writer(file) => whole(&file, |database| writer::show(database, out)),
        Order::Header(file) => header::show(&Database::read(&file)?, out),
        Order::Page(file, number, reading) => page::show(&Database::read(&file)?, number, reading, out),
        Order::Tables(file) => whole(&file, |database| tables::show(database, out)),
        Order::Rows(file, lines) => whole(&file, |database| lines::show(database, lines, out)),
        Order::Summary(files, form) => many::show::<compare::Line>(&files, form, out),
        Order::Compare(file) => whole(&file, |database| compare::show(database, out)),
        Order::Sheet(file, asked) => whole(&file, |database| sheet::show(database, asked, out)),
    }
}

/// Where only a part of the file's pages is there, what is shown is a part, whatever else there was to tell.
fn whole(file: &OsStr, show: impl FnOnce(&Database) -> Result<(), Failure>) -> Result<(), Failure> {
    let database = Database::read(file)?;
    match (show(&database), database.cut()) {
        (Err(failure @ Failure::Unwritten(_)), _) => Err(failure),
        (done, None) => done,
        (done, Some(pages)) => {
            if let Err(failure) = done {
                failure.say();
            }
            Err(Failure::Cut(pages))
        }
    }
}
