//! What lines on files have in common: the name, how the file alone would have ended, and notes.

use crate::failure::Failure;
use crate::input::Database;
use crate::words::{self, grouped};
use shorgavel::PageCount;
use std::ffi::OsStr;

pub struct Judged {
    /// As it was named, or as it is found in a folder.
    pub name: String,
    /// As the file alone would have ended.
    pub done: Result<(), Failure>,
    /// What else there is to say.
    pub notes: Vec<String>,
}

impl Judged {
    /// Of a file that is opened, and compared by the caller, who may add notes.
    pub fn of(file: &OsStr, compare: impl FnOnce(&Database, &mut Vec<String>) -> Result<(), Failure>) -> Judged {
        let mut notes = Vec::new();
        let done = judge(file, compare, &mut notes);
        notes.extend(done.as_ref().err().and_then(why));
        Judged { name: super::called(file), done, notes }
    }

    /// In one word or two.
    pub fn verdict(&self) -> &'static str {
        match &self.done {
            Ok(()) => "agrees",
            Err(Failure::Found) => "parts",
            Err(Failure::Cut(_)) => "cut",
            Err(Failure::Nothing(_)) => "nothing compared",
            Err(Failure::Unread(..)) => "unread",
            Err(_) => "refused",
        }
    }
}

/// A file that is cut is told as one, whatever else there is to tell.
fn judge(
    file: &OsStr,
    compare: impl FnOnce(&Database, &mut Vec<String>) -> Result<(), Failure>,
    notes: &mut Vec<String>,
) -> Result<(), Failure> {
    let database = Database::open(file)?;
    let done = compare(&database, notes);
    if let Some(log) = &database.log {
        let log = words::plain(log);
        notes.push(format!("the last writes are in {log}, beside the file: they are not read"));
    }
    let Some(pages) = database.cut() else {
        return done;
    };
    notes.extend(done.err().as_ref().and_then(why));
    Err(Failure::Cut(pages))
}

/// What the verdict alone does not say.
fn why(failure: &Failure) -> Option<String> {
    match failure {
        Failure::Refused(refusal) => {
            let mut words = String::new();
            words::refusal(&mut words, *refusal);
            Some(words)
        }
        Failure::Unread(_, error) => Some(error.to_string()),
        Failure::Cut(PageCount { count, present }) => {
            Some(format!("{} of its {} pages are there", grouped(*present as usize), grouped(*count as usize)))
        }
        _ => None,
    }
}
