//! Asks the original something, and turns its errors and panics into answers.

use std::any::Any;
use std::cell::{Cell, RefCell};
use std::fmt;
use std::panic::{catch_unwind, set_hook, AssertUnwindSafe, Location};
use std::path::Path;

use sqlite_parser_nom::error::SQLiteError;

use crate::fault;

/// How the original refuses.
pub enum Refusal {
    Error,
    /// With `FILE:LINE` of the original, and the class of its message.
    Panic(String),
}

impl fmt::Display for Refusal {
    fn fmt(&self, f: &mut fmt::Formatter<'_>) -> fmt::Result {
        match self {
            Refusal::Error => f.write_str("err"),
            Refusal::Panic(place) => write!(f, "panic {place}"),
        }
    }
}

thread_local! {
    static ASKING: Cell<bool> = const { Cell::new(false) };
    static WAY: RefCell<String> = const { RefCell::new(String::new()) };
}

/// Panics of the original are answers and make no noise. A panic at any other
/// time is a fault of the driver, and is told.
pub fn record_panics() {
    set_hook(Box::new(|info| {
        let place = info.location().map_or("nowhere".to_string(), place_of);
        if ASKING.with(Cell::get) {
            let way = format!("{place} {}", class_of(message_of(info.payload())));
            WAY.with(|last| last.replace(way));
        } else {
            fault::tell(&format!("the driver panicked at {place}"));
        }
    }));
}

/// Only the file's name: where the original was built is nobody's business.
fn place_of(location: &Location) -> String {
    let path = Path::new(location.file());
    let name = path.file_name().unwrap_or(path.as_os_str());
    format!("{}:{}", name.to_string_lossy(), location.line())
}

fn message_of(payload: &dyn Any) -> &str {
    match payload.downcast_ref::<&str>() {
        Some(message) => message,
        None => payload.downcast_ref::<String>().map_or("", String::as_str),
    }
}

/// The messages of the original's panics, by what they begin with. One that is
/// not here is of a class that no number of ours may meet.
fn class_of(message: &str) -> &'static str {
    const CLASSES: [(&str, &str); 5] = [
        ("attempt to subtract with overflow", "below-zero"),
        ("attempt to ", "arithmetic"),
        ("range start index ", "range-start"),
        ("range end index ", "range-end"),
        ("not implemented: reserved", "reserved"),
    ];
    CLASSES
        .iter()
        .find(|(start, _)| message.starts_with(start))
        .map_or("other", |(_, class)| class)
}

pub fn ask<T>(question: impl FnOnce() -> Result<T, SQLiteError>) -> Result<T, Refusal> {
    ASKING.with(|asking| asking.set(true));
    let answer = catch_unwind(AssertUnwindSafe(question));
    ASKING.with(|asking| asking.set(false));
    match answer {
        Ok(Ok(shown)) => Ok(shown),
        Ok(Err(_)) => Err(Refusal::Error),
        Err(_) => Err(Refusal::Panic(WAY.with(RefCell::take))),
    }
}
