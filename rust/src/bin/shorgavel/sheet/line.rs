//! The lines that a row comes to: one, or two where old and file have none in common.

use crate::leaf::Trio;
use crate::reason;
use crate::words;
use shorgavel::{Cell, Mark, Refusal};

/// A line of the sheet.
pub struct Line<'t, 'a> {
    /// The row's number, where a reading or the walk along the table knows it.
    pub number: Option<i64>,
    pub shown: Shown<'t, 'a>,
    /// Which readings show it; none where a sheet has one reading alone.
    pub sides: Option<Sides>,
}

pub enum Shown<'t, 'a> {
    Row(&'t Cell<'a>),
    /// What old shows and what file shows: rows of one number and as many columns, which differ in some.
    Differing(&'t Cell<'a>, &'t Cell<'a>),
    Refused(Refusal),
}

pub struct Sides {
    pub readings: Readings,
    /// Whether guarded shows the row; none where another line of it tells that.
    pub guarded: Option<Result<(), Refusal>>,
    /// Whether the readings part on the row.
    pub parts: bool,
}

/// Whose line it is.
#[derive(Clone, Copy)]
pub enum Readings {
    /// Old and file show the same.
    Same,
    /// They differ in some columns.
    Differ,
    /// Both refuse the row for one reason.
    Both,
    Old,
    File,
}

impl<'t, 'a> Line<'t, 'a> {
    /// What one reading shows of a row.
    pub fn alone(shown: Result<&'t Cell<'a>, Refusal>, number: Option<i64>) -> Line<'t, 'a> {
        match shown {
            Ok(cell) => Line { number: Some(cell.rowid()), shown: Shown::Row(cell), sides: None },
            Err(refusal) => Line { number, shown: Shown::Refused(refusal), sides: None },
        }
    }

    /// What guarded shows, and so the others too.
    pub fn agreed(cell: &'t Cell<'a>) -> Line<'t, 'a> {
        let sides = Sides { readings: Readings::Same, guarded: Some(Ok(())), parts: false };
        Line { sides: Some(sides), ..Line::alone(Ok(cell), None) }
    }
}

/// The lines of any row, which has that number in its table.
pub fn each<'t, 'a>(trio: &'t Trio<'a>, number: Option<i64>, mut line: impl FnMut(Line<'t, 'a>)) {
    let parts = trio.parts();
    let guarded = Some(trio.guarded.as_ref().map(drop).map_err(|refusal| *refusal));
    let sides = |readings, guarded| Some(Sides { readings, guarded, parts });
    match (&trio.old, &trio.file) {
        (Ok(old), Ok(file)) if reason::are_alike(old, file) => {
            let differ = reason::differing(old, file).next().is_some();
            let (readings, shown) = match differ {
                true => (Readings::Differ, Shown::Differing(old, file)),
                false => (Readings::Same, Shown::Row(file)),
            };
            line(Line { number: Some(file.rowid()), shown, sides: sides(readings, guarded) });
        }
        (Err(old), Err(file)) if said(*old) == said(*file) => {
            line(Line { number, shown: Shown::Refused(*file), sides: sides(Readings::Both, guarded) });
        }
        (old, file) => {
            let alone = |shown: &'t Result<Cell<'a>, Refusal>| Line::alone(shown.as_ref().map_err(|why| *why), number);
            line(Line { sides: sides(Readings::Old, None), ..alone(old) });
            line(Line { sides: sides(Readings::File, guarded), ..alone(file) });
        }
    }
}

fn said(refusal: Refusal) -> String {
    let mut words = String::new();
    words::refusal(&mut words, refusal);
    words
}

impl Readings {
    /// A dagger tells that what old shows was never on a tablet.
    pub fn words(self, on_tablet: bool) -> &'static str {
        match (self, on_tablet) {
            (Readings::Same, true) => "old = file",
            (Readings::Same, false) => "old† = file",
            (Readings::Differ, true) => "old ≠ file",
            (Readings::Differ, false) => "old† ≠ file",
            (Readings::Both, true) => "old, file",
            (Readings::Both, false) => "old†, file",
            (Readings::Old, true) => "old",
            (Readings::Old, false) => "old†",
            (Readings::File, _) => "file",
        }
    }
}

/// What guarded makes of a row, in few words: the top of the sheet has more.
pub fn guarded(shown: Result<(), Refusal>) -> String {
    match shown {
        Ok(()) => "shows it".to_string(),
        Err(refusal) => match refusal.mark() {
            Some(mark) => format!("refuses: {}", brief(mark)),
            None => format!("refuses: {}", refusal.number()),
        },
    }
}

fn brief(mark: Mark) -> &'static str {
    match mark {
        Mark::LongVarint => "long varint",
        Mark::LongHeaderSize => "long header size",
        Mark::TypeNine => "stored 1",
        Mark::NoBytes => "no bytes",
        Mark::Spills => "long note",
    }
}
