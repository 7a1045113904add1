//! Why the readings part on a cell, in words: a line, or one for each column that differs.

use crate::leaf::{Leaf, Standing, Trio};
use crate::words::{self, counted};
use shorgavel::{Cell, Mark, Refusal, TextEncoding, Value};

/// The lines on a cell that parts; none on another.
pub fn lines(trio: &Trio<'_>, encoding: TextEncoding) -> Vec<String> {
    let place = format!("page {} cell {}", trio.page, trio.cell);
    match trio.standing() {
        Standing::Agree | Standing::Refused => Vec::new(),
        Standing::Differ(old, file, guarded) => differ(&place, old, file, guarded, encoding),
        Standing::OldRefuses(old, file, guarded) => {
            let mut line = format!("{place}: {}: old refuses it (", meaning(guarded));
            words::refusal(&mut line, old);
            line.push_str("), the gauge wrote ");
            words::row(&mut line, file, encoding);
            vec![line]
        }
        Standing::FileRefuses(old, file) => {
            let mut line = format!("{place}: file refuses it (");
            words::refusal(&mut line, file);
            line.push_str("), old shows ");
            words::row(&mut line, old, encoding);
            vec![line]
        }
    }
}

/// The line on a page of which the original shows nothing; none on another.
pub fn refused_whole(leaf: &Leaf<'_>) -> Option<String> {
    leaf.refused_whole().map(|refusal| format!("page {}: {}", leaf.number(), unshown(leaf.len(), refusal)))
}

/// What there is to say of a page of so many cells that the original refuses whole; of 0, where it was not opened.
pub fn unshown(cells: usize, refusal: Refusal) -> String {
    let cells = match cells {
        0 => "any of it".to_string(),
        1 => "its one cell".to_string(),
        cells => format!("any of its {}", counted(cells, "cell")),
    };
    let cell = refusal.cell().map_or(String::new(), |cell| format!(" for cell {cell}"));
    let mut line = format!("no tablet showed {cells}: the original refuses the page{cell}: ");
    words::refusal(&mut line, refusal);
    line
}

/// The line on a cell that old and file refuse; none on another. One reason is told once.
pub fn refused(trio: &Trio<'_>) -> Option<String> {
    let (Err(old), Err(file)) = (&trio.old, &trio.file) else {
        return None;
    };
    let (mut by_old, mut by_file) = (String::new(), String::new());
    words::refusal(&mut by_old, *old);
    words::refusal(&mut by_file, *file);
    let why = if by_old == by_file { by_old } else { format!("old: {by_old}; file: {by_file}") };
    Some(format!("page {} cell {}: {why}", trio.page, trio.cell))
}

/// The mark says more than that there is one.
fn meaning(refusal: Refusal) -> &'static str {
    refusal.mark().map_or(refusal.meaning(), Mark::meaning)
}

fn differ(place: &str, old: &Cell<'_>, file: &Cell<'_>, guarded: Refusal, encoding: TextEncoding) -> Vec<String> {
    let meaning = meaning(guarded);
    if !are_alike(old, file) {
        let mut line = format!("{place}: {meaning}: old shows ");
        words::row(&mut line, old, encoding);
        line.push_str(", the gauge wrote ");
        words::row(&mut line, file, encoding);
        return vec![line];
    }
    let lines: Vec<_> = differing(old, file)
        .map(|(column, shown, wrote)| {
            let why = Cause::of(guarded.mark(), wrote).map_or(meaning, Cause::words);
            let mut line = format!("{place} column {column}: {why}: old shows ");
            words::value(&mut line, shown, encoding);
            line.push_str(", the gauge wrote ");
            words::value(&mut line, wrote, encoding);
            line
        })
        .collect();
    if lines.is_empty() {
        return vec![format!("{place}: {meaning}: old and file show the same, guarded refuses it")];
    }
    lines
}

/// Whether two rows have one number, and as many columns.
pub fn are_alike(old: &Cell<'_>, file: &Cell<'_>) -> bool {
    old.rowid() == file.rowid() && old.columns() == file.columns()
}

/// The columns in which two such rows differ, with both values.
pub fn differing<'c>(
    old: &'c Cell<'_>,
    file: &'c Cell<'_>,
) -> impl Iterator<Item = (usize, Value<'c>, Value<'c>)> + 'c {
    let pairs = old.values().zip(file.values()).enumerate();
    pairs.filter(|(_, (shown, wrote))| shown != wrote).map(|(column, (shown, wrote))| (column, shown, wrote))
}

/// Why one value differs.
pub enum Cause {
    StoredOne,
    EmptyText,
    EmptyBlob,
    Spills,
}

impl Cause {
    /// With marks 1 and 2 columns may be shifted, and a value tells nothing by itself.
    pub fn of(mark: Option<Mark>, wrote: Value<'_>) -> Option<Cause> {
        match (mark?, wrote) {
            (Mark::LongVarint | Mark::LongHeaderSize, _) => None,
            (Mark::TypeNine, Value::Integer(1)) => Some(Cause::StoredOne),
            (_, Value::Text([])) => Some(Cause::EmptyText),
            (_, Value::Blob([])) => Some(Cause::EmptyBlob),
            // In a row that is whole nothing else differs: old looks for this value where the payload goes on elsewhere.
            _ => Some(Cause::Spills),
        }
    }

    fn words(self) -> &'static str {
        match self {
            Cause::StoredOne => "type 9",
            Cause::EmptyText => "an empty text",
            Cause::EmptyBlob => "an empty blob",
            Cause::Spills => Mark::Spills.meaning(),
        }
    }
}
