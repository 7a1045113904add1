//! `trust`: of each table whether the printed sheets and the gauge say the same in all of its rows, and if not, which row is
//! the first that parts. It is made to be printed and handed over.

mod line;
mod parting;
mod verdict;

pub use line::Line;

use crate::failure::Failure;
use crate::folded;
use crate::input::Database;
use crate::out::Out;
use crate::trees::{Apart, Tree, Trees, Work};
use crate::words::{self, counted};
use shorgavel::{Gauge, Place, Reading, Refusal, TextEncoding};
use verdict::Verdict;

pub fn show(database: &Database, out: &mut Out) -> Result<(), Failure> {
    let gauge = database.gauge()?;
    let encoding = gauge.header(Reading::File)?.db_text_encoding;
    let trees = Trees::of(&gauge)?;
    let mut verdict = Verdict::default();

    let name = words::plain(&database.name);
    let title = format!("{name}: do the printed sheets (the old reading) and the gauge (the file) say the same?");
    folded::put_wide(out, &title);
    out.text(b"\n");
    for tree in &trees.tables {
        let found = Found::of(&gauge, tree)?;
        verdict.take(&found);
        state(&gauge, tree, &found, encoding, out)?;
        out.pass()?;
    }
    if let Some(unread) = words::all_unread(&trees.unread) {
        folded::put(out, "unread", &unread);
    }
    out.text(b"\n");
    verdict.put(database, &trees, out);
    trees.verdict(Work::Compare, verdict.parting, verdict.rows)
}

/// How the two stand to each other in a table.
enum Found<'t> {
    /// In all of its rows, so many, they say the same: that is a theorem on a table that is trusted.
    Agrees(usize),
    /// It has so many rows, and this is the first in which they need not, with the refusal of it.
    Parts(usize, Place, Refusal),
    /// It has no row.
    Empty,
    /// Its rows were not compared.
    Apart(&'t Apart),
}

impl<'t> Found<'t> {
    fn of(gauge: &Gauge<'_>, tree: &'t Tree) -> Result<Found<'t>, Refusal> {
        let root = match tree.root() {
            Ok(root) => root,
            Err(why) => return Ok(Found::Apart(why)),
        };
        let refusal = match gauge.trusted(root) {
            Ok(table) if table.is_empty() => return Ok(Found::Empty),
            Ok(table) => return Ok(Found::Agrees(table.len())),
            Err(refusal) => refusal,
        };
        // The walk is accepted, so it is a row's refusal, and the walk has the row's number.
        let table = gauge.table(root)?;
        let told = |place: &&Place| (Some(place.page()), Some(place.cell())) == (refusal.page(), refusal.cell());
        let place = table.places().iter().find(told).ok_or(refusal)?;
        Ok(Found::Parts(table.len(), *place, refusal))
    }
}

/// A table in a statement of one line or more.
fn state(
    gauge: &Gauge<'_>,
    tree: &Tree,
    found: &Found<'_>,
    encoding: TextEncoding,
    out: &mut Out,
) -> Result<(), Failure> {
    let name = words::plain(&tree.named.name);
    match found {
        Found::Agrees(1) => folded::put(out, "agrees", &format!("{name}: its one row")),
        Found::Agrees(rows) => folded::put(out, "agrees", &format!("{name}: all {}", counted(*rows, "row"))),
        Found::Empty => folded::put(out, "empty", &format!("{name}: it has no rows, so nothing was compared")),
        Found::Apart(Apart::Refused(refusal)) => {
            folded::put(out, "damaged", &format!("{name}: its tree is not sound: {}", broken(*refusal)));
            folded::put(out, "", "Nothing of it can be trusted as a whole.");
        }
        Found::Apart(why) => {
            let label = if why.is_fault() { "damaged" } else { "left out" };
            folded::put(out, label, &format!("{name}: not compared, {}", why.words()));
        }
        Found::Parts(rows, place, refusal) => {
            let (row, page, cell) = (place.rowid(), place.page(), place.cell());
            let first = match rows {
                1 => "its one row parts:".to_string(),
                _ => format!("{}; the first that parts is", counted(*rows, "row")),
            };
            folded::put(out, "parts", &format!("{name}: {first} row {row} (page {page}, cell {cell})"));
            parting::put(out, gauge, *place, *refusal, encoding)?;
        }
    }
    Ok(())
}

/// Where a tree is not sound, and why; the number is there for whoever asks further.
fn broken(refusal: Refusal) -> String {
    let place = match (refusal.page(), refusal.cell()) {
        (Some(page), Some(cell)) => format!("on page {page}, cell {cell}, "),
        (Some(page), None) => format!("at page {page}, "),
        _ => String::new(),
    };
    format!("{place}{} ({})", refusal.meaning(), refusal.number())
}
