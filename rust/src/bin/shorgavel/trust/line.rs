//! What is said of one file among several, in one line.

use super::verdict::Verdict;
use super::Found;
use crate::failure::Failure;
use crate::input::Database;
use crate::json;
use crate::many::{self, Judged};
use crate::out::Out;
use crate::trees::{Apart, Trees, Work};
use crate::words::{self, counted};
use shorgavel::Place;
use std::ffi::OsStr;
use std::io::{self, Write};

pub struct Line {
    judged: Judged,
    seen: Seen,
}

#[derive(Default)]
struct Seen {
    /// How many tables were compared or are damaged, and how many rows were compared.
    tables: usize,
    rows: usize,
    /// The first row that parts, with the name of its table.
    first: Option<(String, Place)>,
}

impl many::Line for Line {
    const COLUMNS: &'static [&'static str] =
        &["tables", "rows", "first table", "first row", "first page", "first cell"];

    fn of(file: &OsStr) -> Line {
        let mut seen = Seen::default();
        let judged = Judged::of(file, |database, notes| seen.compare(database, notes));
        Line { judged, seen }
    }

    fn judged(&self) -> &Judged {
        &self.judged
    }

    fn heading(_: usize) -> Option<String> {
        None
    }

    fn words(&self, _: usize) -> String {
        let Seen { tables, rows, first } = &self.seen;
        let mut words = format!("{}: {}", self.judged.name, self.judged.verdict());
        if *tables > 0 {
            words += &format!(", {}, {}", counted(*tables, "table"), counted(*rows, "row"));
        }
        if let Some((table, place)) = first {
            let (row, page, cell) = (place.rowid(), place.page(), place.cell());
            words += &format!("; the first that parts is row {row} of {table} (page {page}, cell {cell})");
        }
        words
    }

    /// Where no row parts, its place is empty.
    fn fields(&self) -> Vec<String> {
        let Seen { tables, rows, first } = &self.seen;
        let place = first.as_ref().map_or([(); 4].map(|()| String::new()), |(table, place)| {
            [table.clone(), place.rowid().to_string(), place.page().to_string(), place.cell().to_string()]
        });
        [tables.to_string(), rows.to_string()].into_iter().chain(place).collect()
    }

    /// Where no row parts, it has no first.
    fn members(&self, out: &mut Out) -> io::Result<()> {
        let Seen { tables, rows, first } = &self.seen;
        write!(out, ",\"tables\":{tables},\"rows\":{rows}")?;
        if let Some((table, place)) = first {
            out.text(b",\"first\":{\"table\":");
            json::string(out, table);
            out.text(b",\"row\":");
            json::integer(out, place.rowid());
            write!(out, ",\"page\":{},\"cell\":{}}}", place.page(), place.cell())?;
        }
        Ok(())
    }
}

impl Seen {
    fn compare(&mut self, database: &Database, notes: &mut Vec<String>) -> Result<(), Failure> {
        let gauge = database.gauge()?;
        let trees = Trees::of(&gauge)?;
        let mut verdict = Verdict::default();
        for tree in &trees.tables {
            let found = Found::of(&gauge, tree)?;
            verdict.take(&found);
            let name = || words::plain(&tree.named.name);
            match found {
                Found::Parts(_, place, _) if self.first.is_none() => self.first = Some((name(), place)),
                Found::Apart(why) if why.is_fault() => notes.push(damaged(&name(), why)),
                _ => {}
            }
        }
        (self.tables, self.rows) = (verdict.tables(), verdict.rows);
        notes.extend(words::all_unread(&trees.unread));
        if verdict.is_schema_alone() {
            notes.push("nothing was compared but sqlite_schema, the list of the tables".to_string());
        }
        trees.verdict(Work::Compare, verdict.parting, verdict.rows)
    }
}

fn damaged(name: &str, why: &Apart) -> String {
    format!("table {name} is not compared: {}", why.words())
}
