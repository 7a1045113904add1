//! `compare --summary`: what is said of one file among several, in one line.

use super::compared::Compared;
use crate::failure::Failure;
use crate::input::Database;
use crate::leaf::{Count, Leaf, Lent};
use crate::many::{self, Judged};
use crate::out::Out;
use crate::trees::{Trees, Work};
use crate::words::{self, grouped};
use std::ffi::OsStr;
use std::io::{self, Write};

pub struct Line {
    judged: Judged,
    compared: Compared,
}

impl Line {
    /// In the order of the columns.
    fn numbers(&self) -> [usize; 5] {
        let Compared { count: Count { cells, parted, refused }, unshown_pages, unshown, .. } = &self.compared;
        [*cells, *parted, *refused, *unshown_pages, *unshown]
    }
}

impl many::Line for Line {
    const COLUMNS: &'static [&'static str] =
        &["rows", "rows that part", "rows refused by both", "pages on no tablet", "rows on no tablet"];

    fn of(file: &OsStr) -> Line {
        let mut compared = Compared::default();
        let judged = Judged::of(file, |database, notes| compare(database, &mut compared, notes));
        Line { judged, compared }
    }

    fn judged(&self) -> &Judged {
        &self.judged
    }

    fn heading(width: usize) -> Option<String> {
        let names = ["rows", "part", "refused", "no tablet"].map(|name| format!("{name:>12}")).concat();
        Some(format!("{:width$}  {:16}{names}", "file", "verdict"))
    }

    /// The pages that the original refuses are told by their rows.
    fn words(&self, width: usize) -> String {
        let [cells, parted, refused, _, unshown] = self.numbers();
        let numbers = [cells, parted, refused, unshown].map(|number| format!("{:>12}", grouped(number))).concat();
        format!("{:width$}  {:16}{numbers}", self.judged.name, self.judged.verdict())
    }

    fn fields(&self) -> Vec<String> {
        self.numbers().iter().map(usize::to_string).collect()
    }

    fn members(&self, out: &mut Out) -> io::Result<()> {
        let names = Self::COLUMNS.iter().zip(self.numbers());
        names.into_iter().try_for_each(|(name, number)| write!(out, ",\"{}\":{number}", name.replace(' ', "_")))
    }
}

fn compare(database: &Database, compared: &mut Compared, notes: &mut Vec<String>) -> Result<(), Failure> {
    let gauge = database.gauge()?;
    let trees = Trees::of(&gauge)?;
    let mut lent = Lent::default();
    for page in trees.leaves() {
        compared.page(&Leaf::open(&gauge, page)?, &mut lent, |_| ());
    }
    for tree in &trees.tables {
        if let Some(why) = tree.leaves.as_ref().err().filter(|why| why.is_fault()) {
            notes.push(format!("table {} is not compared: {}", words::plain(&tree.named.name), why.words()));
        }
    }
    notes.extend(words::all_unread(&trees.unread));
    trees.verdict(Work::Compare, compared.count.parted, compared.count.cells)
}
