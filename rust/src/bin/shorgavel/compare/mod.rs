//! `compare`: only the rows of tables in which the readings part, with the reason in words; and below them those that both
//! refuse, which part in nothing.

mod compared;
mod line;

pub use line::Line;

use crate::failure::Failure;
use crate::input::Database;
use crate::leaf::{Count, Leaf, Lent, Trio};
use crate::out::Out;
use crate::progress::Progress;
use crate::reason;
use crate::trees::{Trees, Work};
use crate::words::{self, counted};
use compared::Compared;
use shorgavel::{Gauge, Reading, TextEncoding};
use std::io::{self, Write};

/// What a line on a page of no table starts with.
const LOOSE: &str = "of no table: ";

pub fn show(database: &Database, out: &mut Out) -> Result<(), Failure> {
    let gauge = database.gauge()?;
    let trees = Trees::of(&gauge)?;
    let encoding = gauge.header(Reading::File)?.db_text_encoding;
    let mut sides = Sides { gauge, lent: Lent::default() };
    let mut progress = Progress::new(trees.leaves().count() + trees.loose.len());
    let parting = Told::Parting(encoding);

    let tables = sides.pages(trees.leaves(), "", &mut progress, parting, out)?;
    apart(&trees, out)?;
    let loose = sides.pages(trees.loose.iter().copied(), LOOSE, &mut progress, parting, out)?;
    drop(progress);
    sides.refused(&tables, &loose, out)?;
    unshown(&tables, out)?;
    if loose.count.cells > 0 {
        let Count { cells, parted, refused } = loose.count;
        write!(out, "{cells} cells of no table, deleted or damaged, do not count: ")?;
        writeln!(out, "{parted} part, {refused} are refused by old and file alike")?;
    }
    let Count { cells, parted, refused } = tables.count;
    writeln!(out, "{cells} cells compared: {parted} part, {refused} are refused by old and file alike")?;
    trees.verdict(Work::Compare, parted, cells)
}

/// What pages are compared with.
struct Sides<'a> {
    gauge: Gauge<'a>,
    lent: Lent,
}

/// Which rows lines are written on.
#[derive(Clone, Copy)]
enum Told {
    /// Those on which the readings part, and the pages that the original refuses whole.
    Parting(TextEncoding),
    /// Those that old and file refuse.
    Refused,
}

impl Told {
    fn lines(self, trio: &Trio<'_>) -> Vec<String> {
        match self {
            Told::Parting(encoding) => reason::lines(trio, encoding),
            Told::Refused => reason::refused(trio).into_iter().collect(),
        }
    }

    /// What is said before the lines of a page that the original refuses.
    fn page(self, leaf: &Leaf<'_>) -> Option<String> {
        match self {
            Told::Parting(_) => reason::refused_whole(leaf),
            Told::Refused => None,
        }
    }
}

impl Sides<'_> {
    /// The lines on the doubtful rows of some pages: each starts with the words given.
    fn pages(
        &mut self,
        pages: impl Iterator<Item = u32>,
        before: &str,
        progress: &mut Progress,
        told: Told,
        out: &mut Out,
    ) -> Result<Compared, Failure> {
        let mut compared = Compared::default();
        for page in pages {
            progress.step();
            let (leaf, mut lines) = (Leaf::open(&self.gauge, page)?, Vec::new());
            let whole = compared.page(&leaf, &mut self.lent, |trio| lines.extend(told.lines(trio)));
            let above = if whole { told.page(&leaf) } else { None };
            for line in above.into_iter().chain(lines) {
                out.text(before.as_bytes());
                out.text(line.as_bytes());
                out.text(b"\n");
            }
            out.pass()?;
        }
        Ok(compared)
    }

    /// The rows that old and file refuse. Their pages are gone through again, so that of a page nothing is kept but its
    /// number.
    fn refused(&mut self, tables: &Compared, loose: &Compared, out: &mut Out) -> Result<(), Failure> {
        let (own, others) = (&tables.refusing, &loose.refusing);
        if own.is_empty() && others.is_empty() {
            return Ok(());
        }
        let mut progress = Progress::new(own.len() + others.len());
        writeln!(out, "refused by old and file alike, and no part of the verdict:")?;
        self.pages(own.iter().copied(), "", &mut progress, Told::Refused, out)?;
        self.pages(others.iter().copied(), LOOSE, &mut progress, Told::Refused, out)?;
        Ok(())
    }
}

/// What was on no tablet, whatever the old reading shows of it.
fn unshown(tables: &Compared, out: &mut Out) -> io::Result<()> {
    if tables.unshown_pages == 0 {
        return Ok(());
    }
    let are = if tables.unshown_pages == 1 { "is" } else { "are" };
    let (pages, cells) = (counted(tables.unshown_pages, "page"), counted(tables.unshown, "cell"));
    writeln!(out, "{pages} with {cells} {are} refused by the original: what old shows there was on no tablet")
}

/// The tables that are not compared, and the rows of the schema that may name others.
fn apart(trees: &Trees, out: &mut Out) -> io::Result<()> {
    for tree in &trees.tables {
        if let Err(why) = &tree.leaves {
            writeln!(out, "table {} is not compared: {}", words::plain(&tree.named.name), why.words())?;
        }
    }
    words::all_unread(&trees.unread).map_or(Ok(()), |unread| writeln!(out, "{unread}"))
}
