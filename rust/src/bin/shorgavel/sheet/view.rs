//! What of a database is shown: the lines of its pages.

use super::line::{self, Line};
use crate::leaf::{Leaf, Lent};
use crate::progress::Progress;
use shorgavel::{Gauge, Notes, Place, Reading, Refusal, Table};
use std::collections::HashMap;
use std::ops::AddAssign;

/// Which readings are shown, and of which rows.
#[derive(Clone, Copy, PartialEq)]
pub enum View {
    /// All rows in the three readings.
    Three,
    /// In the three readings those rows on which they part.
    Parting,
    One(Reading),
}

/// How many rows there are, and how they stand.
#[derive(Clone, Copy, Default)]
pub struct Tally {
    pub rows: usize,
    /// Rows on which the readings part; none where one alone is shown.
    pub parted: usize,
    /// Rows that old and file refuse, or that the one reading refuses.
    pub refused: usize,
    /// Pages that the original refuses whole, rows on them, and those of the rows that old and file show alike.
    pub unshown_pages: usize,
    pub unshown_rows: usize,
    pub unshown_alike: usize,
}

impl AddAssign for Tally {
    fn add_assign(&mut self, more: Tally) {
        self.rows += more.rows;
        self.parted += more.parted;
        self.refused += more.refused;
        self.unshown_pages += more.unshown_pages;
        self.unshown_rows += more.unshown_rows;
        self.unshown_alike += more.unshown_alike;
    }
}

/// The pages of a database, as they are viewed.
pub struct Pages<'a> {
    pub view: View,
    gauge: Gauge<'a>,
    lent: Lent,
    notes: Notes,
    /// What is found when rows are counted is told when they are shown.
    unshown: HashMap<u32, Unshown>,
    progress: Progress,
}

/// A page that the original refuses whole: why, and how many rows are on it.
#[derive(Clone, Copy)]
pub struct Unshown {
    pub refusal: Refusal,
    pub rows: usize,
}

impl<'a> Pages<'a> {
    /// So many pages are gone through in all.
    pub fn new(gauge: Gauge<'a>, view: View, pages: usize) -> Pages<'a> {
        let (lent, notes, unshown) = (Lent::default(), Notes::new(), HashMap::new());
        Pages { view, gauge, lent, notes, unshown, progress: Progress::new(pages) }
    }

    /// Counts the rows of a page and shows the lines of those that are viewed.
    pub fn count(&mut self, page: u32, line: impl FnMut(usize, &Line<'_, '_>)) -> Result<Tally, Refusal> {
        if matches!(self.view, View::One(Reading::Old | Reading::Guarded)) {
            self.look(page);
        }
        let mut tally = self.lines(page, &[], line)?;
        if let Some(unshown) = self.unshown(page) {
            tally.unshown_pages = 1;
            tally.unshown_rows = unshown.rows;
            tally.unshown_alike = tally.rows - tally.parted - tally.refused;
        }
        Ok(tally)
    }

    /// A page that the original refuses whole.
    pub fn unshown(&self, page: u32) -> Option<Unshown> {
        self.unshown.get(&page).copied()
    }

    /// Looks whether the original refuses a page, which file need not open.
    fn look(&mut self, page: u32) {
        let unshown = match self.gauge.get_page(Reading::Old, page - 1) {
            Ok(opened) => opened.head().err().map(|refusal| Unshown { refusal, rows: opened.len() }),
            Err(refusal) => Some(Unshown { refusal, rows: 0 }),
        };
        self.unshown.extend(unshown.map(|unshown| (page, unshown)));
    }

    /// The rows of the table at a root page, by a walk along it.
    pub fn rows(&self, root: u32) -> Result<Table<'a>, Refusal> {
        self.gauge.table(root)
    }

    /// The lines of a page, each with its cell. `rows` has the rows that the walk along the table found there.
    pub fn lines(
        &mut self,
        page: u32,
        rows: &[Place],
        line: impl FnMut(usize, &Line<'_, '_>),
    ) -> Result<Tally, Refusal> {
        self.progress.step();
        match self.view {
            View::One(reading) => self.one(reading, page, rows, line),
            View::Three | View::Parting => self.three(page, rows, line),
        }
    }

    fn one(
        &mut self,
        reading: Reading,
        page: u32,
        rows: &[Place],
        mut line: impl FnMut(usize, &Line<'_, '_>),
    ) -> Result<Tally, Refusal> {
        if let (Reading::Old, Some(unshown)) = (reading, self.unshown(page)) {
            return Ok(Tally { rows: unshown.rows, ..Tally::default() });
        }
        let leaf = self.gauge.get_page(reading, page - 1 + reading.first_page())?;
        let mut tally = Tally { rows: leaf.len(), ..Tally::default() };
        for cell in 0..leaf.len() {
            let shown = leaf.cell_with(cell, &mut self.notes);
            tally.refused += usize::from(shown.is_err());
            line(cell, &Line::alone(shown.as_ref().map_err(|why| *why), number(rows, cell)));
        }
        Ok(tally)
    }

    /// Where guarded shows a row, it alone tells that all agree: such a row is read once.
    fn three(
        &mut self,
        page: u32,
        rows: &[Place],
        mut line: impl FnMut(usize, &Line<'_, '_>),
    ) -> Result<Tally, Refusal> {
        let (leaf, mut old_refuses) = (Leaf::open(&self.gauge, page)?, false);
        let mut tally = Tally { rows: leaf.len(), ..Tally::default() };
        for cell in 0..leaf.len() {
            if let Some(agreed) = leaf.agreed(cell) {
                if self.view == View::Three {
                    line(cell, &Line::agreed(&agreed));
                }
                continue;
            }
            let trio = leaf.trio(cell, &mut self.lent);
            let parts = trio.parts();
            old_refuses |= trio.old.is_err();
            *if parts { &mut tally.parted } else { &mut tally.refused } += 1;
            if parts || self.view == View::Three {
                line::each(&trio, number(rows, cell), |one| line(cell, &one));
            }
        }
        if old_refuses && !self.unshown.contains_key(&page) {
            let refusal = leaf.refused_whole();
            self.unshown.extend(refusal.map(|refusal| (page, Unshown { refusal, rows: leaf.len() })));
        }
        Ok(tally)
    }
}

/// The number of a row, where the walk along its table has told it: it goes through all cells of a leaf in their order.
fn number(rows: &[Place], cell: usize) -> Option<i64> {
    rows.get(cell).map(|place| place.rowid())
}
