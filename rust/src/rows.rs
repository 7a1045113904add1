use crate::{Cell, Gauge, Kind, Notes, Page, Reading, Refusal};
use std::iter::FusedIterator;
use std::ops::Range;

/// The table leaves of a database, opened in one reading.
#[derive(Clone, Debug)]
pub struct Leaves<'a> {
    gauge: Gauge<'a>,
    reading: Reading,
    pages: Range<u32>,
}

impl<'a> Leaves<'a> {
    /// `pages` as the file reading counts.
    pub(crate) fn of(gauge: Gauge<'a>, reading: Reading, pages: Range<u32>) -> Leaves<'a> {
        Leaves { gauge, reading, pages }
    }

    /// The page if the file reading opens it as a table leaf. Then the other two open it as well, and the guarded reading
    /// opens no other page.
    fn leaf(&self, pageno: u32) -> Option<Page<'a>> {
        if self.reading == Reading::Guarded {
            return self.gauge.get_page(Reading::Guarded, pageno).ok();
        }
        let page = self.gauge.get_page(Reading::File, pageno).ok()?;
        if page.kind() != Kind::LeafTable {
            return None;
        }
        if self.reading == Reading::Old {
            return self.gauge.get_page(Reading::Old, pageno - 1).ok();
        }
        Some(page)
    }
}

impl<'a> Iterator for Leaves<'a> {
    type Item = Page<'a>;

    fn next(&mut self) -> Option<Page<'a>> {
        loop {
            let pageno = self.pages.next()?;
            if let Some(page) = self.leaf(pageno) {
                return Some(page);
            }
        }
    }
}

impl FusedIterator for Leaves<'_> {}

/// A cell of a table leaf, and where it stands.
#[derive(Clone, Debug)]
pub struct Row<'a> {
    /// The page's number, from 1 on in every reading.
    pub page: u32,
    /// The cell's number on the page, from 0 on.
    pub cell: usize,
    /// What the reading shows of it.
    pub shown: Result<Cell<'a>, Refusal>,
}

/// Every cell of every table leaf, in one reading.
#[derive(Clone, Debug)]
pub struct Rows<'a> {
    leaves: Leaves<'a>,
    /// The leaf whose cells are shown; none before the first.
    page: Option<Page<'a>>,
    /// Its cells that are not shown yet.
    cells: Range<usize>,
}

impl<'a> Rows<'a> {
    pub(crate) fn of(leaves: Leaves<'a>) -> Rows<'a> {
        Rows { leaves, page: None, cells: 0..0 }
    }

    /// The next row, and a long note in it too: what [`Rows::next`] has refused with 18 is put together in the notes. The
    /// row borrows them, so it is done with before the next one is asked for; [`Notes`] has an example.
    #[inline]
    pub fn next_with<'n>(&mut self, notes: &'n mut Notes) -> Option<Row<'n>>
    where
        'a: 'n,
    {
        self.step(|page, cell| page.cell_with(cell, notes))
    }

    /// The next row as the call shows it. Leaves that have no cell are passed over.
    #[inline]
    fn step<'n>(&mut self, show: impl FnOnce(&Page<'a>, usize) -> Result<Cell<'n>, Refusal>) -> Option<Row<'n>> {
        loop {
            if let (Some(page), Some(cell)) = (&self.page, self.cells.next()) {
                let number = page.number() - page.reading().first_page() + 1;
                return Some(Row { page: number, cell, shown: show(page, cell) });
            }
            self.turn()?;
        }
    }

    /// The next leaf, if there is one.
    fn turn(&mut self) -> Option<()> {
        let page = self.leaves.next()?;
        self.cells = 0..page.len();
        self.page = Some(page);
        Some(())
    }
}

impl<'a> Iterator for Rows<'a> {
    type Item = Row<'a>;

    #[inline]
    fn next(&mut self) -> Option<Row<'a>> {
        self.step(|page, cell| page.cell(cell))
    }
}
