use crate::bytes::Bytes;
use crate::calls;
use crate::{Cell, Cells, Entry, Head, Kind, Notes, Reading, Refusal, Slot};

/// A page that is opened: its kind and cell count are known, its cells are looked at one by one.
#[derive(Clone, Copy, Debug)]
pub struct Page<'a> {
    bytes: Bytes<'a>,
    reading: Reading,
    opened: calls::Opened,
}

impl<'a> Page<'a> {
    pub(crate) fn open(bytes: Bytes<'a>, reading: Reading, number: u32) -> Result<Page<'a>, Refusal> {
        let opening = calls::open(bytes.0, reading.number(), number);
        Refusal::check(&opening.refused)?;
        Ok(Page { bytes, reading, opened: opening.opened })
    }

    /// The page's number, as its reading counts.
    #[must_use]
    pub fn number(&self) -> u32 {
        self.opened.number
    }

    /// The reading in which it was opened.
    #[must_use]
    pub fn reading(&self) -> Reading {
        self.reading
    }

    /// The page's kind.
    #[must_use]
    pub fn kind(&self) -> Kind {
        Kind::of(self.opened.kind)
    }

    /// How many cells it has.
    #[must_use]
    pub fn len(&self) -> usize {
        self.opened.cells
    }

    /// Whether it has no cell.
    #[must_use]
    pub fn is_empty(&self) -> bool {
        self.len() == 0
    }

    /// A cell, whatever the others are like. Cells count from 0.
    ///
    /// # Errors
    /// 20 where there is no such cell; else the first check of it that fails, 12 to 18; of the guarded reading 21 with a mark, too.
    #[inline]
    pub fn cell(&self, cell: usize) -> Result<Cell<'a>, Refusal> {
        Cell::of(self.bytes, &self.opened, cell)
    }

    /// A cell, and a long note in it too: what [`Page::cell`] refuses with 18 is put together in the notes, and the cell
    /// borrows them. Any other cell is shown or refused as there.
    ///
    /// # Errors
    /// Those of [`Page::cell`] but 18; and 23 where the overflow chain does not fit.
    #[inline]
    pub fn cell_with<'n>(&self, cell: usize, notes: &'n mut Notes) -> Result<Cell<'n>, Refusal>
    where
        'a: 'n,
    {
        Cell::with(self.bytes, &self.opened, cell, notes)
    }

    /// All cells, each shown or refused by itself.
    #[must_use]
    pub fn cells(&self) -> Cells<'a> {
        Cells::of(*self)
    }

    /// The page's head if every one of its cells is accepted, else the first refusal: what the original's page is.
    ///
    /// The guarded reading has no such call: of its pages the file reading's head is answered.
    ///
    /// # Errors
    /// What the first cell is refused with, as [`Page::cell`] tells it.
    pub fn head(&self) -> Result<Head, Refusal> {
        let answer = calls::page(self.bytes.0, self.reading.number(), self.opened.number);
        Refusal::check(&answer.refused)?;
        Ok(Head::of(&answer.head))
    }

    /// The entries of all cells if every one is accepted, else the first refusal; of guarded pages, as for the head.
    ///
    /// # Errors
    /// Those of [`Page::head`].
    pub fn entries(&self) -> Result<Vec<Entry>, Refusal> {
        let mut table = vec![Slot::default(); self.len()];
        let answer = calls::entries(self.bytes.0, self.reading.number(), self.opened.number, &mut table);
        Refusal::check(&answer.refused)?;
        Ok(table.iter().map(|slot| Entry::of(self.reading, slot)).collect())
    }
}
