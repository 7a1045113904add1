use crate::bytes::Bytes;
use crate::calls;
use crate::table::Table;
use crate::{Notes, Page, Refusal, Value, Values, Width};
use std::iter::FusedIterator;
use std::ops::Range;

/// The refusal for a payload that spills.
const SPILLS: u8 = 18;

/// A cell of a page, checked by itself: its row number and the values of its record.
///
/// It has all of its values, in memory that the next cell is given once this one is dropped. A cell that is kept keeps it.
/// The bytes of texts and blobs are the caller's or, where the payload spills, those of the [`Notes`] that were lent.
#[derive(Clone, Debug)]
pub struct Cell<'a> {
    /// Those in which the places of its values count.
    bytes: Bytes<'a>,
    rowid: i64,
    table: Table,
    site: Site,
}

/// Where a cell stands, as the calls on one cell are told it.
#[derive(Clone, Copy, Debug)]
struct Site {
    reading: u8,
    /// Whether the cell's bytes are those of notes: then its payload spills, and the calls on one cell refuse it.
    gathered: bool,
    page: u32,
    cell: usize,
}

impl<'a> Cell<'a> {
    #[inline]
    pub(crate) fn of(bytes: Bytes<'a>, page: &calls::Opened, cell: usize) -> Result<Cell<'a>, Refusal> {
        let (rowid, table) = Table::fetch(bytes, page, cell)?;
        let site = Site { reading: page.reading, gathered: false, page: page.number, cell };
        Ok(Cell { bytes, rowid, table, site })
    }

    /// The same, and where the payload spills, it is put together in the notes. Behind a row that spilled they are lent at
    /// once; else where the call without them is refused for such a payload, so that a whole row behind another costs no more.
    #[inline]
    pub(crate) fn with(
        bytes: Bytes<'a>,
        page: &calls::Opened,
        cell: usize,
        notes: &'a mut Notes,
    ) -> Result<Cell<'a>, Refusal> {
        if !notes.last_spilled() {
            match Cell::of(bytes, page, cell) {
                Err(refusal) if refusal.number() == SPILLS => {}
                found => return found,
            }
        }
        let (rowid, table, source) = Table::fetch_with(bytes, page, cell, notes)?;
        let gathered = source == calls::BUFFER;
        let site = Site { reading: page.reading, gathered, page: page.number, cell };
        Ok(Cell { bytes: notes.source(source, bytes), rowid, table, site })
    }

    /// The row number of a table leaf's cell, the key of an interior table's.
    ///
    /// Of an index cell, what the old reading takes for one, and 0 in the file reading.
    #[inline]
    #[must_use]
    pub fn rowid(&self) -> i64 {
        self.rowid
    }

    /// How many columns the record has.
    #[inline]
    #[must_use]
    pub fn columns(&self) -> usize {
        self.table.values().len()
    }

    /// The values, one after the other. Texts and blobs in them are the caller's bytes or the notes', and outlive the cell.
    #[inline]
    #[must_use]
    pub fn values(&self) -> Values<'_, 'a> {
        Values::of(self.bytes, self.table.values())
    }

    /// The value of one column, if there is such a column.
    #[inline]
    #[must_use]
    pub fn value(&self, column: usize) -> Option<Value<'a>> {
        self.values().nth(column)
    }

    /// Whether all varints that the reading took from the cell are in their shortest form: no byte could have been saved.
    ///
    /// SQLite writes no others, and neither does the gauge; so where one is not, something else wrote the cell. Taken are the
    /// payload size, the row number or key, the header size and the types, and of an index cell in the old reading the
    /// varint behind the values, which it shows as the row number. The reader is asked anew for it, once for each call.
    ///
    /// None where the payload spills, so that the cell was put together in [`Notes`]: of such a cell the reader does not
    /// tell it.
    ///
    /// ```
    /// # // A page of two rows, each a 7: row 1, and row 2, whose number takes two bytes.
    /// # let mut bytes = vec![0; 512];
    /// # bytes[..16].copy_from_slice(b"SQLite format 3\0");
    /// # bytes[16..24].copy_from_slice(&[2, 0, 1, 1, 0, 64, 32, 32]);
    /// # bytes[59] = 1;
    /// # bytes[100..112].copy_from_slice(&[13, 0, 0, 0, 2, 1, 245, 0, 1, 251, 1, 245]);
    /// # bytes[501..].copy_from_slice(&[3, 0x80, 2, 2, 1, 7, 3, 1, 2, 1, 7]);
    /// use shorgavel::{Gauge, Reading};
    ///
    /// for row in Gauge::new(&bytes).rows(Reading::File)? {
    ///     let cell = row.shown?;
    ///     if cell.shortest() == Some(false) {
    ///         println!("row {} was written by something else than SQLite", cell.rowid());
    ///     }
    /// #   assert_eq!(cell.shortest(), Some(cell.rowid() == 1));
    /// }
    /// # Ok::<(), shorgavel::Refusal>(())
    /// ```
    #[must_use]
    pub fn shortest(&self) -> Option<bool> {
        let Site { reading, gathered, page, cell } = self.site;
        if gathered {
            return None;
        }
        let answer = calls::cell(self.bytes.0, reading, page, cell);
        debug_assert_eq!(answer.refused.number, 0);
        Some(answer.shortest == 1)
    }

    /// What the original calls the integers' types, column by column: none where a value is not an integer, and none in
    /// the readings that have no widths, file and guarded.
    pub fn widths(&self) -> impl Iterator<Item = Option<Width>> + '_ {
        self.table.values().iter().map(|value| Width::of(value.width))
    }
}

/// The cells of a page, each shown or refused by itself.
#[derive(Clone, Debug)]
pub struct Cells<'a> {
    page: Page<'a>,
    range: Range<usize>,
}

impl<'a> Cells<'a> {
    pub(crate) fn of(page: Page<'a>) -> Cells<'a> {
        Cells { page, range: 0..page.len() }
    }
}

impl<'a> Iterator for Cells<'a> {
    type Item = Result<Cell<'a>, Refusal>;

    #[inline]
    fn next(&mut self) -> Option<Result<Cell<'a>, Refusal>> {
        let cell = self.range.next()?;
        Some(self.page.cell(cell))
    }

    #[inline]
    fn size_hint(&self) -> (usize, Option<usize>) {
        self.range.size_hint()
    }
}

impl ExactSizeIterator for Cells<'_> {}
impl FusedIterator for Cells<'_> {}
