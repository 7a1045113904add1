use crate::bytes::Bytes;
use crate::calls;
use crate::{Cell, Gauge, Notes, Page, Place, Reading, Refusal, Row};
use std::fmt;
use std::iter::FusedIterator;
use std::slice;

/// All rows of a table in the rising order of their numbers, found by a walk from its root page.
///
/// The walk is of the file reading, and looks at row numbers and pages alone: it finds the rows also where a reading
/// refuses some of them. It is refused as a whole where the tree is not sound; then the refusal tells page and cell.
///
/// ```
/// # // A root with one cell, key 5, and two leaves of one row each: rows 5 and 9, each a 7.
/// # let mut bytes = vec![0; 1536];
/// # bytes[..16].copy_from_slice(b"SQLite format 3\0");
/// # bytes[16..24].copy_from_slice(&[2, 0, 1, 1, 0, 64, 32, 32]);
/// # bytes[59] = 1;
/// # bytes[100..114].copy_from_slice(&[5, 0, 0, 0, 1, 1, 251, 0, 0, 0, 0, 3, 1, 251]);
/// # bytes[507..512].copy_from_slice(&[0, 0, 0, 2, 5]);
/// # for (page, row) in [(512, 5), (1024, 9)] {
/// #     bytes[page..page + 10].copy_from_slice(&[13, 0, 0, 0, 1, 1, 251, 0, 1, 251]);
/// #     bytes[page + 507..page + 512].copy_from_slice(&[3, row, 2, 1, 7]);
/// # }
/// use shorgavel::{Gauge, Reading};
///
/// let gauge = Gauge::new(&bytes);
/// let table = gauge.table(1)?;
/// for row in table.rows(Reading::Guarded) {
///     let cell = row.shown?;
///     println!("row {}: {:?}", cell.rowid(), cell.values().collect::<Vec<_>>());
/// }
/// assert_eq!(table.places().iter().map(|place| place.rowid()).collect::<Vec<_>>(), [5, 9]);
/// # Ok::<(), shorgavel::Refusal>(())
/// ```
#[derive(Clone)]
pub struct Table<'a> {
    bytes: Bytes<'a>,
    root: u32,
    places: Vec<Place>,
}

/// A call that lists rows.
type Listing = fn(&[u8], u32, &mut Vec<Place>) -> calls::RowsAnswer;

impl<'a> Table<'a> {
    /// All rows that the walk finds.
    pub(crate) fn walked(bytes: Bytes<'a>, root: u32) -> Result<Table<'a>, Refusal> {
        Table::of(bytes, root, calls::table_rows)
    }

    /// The same, where both readings show all of them alike.
    pub(crate) fn trusted(bytes: Bytes<'a>, root: u32) -> Result<Table<'a>, Refusal> {
        Table::of(bytes, root, calls::trusted_rows)
    }

    /// The rows are counted first, so that the list is allocated once: by the walk alone, so that none is judged twice.
    fn of(bytes: Bytes<'a>, root: u32, list: Listing) -> Result<Table<'a>, Refusal> {
        let mut places = Vec::with_capacity(Gauge::new(bytes.0).count_rows(root)?);
        Refusal::check(&list(bytes.0, root, &mut places).refused)?;
        Ok(Table { bytes, root, places })
    }

    /// The number of its root page.
    #[must_use]
    pub fn root(&self) -> u32 {
        self.root
    }

    /// How many rows it has.
    #[must_use]
    pub fn len(&self) -> usize {
        self.places.len()
    }

    /// Whether it has no row.
    #[must_use]
    pub fn is_empty(&self) -> bool {
        self.places.is_empty()
    }

    /// Where each row stands, and its number, in rising order of the numbers.
    #[must_use]
    pub fn places(&self) -> &[Place] {
        &self.places
    }

    /// The rows in the same order, each shown or refused by itself.
    #[must_use]
    pub fn rows(&self, reading: Reading) -> TableRows<'_, 'a> {
        TableRows { bytes: self.bytes, reading, left: self.places.iter(), open: None }
    }
}

/// A table may have millions of rows: it is shown by how many.
impl fmt::Debug for Table<'_> {
    fn fmt(&self, f: &mut fmt::Formatter<'_>) -> fmt::Result {
        write!(f, "Table at root {}: {} rows", self.root, self.len())
    }
}

/// The rows of a table, in one reading.
#[derive(Clone, Debug)]
pub struct TableRows<'t, 'a> {
    bytes: Bytes<'a>,
    reading: Reading,
    left: slice::Iter<'t, Place>,
    /// The leaf of the row that was shown last: rows that follow each other mostly stand on one.
    open: Option<Leaf<'a>>,
}

/// A page by its number, from 1 on. Each reading opens a table leaf of the file reading, so none is refused.
type Leaf<'a> = (u32, Result<Page<'a>, Refusal>);

impl<'a> TableRows<'_, 'a> {
    /// The next row, and a long note in it too, as [`Rows::next_with`](crate::Rows::next_with) has it.
    #[inline]
    pub fn next_with<'n>(&mut self, notes: &'n mut Notes) -> Option<Row<'n>>
    where
        'a: 'n,
    {
        self.step(|page, cell| page.cell_with(cell, notes))
    }

    #[inline]
    fn step<'n>(&mut self, show: impl FnOnce(&Page<'a>, usize) -> Result<Cell<'n>, Refusal>) -> Option<Row<'n>> {
        let place = self.left.next()?;
        let (page, cell) = (place.page(), place.cell());
        let shown = self.leaf(page).and_then(|leaf| show(&leaf, cell));
        Some(Row { page, cell, shown })
    }

    /// The page, opened where it is not the last row's.
    #[inline]
    fn leaf(&mut self, number: u32) -> Result<Page<'a>, Refusal> {
        match self.open {
            Some((open, leaf)) if open == number => leaf,
            _ => self.turn(number),
        }
    }

    fn turn(&mut self, number: u32) -> Result<Page<'a>, Refusal> {
        // A table's pages count from 1, and a reading's from its first.
        let leaf = Page::open(self.bytes, self.reading, number - 1 + self.reading.first_page());
        self.open = Some((number, leaf));
        leaf
    }
}

impl<'a> Iterator for TableRows<'_, 'a> {
    type Item = Row<'a>;

    #[inline]
    fn next(&mut self) -> Option<Row<'a>> {
        self.step(|page, cell| page.cell(cell))
    }

    #[inline]
    fn size_hint(&self) -> (usize, Option<usize>) {
        self.left.size_hint()
    }
}

impl ExactSizeIterator for TableRows<'_, '_> {}
impl FusedIterator for TableRows<'_, '_> {}
