use crate::bytes::Bytes;
use crate::calls;
use crate::{Notes, Refusal};
use std::cell::Cell;

/// How many values a new table has places for. A gauge's rows have six.
const PLACES: usize = 8;

thread_local! {
    /// The table of the row that was dropped last: it serves the next one.
    static SPARE: Cell<Option<Box<Places>>> = const { Cell::new(None) };
}

#[derive(Clone, Debug)]
struct Places(Vec<calls::Value>);

impl Places {
    #[cold]
    fn new() -> Box<Places> {
        Box::new(Places(Vec::with_capacity(PLACES)))
    }

    /// Those of the row that was dropped last, or new ones.
    #[inline]
    fn spare() -> Box<Places> {
        match SPARE.try_with(Cell::take) {
            Ok(Some(places)) => places,
            // None is spare, or the thread ends and keeps nothing any more.
            Ok(None) | Err(_) => Places::new(),
        }
    }

    /// A place for each column.
    fn widen(&mut self, columns: usize) {
        self.0.clear();
        self.0.reserve(columns);
    }

    /// Reads the row again, with a place for each column.
    #[cold]
    fn again(&mut self, bytes: Bytes<'_>, page: &calls::Opened, cell: usize, columns: usize) {
        self.widen(columns);
        let row = calls::row_in(bytes.0, page, cell, &mut self.0);
        debug_assert_eq!((row.count, row.columns), (columns, columns));
    }

    /// The same with notes lent.
    #[cold]
    fn again_with(&mut self, bytes: Bytes<'_>, page: &calls::Opened, cell: usize, columns: usize, notes: &mut Notes) {
        self.widen(columns);
        let row = notes.row(bytes, page, cell, &mut self.0).row;
        debug_assert_eq!((row.count, row.columns), (columns, columns));
    }
}

/// All values of a row, as the call told them.
///
/// They stand apart from the row, since a row is moved from hand to hand and a table in it would be copied each time. To
/// have none made for each row, the table of a row that is dropped is kept for the thread's next.
#[derive(Clone, Debug)]
pub struct Table(Option<Box<Places>>);

impl Table {
    /// A cell of an opened page: its row number, and the table of its values.
    #[inline]
    pub fn fetch(bytes: Bytes<'_>, page: &calls::Opened, cell: usize) -> Result<(i64, Table), Refusal> {
        let mut places = Places::spare();
        let row = calls::row_in(bytes.0, page, cell, &mut places.0);
        if row.count < row.columns {
            places.again(bytes, page, cell, row.columns);
        }
        let table = Table(Some(places));
        Refusal::check(&row.refused)?;
        Ok((row.number, table))
    }

    /// The same with notes lent, and the source of the bytes that the places of its values count in.
    pub fn fetch_with(
        bytes: Bytes<'_>,
        page: &calls::Opened,
        cell: usize,
        notes: &mut Notes,
    ) -> Result<(i64, Table, u8), Refusal> {
        let mut places = Places::spare();
        let calls::LentRow { row, source } = notes.row(bytes, page, cell, &mut places.0);
        if row.count < row.columns {
            places.again_with(bytes, page, cell, row.columns, notes);
        }
        let table = Table(Some(places));
        Refusal::check(&row.refused)?;
        Ok((row.number, table, source))
    }

    /// The values, one for each column.
    #[inline]
    pub fn values(&self) -> &[calls::Value] {
        // Only a table that is being dropped has no places.
        self.0.as_ref().map_or(&[], |places| &places.0)
    }
}

impl Drop for Table {
    #[inline]
    fn drop(&mut self) {
        let places = self.0.take();
        // A thread that ends does not take it, and then it is freed.
        let _ = SPARE.try_with(|spare| spare.set(places));
    }
}
