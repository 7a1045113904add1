use crate::bytes::Bytes;
use crate::calls;
use crate::{Address, Answer, DbHeader, Head, Leaves, Notes, Page, Reading, Refusal, Rows, Schema, Slot, Table, Value};
use std::ops::Range;

/// How many pages a database has.
#[derive(Clone, Copy, Debug, PartialEq, Eq)]
pub struct PageCount {
    /// How many there are.
    pub count: u32,
    /// How many of them are wholly in the bytes: less where a file was cut short.
    pub present: u32,
}

/// A gauge's database: the bytes of its file, which stay the caller's.
///
/// Nothing is read until it is asked for, and nothing is kept but the reference.
#[derive(Clone, Copy, Debug)]
pub struct Gauge<'a> {
    bytes: Bytes<'a>,
}

impl<'a> Gauge<'a> {
    /// The most bytes that are read; a longer database is refused with 22.
    pub const LIMIT: u64 = 1_073_741_824;

    /// A database of these bytes. What they are is checked by the calls.
    #[must_use]
    pub fn new(bytes: &'a [u8]) -> Gauge<'a> {
        Gauge { bytes: Bytes(bytes) }
    }

    #[inline]
    pub(crate) fn bytes(&self) -> &'a [u8] {
        self.bytes.0
    }

    /// Whether a database of that many bytes is read. It can be asked before the bytes are there.
    ///
    /// # Errors
    /// 22, where it is not.
    pub fn within_limit(length: u64) -> Result<(), Refusal> {
        if length <= Self::LIMIT {
            Ok(())
        } else {
            Err(Refusal::over_limit())
        }
    }

    /// The header's fields, or the first check that fails. The guarded reading has the file reading's.
    ///
    /// # Errors
    /// 22, then 1 to 3; of the file reading and the guarded one 4 to 7, too.
    pub fn header(&self, reading: Reading) -> Result<DbHeader, Refusal> {
        let answer = calls::header(self.bytes.0, reading.number());
        Refusal::check(&answer.refused)?;
        Ok(DbHeader::of(&answer.fields))
    }

    /// How many pages there are, and how many of them are wholly in the bytes. The old reading counts whole pages; the other two
    /// take the size that the header states, where it was written with the last change.
    ///
    /// # Errors
    /// Those of [`Gauge::header`].
    pub fn page_count(&self, reading: Reading) -> Result<PageCount, Refusal> {
        let answer = calls::pages(self.bytes.0, reading.number());
        Refusal::check(&answer.refused)?;
        // A header's field has 32 bits, and a gigabyte has no more pages.
        Ok(PageCount { count: answer.count as u32, present: answer.present as u32 })
    }

    /// The numbers of the pages that are wholly in the bytes, as the reading counts.
    ///
    /// # Errors
    /// Those of [`Gauge::header`].
    pub fn pages(&self, reading: Reading) -> Result<Range<u32>, Refusal> {
        let first = reading.first_page();
        Ok(first..first + self.page_count(reading)?.present)
    }

    /// Opens a page by its number, as the reading counts. The guarded reading opens table leaves only.
    ///
    /// # Errors
    /// Those of [`Gauge::header`]; then 8 where the page is not there, 9, 10 where it is of no kind that the reading opens, and 11.
    pub fn get_page(&self, reading: Reading, pageno: u32) -> Result<Page<'a>, Refusal> {
        Page::open(self.bytes, reading, pageno)
    }

    /// The page call: a page's head, and in the table the entries of its cells.
    pub(crate) fn page_call(&self, reading: Reading, pageno: u32, table: &mut [Slot]) -> Result<Head, Refusal> {
        let answer = calls::entries(self.bytes.0, reading.number(), pageno, table);
        Refusal::check(&answer.refused)?;
        Ok(Head::of(&answer.head))
    }

    /// The table leaves in the order of the file: the pages of kind 13 that the file reading opens.
    ///
    /// # Errors
    /// Those of [`Gauge::header`] in the file reading. A row that is refused ends nothing: it is told in its place.
    pub fn leaves(&self, reading: Reading) -> Result<Leaves<'a>, Refusal> {
        Ok(Leaves::of(*self, reading, self.pages(Reading::File)?))
    }

    /// Every cell of every table leaf, in the order of the file: what the program `rows` lists.
    ///
    /// # Errors
    /// Those of [`Gauge::leaves`].
    pub fn rows(&self, reading: Reading) -> Result<Rows<'a>, Refusal> {
        Ok(Rows::of(self.leaves(reading)?))
    }

    /// All rows of the table at a root page, which counts from 1: the rows alone, in the rising order of their numbers.
    ///
    /// # Errors
    /// Where the tree is not sound: those of [`Gauge::header`] in the file reading, then of a page 28, 26, 8, 10, 11 or 25, or of a cell 12, 13
    /// or 27, with its place.
    pub fn table(&self, root: u32) -> Result<Table<'a>, Refusal> {
        Table::walked(self.bytes, root)
    }

    /// All rows of the table at a root page, if old and file show each of them alike: in every listed row they have the same
    /// row number, column count and values, and that is a theorem. So what was printed from the old reading may be held
    /// against what the gauge wrote, row by row, and no row has to be judged again.
    ///
    /// Else nothing is listed. The refusal is the walk's, which [`Gauge::table`] answers too; or where there is none, that of
    /// the first row, in the order of the walk, that the guarded reading refuses, with its page and cell. A row whose payload
    /// spills is refused with 18, since the old reading does not follow it.
    ///
    /// ```
    /// # // A page of two rows of one column, each a stored 0 (type 8).
    /// # let mut bytes = vec![0; 512];
    /// # bytes[..16].copy_from_slice(b"SQLite format 3\0");
    /// # bytes[16..24].copy_from_slice(&[2, 0, 1, 1, 0, 64, 32, 32]);
    /// # bytes[59] = 1;
    /// # bytes[100..112].copy_from_slice(&[13, 0, 0, 0, 2, 1, 248, 0, 1, 252, 1, 248]);
    /// # bytes[504..].copy_from_slice(&[2, 2, 2, 8, 2, 1, 2, 8]);
    /// use shorgavel::{Gauge, Mark, Reading};
    ///
    /// let gauge = Gauge::new(&bytes);
    /// let table = gauge.trusted(1)?;
    /// for (old, file) in table.rows(Reading::Old).zip(table.rows(Reading::File)) {
    ///     let (old, file) = (old.shown?, file.shown?);
    ///     assert_eq!(old.rowid(), file.rowid());
    ///     assert!(old.values().eq(file.values()));
    /// }
    ///
    /// // Row 2 becomes a stored 1 (type 9), which old shows as 0.
    /// bytes[507] = 9;
    /// let refusal = Gauge::new(&bytes).trusted(1).unwrap_err();
    /// assert_eq!((refusal.page(), refusal.cell(), refusal.mark()), (Some(1), Some(1), Some(Mark::TypeNine)));
    /// # Ok::<(), shorgavel::Refusal>(())
    /// ```
    ///
    /// # Errors
    /// Those of [`Gauge::table`], then what the guarded reading refuses the first row with.
    pub fn trusted(&self, root: u32) -> Result<Table<'a>, Refusal> {
        Table::trusted(self.bytes, root)
    }

    /// How many rows the table at a root page has: the same walk, with no list made of them.
    ///
    /// # Errors
    /// Those of [`Gauge::table`].
    pub fn count_rows(&self, root: u32) -> Result<usize, Refusal> {
        let answer = calls::table_count(self.bytes.0, root);
        Refusal::check(&answer.refused)?;
        Ok(answer.count)
    }

    /// The tables that the database names, with their root pages: what its own table, at root 1, lists.
    ///
    /// # Errors
    /// Those of [`Gauge::table`] at root 1. A row that tells nothing ends nothing: it is in [`Schema::unread`].
    pub fn schema(&self) -> Result<Schema, Refusal> {
        Schema::of(*self)
    }

    /// One value: column `column` of cell `cell`. Where several are asked for, a [`Cell`](crate::Cell) or [`Gauge::screen`] is quicker.
    ///
    /// # Errors
    /// Those of [`Gauge::get_page`], of [`Page::cell`], and 20 where there is no such column.
    pub fn value(&self, reading: Reading, pageno: u32, cell: usize, column: usize) -> Result<Value<'a>, Refusal> {
        let shown = match reading {
            Reading::Old => calls::old_value(self.bytes.0, pageno, cell, column),
            Reading::File => calls::file_value(self.bytes.0, pageno, cell, column),
            Reading::Guarded => calls::guarded_value(self.bytes.0, pageno, cell, column),
        };
        Answer(shown).shown(self)
    }

    /// A screenful at once: for each address what [`Gauge::value`] answers, in its place of the lent list, and how many there are. An
    /// address that is refused stops no other, and spare answers are left as they were.
    ///
    /// A page stays open while the next address names it, and a row stays found while the next address names its cell: asked row by
    /// row, forty values of ten rows cost less than a quarter of forty single calls, as `docs/BENCHMARKS.md` of the repository tells.
    /// [`Gauge::screened`] is the same with a list of its own.
    ///
    /// ```
    /// # // A page of two rows of one column: a stored 0 (type 8), and a stored 1 (type 9), which old shows as 0.
    /// # let mut bytes = vec![0; 512];
    /// # bytes[..16].copy_from_slice(b"SQLite format 3\0");
    /// # bytes[16..24].copy_from_slice(&[2, 0, 1, 1, 0, 64, 32, 32]);
    /// # bytes[59] = 1;
    /// # bytes[100..112].copy_from_slice(&[13, 0, 0, 0, 2, 1, 248, 0, 1, 252, 1, 248]);
    /// # bytes[504..].copy_from_slice(&[2, 2, 2, 9, 2, 1, 2, 8]);
    /// use shorgavel::{Address, Answer, Gauge, Reading, Value};
    ///
    /// let gauge = Gauge::new(&bytes);
    /// let addresses = [0, 1, 2].map(|cell| Address { page: 1, cell, column: 0 });
    /// let mut answers = [Answer::default(); 8];
    /// let count = gauge.screen(Reading::Guarded, &addresses, &mut answers)?;
    /// for (address, answer) in addresses.iter().zip(&answers[..count]) {
    ///     match answer.shown(&gauge) {
    ///         Ok(value) => println!("cell {}: {value}", address.cell),
    ///         Err(refusal) => println!("{refusal}"),
    ///     }
    /// }
    /// # assert_eq!(count, 3);
    /// # assert_eq!(answers[0].shown(&gauge), Ok(Value::Integer(0)));
    /// # assert_eq!([1, 2].map(|at| answers[at].shown(&gauge).unwrap_err().number()), [21, 20]);
    /// # Ok::<(), shorgavel::Refusal>(())
    /// ```
    ///
    /// # Errors
    /// 19 where there are fewer answers than addresses, with page 0: before anything is read, whatever the bytes are, and nothing is
    /// written. What an address is refused with is in its answer.
    #[inline]
    pub fn screen(&self, reading: Reading, addresses: &[Address], answers: &mut [Answer]) -> Result<usize, Refusal> {
        let answer = calls::screen(self.bytes.0, reading.number(), addresses, answers);
        Refusal::check(&answer.refused)?;
        Ok(answer.count)
    }

    /// A screenful at once: for each address what [`Gauge::value`] answers. It is [`Gauge::screen`] with a list of its own.
    #[must_use]
    pub fn screened(&self, reading: Reading, addresses: &[Address]) -> Vec<Result<Value<'a>, Refusal>> {
        let mut answers = vec![Answer::default(); addresses.len()];
        let count = self.screen(reading, addresses, &mut answers);
        // There is an answer for each address, so nothing is refused as a whole.
        debug_assert_eq!(count, Ok(addresses.len()));
        answers.iter().map(|answer| answer.shown(self)).collect()
    }

    /// One value, and one of a long note too: what [`Gauge::value`] refuses with 18 is put together in the notes, and the
    /// value borrows them.
    ///
    /// # Errors
    /// Those of [`Gauge::get_page`], of [`Page::cell_with`], and 20 where there is no such column.
    pub fn value_with<'n>(
        &self,
        reading: Reading,
        pageno: u32,
        cell: usize,
        column: usize,
        notes: &'n mut Notes,
    ) -> Result<Value<'n>, Refusal>
    where
        'a: 'n,
    {
        let call = match reading {
            // It never looks at the payload's size, so nothing spills.
            Reading::Old => return self.value(reading, pageno, cell, column),
            Reading::File => calls::file_value_lent,
            Reading::Guarded => calls::guarded_value_lent,
        };
        let lent = notes.value(self.bytes, |bytes, buffer| call(bytes, pageno, cell, column, buffer));
        Refusal::check(&lent.refused)?;
        Ok(Value::of(notes.source(lent.source, self.bytes).0, &lent.value))
    }
}
