use crate::bytes::Bytes;
use crate::calls;
use std::fmt;

/// The refusal for a buffer that is shorter than the payload.
const TOO_SHORT: u8 = 24;

/// The room of a buffer at first. It grows from there by doubling.
const FIRST: usize = 8 * 1024;

/// A buffer in which long notes are put together: a payload that spills to overflow pages does not lie in one piece in the
/// database, so its texts and blobs are parts of this.
///
/// It is lent to [`Rows::next_with`](crate::Rows::next_with), [`Page::cell_with`](crate::Page::cell_with) and
/// [`Gauge::value_with`](crate::Gauge::value_with), which show a row that spills where the calls without it refuse it with
/// 18. It grows as payloads ask for it, at most to the length of the database: no payload that is in a file is longer, and
/// one that is said to be is refused with 24. It serves any number of rows, of any database.
///
/// ```
/// # // A row of one text of 597 bytes, of which page 1 keeps 89; the others are on page 2.
/// # let mut bytes = vec![0; 1024];
/// # bytes[..16].copy_from_slice(b"SQLite format 3\0");
/// # bytes[16..24].copy_from_slice(&[2, 0, 1, 1, 0, 64, 32, 32]);
/// # bytes[59] = 1;
/// # bytes[100..110].copy_from_slice(&[13, 0, 0, 0, 1, 1, 157, 0, 1, 157]);
/// # bytes[413..419].copy_from_slice(&[0x84, 0x58, 1, 3, 0x89, 0x37]);
/// # bytes[419..508].fill(b'a');
/// # bytes[511] = 2;
/// # bytes[516..].fill(b'b');
/// use shorgavel::{Gauge, Notes, Reading};
///
/// let gauge = Gauge::new(&bytes);
/// let mut rows = gauge.rows(Reading::File)?;
/// let mut notes = Notes::new();
/// while let Some(row) = rows.next_with(&mut notes) {
///     let cell = row.shown?;
///     let note = cell.value(0).and_then(|value| value.text()).unwrap_or("");
///     println!("row {}: {note}", cell.rowid());
///     assert_eq!(note.len(), 597);
/// }
///
/// // Without them, nothing is put together.
/// assert_eq!(gauge.value(Reading::File, 1, 0, 0).unwrap_err().number(), 18);
/// # Ok::<(), shorgavel::Refusal>(())
/// ```
///
/// A row borrows the notes, and what is in them is gone with the next row. A row that is kept beyond that does not compile:
///
/// ```compile_fail,E0499
/// # use shorgavel::{Gauge, Notes, Reading};
/// # let bytes = [0; 512];
/// let mut rows = Gauge::new(&bytes).rows(Reading::File)?;
/// let mut notes = Notes::new();
/// let first = rows.next_with(&mut notes);
/// let second = rows.next_with(&mut notes);
/// println!("{first:?}");
/// # Ok::<(), shorgavel::Refusal>(())
/// ```
#[derive(Clone, Default)]
pub struct Notes {
    buffer: Vec<u8>,
    /// Whether the row spilled that they were lent for last.
    spilled: bool,
}

impl Notes {
    /// With no room yet: there is none until a payload spills.
    #[must_use]
    pub const fn new() -> Notes {
        Notes { buffer: Vec::new(), spilled: false }
    }

    /// Whether the next row is asked for with notes at once: notes come one behind the other.
    #[inline]
    pub(crate) fn last_spilled(&self) -> bool {
        self.spilled
    }

    /// The call for a row of an opened page, with as much room as it asks for.
    #[inline]
    pub(crate) fn row(
        &mut self,
        bytes: Bytes<'_>,
        page: &calls::Opened,
        cell: usize,
        table: &mut Vec<calls::Value>,
    ) -> calls::LentRow {
        loop {
            let lent = calls::row_lent(bytes.0, page, cell, table, self.room(bytes));
            if lent.row.refused.number != TOO_SHORT || !self.grow(bytes) {
                self.spilled = lent.source == calls::BUFFER;
                return lent;
            }
        }
    }

    /// A call for a value, with as much room as it asks for.
    pub(crate) fn value(
        &mut self,
        bytes: Bytes<'_>,
        call: impl Fn(&[u8], &mut [u8]) -> calls::LentValue,
    ) -> calls::LentValue {
        loop {
            let lent = call(bytes.0, self.room(bytes));
            if lent.refused.number != TOO_SHORT || !self.grow(bytes) {
                return lent;
            }
        }
    }

    /// What is lent: never more than the database has, so that no answer depends on what was read before.
    #[inline]
    fn room(&mut self, bytes: Bytes<'_>) -> &mut [u8] {
        let room = self.buffer.len().min(bytes.0.len());
        &mut self.buffer[..room]
    }

    /// More room; none where there is as much as the database has. The refusal does not tell how much is missing.
    #[cold]
    fn grow(&mut self, bytes: Bytes<'_>) -> bool {
        let (room, most) = (self.buffer.len(), bytes.0.len());
        if room >= most {
            return false;
        }
        // Nothing of the old one is of use. Memory that comes as zeros is not touched until a note is put there.
        self.buffer = vec![0; (2 * room).max(FIRST).min(most)];
        true
    }

    /// The bytes that an answer's places count in.
    #[inline]
    pub(crate) fn source<'n>(&'n self, source: u8, bytes: Bytes<'n>) -> Bytes<'n> {
        if source == calls::BUFFER {
            Bytes(&self.buffer)
        } else {
            bytes
        }
    }
}

impl fmt::Debug for Notes {
    fn fmt(&self, f: &mut fmt::Formatter<'_>) -> fmt::Result {
        f.debug_tuple("Notes").field(&Bytes(&self.buffer)).finish()
    }
}
