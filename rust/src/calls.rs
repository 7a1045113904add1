//! The calls of `include/shorgavel.h`: their declarations, and a safe function for each. All unsafe code is here.
//!
//! Why it is sound, for every call: it is proved to answer for every input, whatever the bytes and the numbers are, so
//! nothing is asked of its caller but what a slice gives anyway: a pointer that is not null (that of an empty slice
//! dangles, but it is not null and nothing is read behind it) and as many readable bytes as the length says. It keeps no
//! pointer, allocates nothing and writes to nothing but the answer and, where they are lent, the table, the list and the buffer.
//! What is lent to be written is lent alone, so it overlaps nothing else that the call sees. The structs are laid out as
//! in the header: the test below holds their sizes, and `tests/gauge.rs` every field, to what C has. Answers are plain
//! numbers, and every pattern of bits is one.

use crate::{Address, Answer, Place, Slot};
use std::mem::size_of;

/// Why nothing is shown; number 0: nothing is refused.
#[repr(C)]
#[derive(Clone, Copy, Debug, Default, PartialEq, Eq)]
pub struct Refused {
    pub number: u8,
    pub mark: u8,
    pub page: u32,
    pub cell: usize,
    pub column: usize,
}

/// The fields of the database header.
#[repr(C)]
#[derive(Clone, Copy)]
pub struct Fields {
    pub page_size: u32,
    pub write_version: u32,
    pub read_version: u32,
    pub reserved_space: u32,
    pub max_payload_fraction: u32,
    pub min_payload_fraction: u32,
    pub leaf_payload_fraction: u32,
    pub file_change_counter: u32,
    pub db_size: u32,
    pub first_freelist_page_no: u32,
    pub total_freelist_pages: u32,
    pub schema_cookie: u32,
    pub schema_format_no: u32,
    pub default_page_cache_size: u32,
    pub no_largest_root_b_tree: u32,
    pub db_text_encoding: u32,
    pub user_version: u32,
    pub incremental_vacuum_mode: u32,
    pub application_id: u32,
    pub version_valid_for_no: u32,
    pub sqlite_version_number: u32,
}

#[repr(C)]
pub struct HeaderAnswer {
    pub refused: Refused,
    pub fields: Fields,
}

/// How many pages there are, and how many of them are wholly in the bytes.
#[repr(C)]
pub struct PagesAnswer {
    pub refused: Refused,
    pub count: usize,
    pub present: usize,
}

/// The head of a page.
#[repr(C)]
#[derive(Clone, Copy)]
pub struct Head {
    pub kind: u8,
    pub first_freeblock: u32,
    pub cells: usize,
    pub content_start: u32,
    pub fragmented: u32,
    pub rightmost: u32,
}

#[repr(C)]
pub struct PageAnswer {
    pub refused: Refused,
    pub head: Head,
}

/// A page that is opened.
#[repr(C)]
#[derive(Clone, Copy, Debug)]
pub struct Opened {
    pub reading: u8,
    pub kind: u8,
    pub end: u32,
    pub number: u32,
    pub at: usize,
    pub size: usize,
    pub from: usize,
    pub cells: usize,
}

#[repr(C)]
pub struct Opening {
    pub refused: Refused,
    pub opened: Opened,
}

/// A cursor along a row.
#[repr(C)]
#[derive(Clone, Copy, Debug)]
pub struct Along {
    pub at: usize,
    pub stop: usize,
    pub value: usize,
    pub end: usize,
}

/// A cell; `shortest` is 1 where every varint that the reading took from it is in its shortest form.
#[repr(C)]
pub struct Cell {
    pub refused: Refused,
    pub row: i64,
    pub columns: usize,
    pub along: Along,
    pub shortest: u8,
}

/// The kinds of values; any other number is null.
pub const INTEGER: u8 = 1;
pub const REAL: u8 = 2;
pub const TEXT: u8 = 3;
pub const BLOB: u8 = 4;

#[repr(C)]
#[derive(Clone, Copy, Debug, Default, PartialEq, Eq)]
pub struct Value {
    pub kind: u8,
    pub width: u8,
    pub integer: i64,
    pub bits: u64,
    pub at: usize,
    pub len: usize,
}

/// The size of a table of values is told in words of 64 bits: so many a place.
const WORDS: usize = size_of::<Value>() / size_of::<i64>();

/// A row: its row number or key, its column count, how many of its values are in the table, and the cursor behind them.
#[repr(C)]
pub struct Row {
    pub refused: Refused,
    pub number: i64,
    pub columns: usize,
    pub count: usize,
    pub along: Along,
}

#[repr(C)]
#[derive(Clone, Copy, Debug, Default, PartialEq, Eq)]
pub struct Shown {
    pub refused: Refused,
    pub value: Value,
}

/// How many answers a list was filled with; 0 where the call is refused.
#[repr(C)]
pub struct ScreenAnswer {
    pub refused: Refused,
    pub count: usize,
}

/// The sizes of lists of addresses and of answers are told in words: so many each.
const ADDRESS_WORDS: usize = size_of::<Address>() / size_of::<u64>();
const ANSWER_WORDS: usize = size_of::<Answer>() / size_of::<i64>();

/// The source of a row or a value whose places count in the gather buffer; those of any other count in the database.
pub const BUFFER: u8 = 1;

/// A row, and the bytes that the places of its values count in.
#[repr(C)]
pub struct LentRow {
    pub row: Row,
    pub source: u8,
}

/// A value, and the bytes that its place counts in.
#[repr(C)]
pub struct LentValue {
    pub refused: Refused,
    pub value: Value,
    pub source: u8,
}

/// How many rows a table has; 0 where it is refused.
#[repr(C)]
pub struct RowsAnswer {
    pub refused: Refused,
    pub count: usize,
}

/// The size of a list of places is told in words too: so many a place.
const PLACE_WORDS: usize = size_of::<Place>() / size_of::<i64>();

extern "C" {
    fn shorgavel_header(db: *const u8, length: usize, reading: u8) -> HeaderAnswer;
    fn shorgavel_pages(db: *const u8, length: usize, reading: u8) -> PagesAnswer;
    fn shorgavel_page(db: *const u8, length: usize, reading: u8, page: u32) -> PageAnswer;
    fn shorgavel_entries(
        db: *const u8,
        length: usize,
        reading: u8,
        page: u32,
        table: *mut Slot,
        places: usize,
    ) -> PageAnswer;
    #[cfg(test)]
    fn shorgavel_half_entries(
        db: *const u8,
        length: usize,
        reading: u8,
        page: u32,
        half: u8,
        table: *mut Slot,
        places: usize,
    ) -> PageAnswer;
    fn shorgavel_open(db: *const u8, length: usize, reading: u8, page: u32) -> Opening;
    fn shorgavel_old_cell(db: *const u8, length: usize, page: u32, cell: usize) -> Cell;
    fn shorgavel_file_cell(db: *const u8, length: usize, page: u32, cell: usize) -> Cell;
    fn shorgavel_guarded_cell(db: *const u8, length: usize, page: u32, cell: usize) -> Cell;
    fn shorgavel_row_in(
        db: *const u8,
        length: usize,
        page: Opened,
        cell: usize,
        table: *mut Value,
        words: usize,
    ) -> Row;
    fn shorgavel_old_value(db: *const u8, length: usize, page: u32, cell: usize, column: usize) -> Shown;
    fn shorgavel_file_value(db: *const u8, length: usize, page: u32, cell: usize, column: usize) -> Shown;
    fn shorgavel_guarded_value(db: *const u8, length: usize, page: u32, cell: usize, column: usize) -> Shown;
    fn shorgavel_screen(
        db: *const u8,
        length: usize,
        reading: u8,
        addresses: *const Address,
        address_words: usize,
        answers: *mut Answer,
        answer_words: usize,
    ) -> ScreenAnswer;
    fn shorgavel_file_value_lent(
        db: *const u8,
        length: usize,
        page: u32,
        cell: usize,
        column: usize,
        buffer: *mut u8,
        room: usize,
    ) -> LentValue;
    fn shorgavel_guarded_value_lent(
        db: *const u8,
        length: usize,
        page: u32,
        cell: usize,
        column: usize,
        buffer: *mut u8,
        room: usize,
    ) -> LentValue;
    fn shorgavel_row_lent(
        db: *const u8,
        length: usize,
        page: Opened,
        cell: usize,
        table: *mut Value,
        words: usize,
        buffer: *mut u8,
        room: usize,
    ) -> LentRow;
    fn shorgavel_table_count(db: *const u8, length: usize, root: u32) -> RowsAnswer;
    fn shorgavel_table_rows(db: *const u8, length: usize, root: u32, list: *mut Place, words: usize) -> RowsAnswer;
    fn shorgavel_trusted_rows(db: *const u8, length: usize, root: u32, list: *mut Place, words: usize) -> RowsAnswer;
}

/// A call that lists rows of the table at a root page.
type Listing = unsafe extern "C" fn(*const u8, usize, u32, *mut Place, usize) -> RowsAnswer;

/// The header's fields, or the first check that fails.
pub fn header(db: &[u8], reading: u8) -> HeaderAnswer {
    // SAFETY: pointer and length are of one slice, which outlives the call; any number names a reading.
    unsafe { shorgavel_header(db.as_ptr(), db.len(), reading) }
}

/// The number of pages, or the first check that fails.
pub fn pages(db: &[u8], reading: u8) -> PagesAnswer {
    // SAFETY: pointer and length are of one slice, which outlives the call; any number names a reading.
    unsafe { shorgavel_pages(db.as_ptr(), db.len(), reading) }
}

/// The head of a page if every one of its cells is accepted.
pub fn page(db: &[u8], reading: u8, page: u32) -> PageAnswer {
    // SAFETY: pointer and length are of one slice; any number names a page or is refused.
    unsafe { shorgavel_page(db.as_ptr(), db.len(), reading, page) }
}

/// The same, and the entries of all cells in the table.
pub fn entries(db: &[u8], reading: u8, page: u32, table: &mut [Slot]) -> PageAnswer {
    // SAFETY: both pairs of pointer and length are of one slice each. The table is lent alone, so nothing else sees it
    // while it is written; no more is written than its places, and what is written are numbers.
    unsafe { shorgavel_entries(db.as_ptr(), db.len(), reading, page, table.as_mut_ptr(), table.len()) }
}

/// The same on one half of the table: the first by 0, the second by any other number. An exchange lends each truck its half as a table
/// of its own, so that the compiler keeps them apart; a test holds this call to that.
#[cfg(test)]
fn half_entries(db: &[u8], reading: u8, page: u32, half: u8, table: &mut [Slot]) -> PageAnswer {
    // SAFETY: as for `entries`; any number names a half.
    unsafe { shorgavel_half_entries(db.as_ptr(), db.len(), reading, page, half, table.as_mut_ptr(), table.len()) }
}

/// The page, its cells being looked at by no check yet.
pub fn open(db: &[u8], reading: u8, page: u32) -> Opening {
    // SAFETY: pointer and length are of one slice; any number names a page or is refused.
    unsafe { shorgavel_open(db.as_ptr(), db.len(), reading, page) }
}

/// One cell in a reading; a number that is not old's or guarded's is taken for the file reading, as everywhere.
pub fn cell(db: &[u8], reading: u8, page: u32, cell: usize) -> Cell {
    let call = match reading {
        0 => shorgavel_old_cell,
        2 => shorgavel_guarded_cell,
        _ => shorgavel_file_cell,
    };
    // SAFETY: pointer and length are of one slice; a page or cell that is not there is refused.
    unsafe { call(db.as_ptr(), db.len(), page, cell) }
}

/// A cell of a page that `open` opened, in the page's reading, and in the table its values, in place of those that were
/// there: as many as the table takes without growing.
#[inline]
pub fn row_in(db: &[u8], page: &Opened, cell: usize, table: &mut Vec<Value>) -> Row {
    let words = table.capacity() * WORDS;
    // SAFETY: pointer and length are of one slice. The page is handed over by value, and the call answers for every one,
    // also for numbers that no page of these bytes has. The table has room for as many values as its capacity says, and
    // its pointer is not null, also where there is no room. A place is five words and lies as words must, as the test
    // below holds; so no more is written than is the table's. It is lent alone, so nothing else sees it while it is
    // written, and values need no drop, so those that were there may be written over.
    let row = unsafe { shorgavel_row_in(db.as_ptr(), db.len(), *page, cell, table.as_mut_ptr(), words) };
    // SAFETY: the row was answered with the words of this table.
    unsafe { take(table, &row) };
    row
}

/// The same, and a payload that spills is put together in the buffer.
#[inline]
pub fn row_lent(db: &[u8], page: &Opened, cell: usize, table: &mut Vec<Value>, buffer: &mut [u8]) -> LentRow {
    let words = table.capacity() * WORDS;
    let (places, bytes) = (table.as_mut_ptr(), buffer.as_mut_ptr());
    // SAFETY: as for `row_in`; the buffer's pointer and length are of one slice too, lent alone, and what is written to it
    // are bytes.
    let lent = unsafe { shorgavel_row_lent(db.as_ptr(), db.len(), *page, cell, places, words, bytes, buffer.len()) };
    // SAFETY: the row was answered with the words of this table.
    unsafe { take(table, &lent.row) };
    lent
}

/// The table has the values that a row was answered with.
///
/// # Safety
///
/// The call that answered the row was lent all words of the table, and nothing was done to the table since.
#[inline]
unsafe fn take(table: &mut Vec<Value>, row: &Row) {
    debug_assert!(row.count <= row.columns && row.count <= table.capacity());
    // SAFETY: it is proved that the count is the smaller of the row's columns and the table's places, or 0 on a refusal,
    // and that all five words are written of so many places, from the first on. Whatever words are written, each such
    // place is a value, since every pattern of bits is one in each of its fields, and what is between them may be
    // anything.
    unsafe { table.set_len(row.count) };
}

/// One column of a cell in the old reading.
pub fn old_value(db: &[u8], page: u32, cell: usize, column: usize) -> Shown {
    // SAFETY: pointer and length are of one slice; a page, cell or column that is not there is refused.
    unsafe { shorgavel_old_value(db.as_ptr(), db.len(), page, cell, column) }
}

/// One column of a cell in the file reading.
pub fn file_value(db: &[u8], page: u32, cell: usize, column: usize) -> Shown {
    // SAFETY: as for `old_value`.
    unsafe { shorgavel_file_value(db.as_ptr(), db.len(), page, cell, column) }
}

/// One column of a cell in the guarded reading.
pub fn guarded_value(db: &[u8], page: u32, cell: usize, column: usize) -> Shown {
    // SAFETY: as for `old_value`.
    unsafe { shorgavel_guarded_value(db.as_ptr(), db.len(), page, cell, column) }
}

/// The answer of these three to each address, in a reading, in its place of the list of answers.
#[inline]
pub fn screen(db: &[u8], reading: u8, addresses: &[Address], answers: &mut [Answer]) -> ScreenAnswer {
    let (asked, asked_words) = (addresses.as_ptr(), addresses.len() * ADDRESS_WORDS);
    let (told, told_words) = (answers.as_mut_ptr(), answers.len() * ANSWER_WORDS);
    // SAFETY: all three pairs of pointer and length are of one slice each. An address is three words and an answer eight, and both lie
    // as words must, as the test below holds; so no more is read than the addresses, and no more written than the answers, which are
    // lent alone. Any numbers are an address: of the first word the call takes the half that is the page, so it does not matter what
    // stands beside it. What is written are numbers, and every pattern of bits is one in each field of an answer.
    unsafe { shorgavel_screen(db.as_ptr(), db.len(), reading, asked, asked_words, told, told_words) }
}

/// One column of a cell in the file reading, with a buffer for a payload that spills.
pub fn file_value_lent(db: &[u8], page: u32, cell: usize, column: usize, buffer: &mut [u8]) -> LentValue {
    let (bytes, room) = (buffer.as_mut_ptr(), buffer.len());
    // SAFETY: as for `old_value`; the buffer's pointer and length are of one slice too, lent alone.
    unsafe { shorgavel_file_value_lent(db.as_ptr(), db.len(), page, cell, column, bytes, room) }
}

/// One column of a cell in the guarded reading, with a buffer for a payload that spills.
pub fn guarded_value_lent(db: &[u8], page: u32, cell: usize, column: usize, buffer: &mut [u8]) -> LentValue {
    let (bytes, room) = (buffer.as_mut_ptr(), buffer.len());
    // SAFETY: as for `file_value_lent`.
    unsafe { shorgavel_guarded_value_lent(db.as_ptr(), db.len(), page, cell, column, bytes, room) }
}

/// How many rows the table at a root page has.
pub fn table_count(db: &[u8], root: u32) -> RowsAnswer {
    // SAFETY: pointer and length are of one slice; any number names a page or is refused.
    unsafe { shorgavel_table_count(db.as_ptr(), db.len(), root) }
}

/// The same, and the rows in the list, in place of those that were there, if they fit without its growing.
pub fn table_rows(db: &[u8], root: u32, list: &mut Vec<Place>) -> RowsAnswer {
    // SAFETY: it is one of the two calls that list rows.
    unsafe { rows_by(shorgavel_table_rows, db, root, list) }
}

/// The same, if the guarded reading shows each of the rows.
pub fn trusted_rows(db: &[u8], root: u32, list: &mut Vec<Place>) -> RowsAnswer {
    // SAFETY: it is the other.
    unsafe { rows_by(shorgavel_trusted_rows, db, root, list) }
}

/// The list has the rows that a call stores.
///
/// # Safety
///
/// The call is `shorgavel_table_rows` or `shorgavel_trusted_rows`.
unsafe fn rows_by(call: Listing, db: &[u8], root: u32, list: &mut Vec<Place>) -> RowsAnswer {
    let words = list.capacity() * PLACE_WORDS;
    list.clear();
    // SAFETY: pointer and length are of one slice; any number names a page or is refused. The list has room for as many
    // places as its capacity says, and its pointer is not null, also where there is no room. A place is three words and
    // lies as words must, as the test below holds; so no more is written than is the list's, and it is lent alone.
    let answer = unsafe { call(db.as_ptr(), db.len(), root, list.as_mut_ptr(), words) };
    debug_assert!(answer.count <= list.capacity());
    // SAFETY: of both calls it is proved that so many rows are written, from the first place on, where nothing is refused,
    // and that the count is 0 on a refusal, also on that of a list that is too short. Any three words are a place.
    unsafe { list.set_len(answer.count) };
    answer
}

#[cfg(test)]
mod tests {
    use super::*;
    use std::mem::align_of;

    /// The sizes that the C header's structs have on x86-64.
    #[test]
    fn structs_are_as_large_as_in_c() {
        assert_eq!(size_of::<Refused>(), 24);
        assert_eq!(size_of::<Fields>(), 84);
        assert_eq!(size_of::<HeaderAnswer>(), 112);
        assert_eq!(size_of::<PagesAnswer>(), 40);
        assert_eq!(size_of::<Head>(), 32);
        assert_eq!(size_of::<PageAnswer>(), 56);
        assert_eq!(size_of::<Slot>(), 48);
        assert_eq!(size_of::<Opened>(), 48);
        assert_eq!(size_of::<Opening>(), 72);
        assert_eq!(size_of::<Along>(), 32);
        assert_eq!(size_of::<Cell>(), 80);
        assert_eq!(size_of::<Row>(), 80);
        assert_eq!(size_of::<Value>(), 40);
        assert_eq!(size_of::<Shown>(), 64);
        assert_eq!(size_of::<LentRow>(), 88);
        assert_eq!(size_of::<LentValue>(), 72);
        assert_eq!(size_of::<Place>(), 24);
        assert_eq!(size_of::<RowsAnswer>(), 32);
        assert_eq!(size_of::<Address>(), 24);
        assert_eq!(size_of::<Answer>(), 64);
        assert_eq!(size_of::<ScreenAnswer>(), 32);
    }

    /// A table of values is a table of words too: five a place, and none stands askew.
    #[test]
    fn a_place_is_five_words() {
        assert_eq!(size_of::<Value>(), WORDS * size_of::<i64>());
        assert_eq!((WORDS, align_of::<Value>(), align_of::<i64>()), (5, 8, 8));
    }

    /// And a list of places: three a place.
    #[test]
    fn a_place_of_a_list_is_three_words() {
        assert_eq!(size_of::<Place>(), PLACE_WORDS * size_of::<i64>());
        assert_eq!((PLACE_WORDS, align_of::<Place>()), (3, 8));
    }

    /// And the lists of a screen: three words an address, eight an answer.
    #[test]
    fn a_screen_is_words() {
        assert_eq!((ADDRESS_WORDS, align_of::<Address>()), (3, 8));
        assert_eq!((ANSWER_WORDS, align_of::<Answer>()), (8, 8));
        assert_eq!(size_of::<Address>(), ADDRESS_WORDS * size_of::<u64>());
        assert_eq!(size_of::<Answer>(), ANSWER_WORDS * size_of::<i64>());
    }

    /// An empty slice's pointer dangles: the calls answer without reading behind it.
    #[test]
    fn no_bytes_are_answered() {
        assert_eq!(header(&[], 1).refused.number, 1);
        assert_eq!(pages(&[], 0).refused.number, 1);
        assert_eq!(open(&[], 0, 0).refused.number, 1);
        assert_eq!([0, 1, 2].map(|reading| cell(&[], reading, 1, 0).refused.number), [1, 1, 1]);
        assert_eq!(entries(&[], 1, 1, &mut []).refused.number, 1);
        assert_eq!(half_entries(&[], 1, 1, 0, &mut []).refused.number, 1);
        assert_eq!(table_count(&[], 1).refused.number, 1);
        assert_eq!(table_rows(&[], 1, &mut Vec::new()).refused.number, 1);
        assert_eq!(trusted_rows(&[], 1, &mut Vec::new()).refused.number, 1);
        assert_eq!((screen(&[], 1, &[], &mut []).refused.number, screen(&[], 1, &[], &mut []).count), (0, 0));
        let mut answers = [Answer::default()];
        assert_eq!(screen(&[], 1, &[Address::default()], &mut answers).count, 1);
        assert_eq!(answers[0].0.refused.number, 1);
    }

    /// Every field of an answer is written, in its own place, whatever it held, and whatever number names the file reading.
    #[test]
    fn an_answer_has_every_field_in_its_place() {
        let bytes = one_row();
        let refused = Refused { number: 9, mark: 9, page: 9, cell: 9, column: 9 };
        let other = Answer(Shown { refused, value: Value { kind: 9, width: 9, integer: 9, bits: 9, at: 9, len: 9 } });
        let five = Value { kind: INTEGER, width: 0, integer: 5, bits: 0, at: 0, len: 0 };
        for (reading, page, width) in [(0, 0, 8), (1, 1, 0), (2, 1, 0), (255, 1, 0)] {
            let mut answers = [other; 3];
            let addresses = [Address { page, cell: 0, column: 0 }, Address { page, cell: 3, column: 2 }];
            let answer = screen(&bytes, reading, &addresses, &mut answers);
            assert_eq!((answer.refused, answer.count), (Refused::default(), 2));
            assert_eq!(answers[0].0, Shown { value: Value { width, ..five }, ..Shown::default() });
            assert_eq!(answers[1].0.refused, Refused { number: 20, page, ..Refused::default() });
            assert_eq!((answers[1].0.value, answers[2]), (Value::default(), other));
        }
    }

    /// A page of 512 bytes and one row, number 3, of a 5 (type 1) and a 7 (type 2).
    fn one_row() -> [u8; 512] {
        let mut bytes = [0; 512];
        bytes[..16].copy_from_slice(b"SQLite format 3\0");
        bytes[16..24].copy_from_slice(&[2, 0, 1, 1, 0, 64, 32, 32]);
        bytes[59] = 1;
        bytes[100..110].copy_from_slice(&[13, 0, 0, 0, 1, 1, 248, 0, 1, 248]);
        bytes[504..].copy_from_slice(&[6, 3, 3, 1, 2, 5, 0, 7]);
        bytes
    }

    fn table_of(places: usize) -> Vec<Value> {
        let mut table = Vec::with_capacity(places);
        assert_eq!(table.capacity(), places);
        let other = Value { kind: 9, width: 9, integer: 9, bits: 9, at: 9, len: 9 };
        table.resize(places, other);
        table
    }

    /// As many values as there are and as the table takes; every field of each is written.
    #[test]
    fn a_table_is_filled_as_far_as_it_goes() {
        let bytes = one_row();
        for reading in [0, 1, 2] {
            let page = open(&bytes, reading, u32::from(reading > 0)).opened;
            for places in 0..4 {
                let mut table = table_of(places);
                let row = row_in(&bytes, &page, 0, &mut table);
                assert_eq!((row.refused.number, row.number, row.columns), (0, 3, 2));
                assert_eq!((row.count, table.len(), table.capacity()), (places.min(2), places.min(2), places));
                for (value, shown) in table.iter().zip([5, 7]) {
                    assert_eq!((value.kind, value.integer), (INTEGER, shown));
                    assert_eq!((value.bits, value.at, value.len), (0, 0, 0));
                }
                let (mut other, mut buffer) = (table_of(places), [9; 4]);
                let lent = row_lent(&bytes, &page, 0, &mut other, &mut buffer);
                assert_eq!((lent.source, lent.row.number, buffer), (0, 3, [9; 4]));
                assert_eq!(format!("{other:?}"), format!("{table:?}"));
            }
        }
    }

    /// Row, columns, cursor and flag stand where the call has them, in each reading.
    #[test]
    fn a_cell_has_every_field_in_its_place() {
        let mut bytes = one_row();
        for reading in [0, 1, 2, 255] {
            let page = u32::from(reading > 0);
            let shown = cell(&bytes, reading, page, 0);
            assert_eq!((shown.refused.number, shown.row, shown.columns, shown.shortest), (0, 3, 2, 1));
            let along = shown.along;
            assert_eq!((along.at, along.stop, along.value, along.end), (507, 509, 509, 512));
            let none = cell(&bytes, reading, page, 1);
            assert_eq!((none.refused.number, none.row, none.columns, none.shortest), (20, 0, 0, 0));
        }
        // The row number 3 in two bytes.
        bytes[108..110].copy_from_slice(&[1, 247]);
        bytes[503..506].copy_from_slice(&[6, 0x80, 3]);
        for reading in [0, 1, 2] {
            let shown = cell(&bytes, reading, u32::from(reading > 0), 0);
            assert_eq!((shown.refused.number, shown.row, shown.columns, shown.shortest), (0, 3, 2, 0));
        }
        // A type 9: guarded alone refuses it.
        bytes[503..].copy_from_slice(&[5, 0x80, 3, 3, 9, 2, 0, 7, 0]);
        assert_eq!(
            [0, 1, 2].map(|reading| cell(&bytes, reading, u32::from(reading > 0), 0).refused.number),
            [0, 0, 21]
        );
    }

    /// Where a row is refused, the table has no value.
    #[test]
    fn a_refusal_leaves_no_values() {
        let bytes = one_row();
        let page = open(&bytes, 1, 1).opened;
        let mut table = table_of(3);
        assert_eq!(row_in(&bytes, &page, 1, &mut table).refused.number, 20);
        assert_eq!((table.len(), table.capacity()), (0, 3));
        let mut table = table_of(3);
        assert_eq!(row_lent(&bytes, &page, 1, &mut table, &mut []).row.refused.number, 20);
        assert_eq!((table.len(), table.capacity()), (0, 3));
    }

    /// Page 1 is a leaf of one row, number 3. A list that is long enough has it; a shorter one is left empty.
    #[test]
    fn a_list_has_all_rows_or_none() {
        let bytes = one_row();
        assert_eq!((table_count(&bytes, 1).refused.number, table_count(&bytes, 1).count), (0, 1));
        for call in [table_rows, trusted_rows] {
            for places in 0..3 {
                let mut list = list_of(places);
                let answer = call(&bytes, 1, &mut list);
                let wanted: &[Place] = if places == 0 { &[] } else { &[Place::new(1, 0, 3)] };
                assert_eq!((answer.count, &list[..], list.capacity()), (wanted.len(), wanted, places));
                assert_eq!((answer.refused.number, answer.refused.page), if places == 0 { (19, 1) } else { (0, 0) });
            }
            let mut list = list_of(1);
            assert_eq!((call(&bytes, 2, &mut list).refused.number, list.len()), (8, 0));
        }
    }

    /// A type 9 in place of the 5: the row is listed, and not trusted.
    #[test]
    fn a_row_that_parts_leaves_no_list() {
        let mut bytes = one_row();
        bytes[507] = 9;
        bytes[504] = 5;
        bytes[509..].copy_from_slice(&[0, 7, 0]);
        let (mut all, mut trusted) = (list_of(2), list_of(2));
        assert_eq!((table_rows(&bytes, 1, &mut all).refused.number, all.len()), (0, 1));
        let refused = trusted_rows(&bytes, 1, &mut trusted).refused;
        assert_eq!((refused.number, refused.mark, refused.page, refused.cell), (21, 3, 1, 0));
        assert_eq!((trusted.len(), trusted.capacity()), (0, 2));
    }

    fn list_of(places: usize) -> Vec<Place> {
        let mut list = Vec::with_capacity(places);
        assert_eq!(list.capacity(), places);
        list.resize(places, Place::new(9, 9, 9));
        list
    }

    /// The call on a half of a table leaves the table, and answers, as the call that is lent that half alone does.
    #[test]
    fn a_half_is_a_table_of_its_own() {
        let bytes = one_row();
        let blank = Slot { kind: 9, pointer: 9, child: 9, payload_size: 9, row: 9, header_size: 9, columns: 9 };
        for (places, half, page) in
            (0..6).flat_map(|places| [0, 1, 255].map(|half| (places, half, 1 + half as u32 % 2)))
        {
            let (mut whole, mut split) = (vec![blank; places], vec![blank; places]);
            let (first, rest) = split.split_at_mut(places / 2);
            let own = if half == 0 { first } else { &mut rest[..places / 2] };
            let (asked, alone) = (half_entries(&bytes, 1, page, half, &mut whole), entries(&bytes, 1, page, own));
            assert_eq!((asked.refused.number, asked.head.cells), (alone.refused.number, alone.head.cells));
            assert_eq!(whole, split);
        }
        assert_eq!(half_entries(&bytes, 1, 1, 0, &mut [blank; 1]).refused.number, 19);
        assert_eq!(half_entries(&bytes, 1, 1, 1, &mut [blank; 2]).head.cells, 1);
    }

    /// No page is asked to be one that a call answered.
    #[test]
    fn numbers_of_no_page_are_answered() {
        for reading in [0, 1, 2, 255] {
            let page = Opened {
                reading,
                kind: 13,
                end: u32::MAX,
                number: u32::MAX,
                at: usize::MAX,
                size: usize::MAX,
                from: usize::MAX,
                cells: usize::MAX,
            };
            for cell in [0, usize::MAX - 1] {
                let mut table = table_of(2);
                assert_ne!(row_in(&[9], &page, cell, &mut table).refused.number, 0);
                assert!(table.is_empty());
                assert_ne!(row_lent(&[9], &page, cell, &mut table, &mut []).row.refused.number, 0);
                assert!(table.is_empty());
            }
        }
    }
}
