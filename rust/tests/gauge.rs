//! Every call of the package, on databases worked by hand.

mod common;

use common::{every_kind, long_notes, note, pages, put, spill, two_rows};
use shorgavel::Reading::{File, Guarded, Old};
use shorgavel::{
    Cell, Entry, Gauge, Head, Kind, Mark, Notes, PageCount, Reading, Refusal, Row, TextEncoding, Value, Width,
};
use std::cell::RefCell;

fn cell(bytes: &[u8], reading: Reading, number: usize) -> Result<Cell<'_>, Refusal> {
    Gauge::new(bytes).get_page(reading, reading.first_page()).unwrap().cell(number)
}

fn values<'a>(cell: &Cell<'a>) -> Vec<Value<'a>> {
    cell.values().collect()
}

#[test]
fn header_has_a_place_for_each_field() {
    let mut bytes = two_rows();
    for (at, byte) in bytes.iter_mut().enumerate().take(100).skip(24) {
        *byte = at as u8;
    }
    bytes[20] = 8;
    put(&mut bytes, 56, &[0, 0, 0, 2]);
    let header = Gauge::new(&bytes).header(File).unwrap();
    assert_eq!((header.page_size, header.write_version, header.read_version), (512, 1, 1));
    assert_eq!(header.reserved_space, 8);
    assert_eq!((header.max_payload_fraction, header.min_payload_fraction, header.leaf_payload_fraction), (64, 32, 32));
    assert_eq!((header.file_change_counter, header.db_size), (0x18191a1b, 0x1c1d1e1f));
    assert_eq!((header.first_freelist_page_no, header.total_freelist_pages), (0x20212223, 0x24252627));
    assert_eq!((header.schema_cookie, header.schema_format_no), (0x28292a2b, 0x2c2d2e2f));
    assert_eq!((header.default_page_cache_size, header.no_largest_root_b_tree), (0x30313233, 0x34353637));
    assert_eq!((header.db_text_encoding, header.user_version), (TextEncoding::Utf16Le, 0x3c3d3e3f));
    assert_eq!((header.incremental_vacuum_mode, header.application_id), (0x40414243, 0x44454647));
    assert_eq!((header.version_valid_for_no, header.sqlite_version_number), (0x5c5d5e5f, 0x60616263));
    assert_eq!(Gauge::new(&bytes).header(Old).unwrap().reserved_space, 0);
    assert_eq!(Gauge::new(&bytes).header(Guarded).unwrap(), header);
}

#[test]
fn header_is_refused_by_number() {
    assert_eq!(Gauge::new(&[]).header(File).unwrap_err().number(), 1);
    let refusal = Gauge::new(&two_rows()[..99]).header(Old).unwrap_err();
    assert_eq!((refusal.number(), refusal.name()), (2, "HeaderCut"));
    assert_eq!((refusal.page(), refusal.cell(), refusal.column(), refusal.mark()), (None, None, None, None));
    assert_eq!(refusal.to_string(), "refused 2 (HeaderCut): there are fewer than 100 bytes");
    assert_eq!(Gauge::new(&[]).rows(Guarded).unwrap_err().number(), 1);
    assert_eq!(Gauge::new(&[]).pages(Old).unwrap_err().number(), 1);
    assert!(Gauge::within_limit(Gauge::LIMIT).is_ok());
    assert_eq!(Gauge::within_limit(Gauge::LIMIT + 1).unwrap_err().name(), "OverLimit");
}

#[test]
fn pages_count_as_the_reading_counts() {
    let mut bytes = two_rows();
    bytes.extend([0; 600]);
    let gauge = Gauge::new(&bytes);
    assert_eq!(gauge.pages(Old), Ok(0..2));
    assert_eq!(gauge.pages(File), Ok(1..3));
    assert_eq!(gauge.pages(Guarded), Ok(1..3));
    assert_eq!(gauge.get_page(Old, 2).unwrap_err().name(), "PageAbsent");
    assert_eq!(gauge.get_page(File, 0).unwrap_err().name(), "PageAbsent");
    assert_eq!(gauge.get_page(File, 2).unwrap_err().name(), "KindUnfit");
    // No whole page is counted where a page has no size, which the file reading refuses.
    put(&mut bytes, 16, &[0, 0]);
    assert_eq!(Gauge::new(&bytes).pages(Old), Ok(0..0));
    assert_eq!(Gauge::new(&bytes).pages(File).unwrap_err().name(), "PageSizeUnfit");
}

#[test]
fn pages_behind_the_stated_size_are_old_alone() {
    let mut bytes = two_rows();
    bytes.extend([0; 1024]);
    put(&mut bytes, 1024, &[13, 0, 0, 0, 0, 0, 0, 0]);
    for (stated, count, present) in [(0, 3, 3), (2, 2, 2), (3, 3, 3), (7, 7, 3), (u32::MAX, u32::MAX, 3)] {
        put(&mut bytes, 28, &stated.to_be_bytes());
        let gauge = Gauge::new(&bytes);
        assert_eq!(gauge.page_count(Old), Ok(PageCount { count: 3, present: 3 }));
        assert_eq!(gauge.page_count(File), Ok(PageCount { count, present }));
        assert_eq!(gauge.pages(Guarded), Ok(1..1 + present));
        assert_eq!(gauge.get_page(File, 3).is_ok(), 3 <= present);
        assert!(gauge.get_page(Old, 2).is_ok());
    }
    // The counters differ: the size was not written with the last change.
    put(&mut bytes, 92, &[0, 0, 0, 1]);
    put(&mut bytes, 28, &[0, 0, 0, 1]);
    assert_eq!(Gauge::new(&bytes).page_count(File), Ok(PageCount { count: 3, present: 3 }));
}

#[test]
fn page_has_a_head_and_entries() {
    let bytes = two_rows();
    let page = Gauge::new(&bytes).get_page(File, 1).unwrap();
    assert_eq!((page.number(), page.reading(), page.kind(), page.len()), (1, File, Kind::LeafTable, 2));
    let head = Head {
        kind: Kind::LeafTable,
        first_freeblock_offset: None,
        no_cells: 2,
        cell_content_offset: 494,
        no_fragmented_bytes: 0,
        rightmost_pointer: None,
    };
    assert_eq!(page.head(), Ok(head));
    let entry = |cell_pointer, rowid| Entry {
        kind: Kind::LeafTable,
        cell_pointer,
        left_child_page_no: None,
        payload_size: Some(7),
        rowid: Some(rowid),
        header_size: Some(3),
        columns: 2,
    };
    assert_eq!(page.entries(), Ok(vec![entry(503, 1), entry(494, 2)]));
    for (reading, number) in [(Old, 0), (Guarded, 1)] {
        let other = Gauge::new(&bytes).get_page(reading, number).unwrap();
        assert_eq!((other.head(), other.entries()), (page.head(), page.entries()));
    }
}

/// An interior table of one cell: child 7, key 5; the rightmost child is 9.
#[test]
fn interior_table_has_children_and_no_record() {
    let mut bytes = two_rows();
    put(&mut bytes, 100, b"\x05\x00\x11\x00\x01\x01\xfb\x02\0\0\0\x09\x01\xfb");
    put(&mut bytes, 507, b"\0\0\0\x07\x05");
    let page = Gauge::new(&bytes).get_page(File, 1).unwrap();
    let head = page.head().unwrap();
    assert_eq!((head.kind, head.rightmost_pointer), (Kind::InteriorTable, Some(9)));
    assert_eq!((head.first_freeblock_offset, head.no_fragmented_bytes), (Some(17), 2));
    let entry = page.entries().unwrap()[0];
    assert_eq!((entry.left_child_page_no, entry.rowid, entry.columns), (Some(7), Some(5), 0));
    assert_eq!((entry.payload_size, entry.header_size), (None, None));
    assert_eq!(page.cell(0).unwrap().rowid(), 5);
    assert_eq!(page.cell(0).unwrap().values().next(), None);
    assert_eq!(Gauge::new(&bytes).get_page(Guarded, 1).unwrap_err().name(), "KindUnfit");
    for reading in Reading::ALL {
        assert_eq!(Gauge::new(&bytes).rows(reading).unwrap().count(), 0);
    }
}

/// A leaf index of one cell: key 42, and the row number 3 that the old reading takes from behind it.
#[test]
fn index_cells_have_row_numbers_in_the_old_reading_only() {
    let mut bytes = two_rows();
    put(&mut bytes, 100, b"\x0a\x00\x00\x00\x01\x01\xfb\x00\x01\xfb");
    put(&mut bytes, 507, b"\x03\x02\x01\x2a\x03");
    assert_eq!(Gauge::new(&bytes).get_page(Old, 0).unwrap().entries().unwrap()[0].rowid, Some(3));
    assert_eq!(cell(&bytes, Old, 0).unwrap().rowid(), 3);
    assert_eq!(Gauge::new(&bytes).get_page(File, 1).unwrap().entries().unwrap()[0].rowid, None);
    assert_eq!(values(&cell(&bytes, File, 0).unwrap()), [Value::Integer(42)]);
    bytes[511] = 0x80;
    assert_eq!(cell(&bytes, Old, 0).unwrap_err().name(), "ClosingCut");
}

#[test]
fn a_stored_one_parts_the_readings() {
    let bytes = two_rows();
    let old = cell(&bytes, Old, 0).unwrap();
    assert_eq!((old.rowid(), old.columns()), (1, 2));
    assert_eq!(values(&old), [Value::Integer(0), Value::Integer(16_777_216)]);
    let file = cell(&bytes, File, 0).unwrap();
    assert_eq!((file.rowid(), file.columns()), (1, 2));
    assert_eq!(values(&file), [Value::Integer(1), Value::Integer(16_777_216)]);
    let refusal = cell(&bytes, Guarded, 0).unwrap_err();
    assert_eq!((refusal.number(), refusal.name(), refusal.page(), refusal.cell()), (21, "Marked", Some(1), Some(0)));
    assert_eq!((refusal.mark(), refusal.column()), (Some(Mark::TypeNine), None));
    let said = "refused 21 (Marked) on page 1, cell 0: old and file need not agree: a type 9, a stored 1";
    assert_eq!(refusal.to_string(), said);
    assert_eq!(values(&cell(&bytes, Guarded, 1).unwrap()), values(&cell(&bytes, Old, 1).unwrap()));
}

#[test]
fn every_kind_of_value_is_shown() {
    let bytes = every_kind();
    let expected = [
        Value::Integer(-1),
        Value::Integer(-2),
        Value::Integer(i64::MIN),
        Value::Real(1.5),
        Value::Text(b"Hi"),
        Value::Blob(&[0, 1]),
        Value::Null,
    ];
    for reading in Reading::ALL {
        let row = cell(&bytes, reading, 1).unwrap();
        assert_eq!(values(&row), expected);
        assert_eq!(row.value(4).unwrap().text(), Some("Hi"));
        assert_eq!(row.value(7), None);
        for (column, value) in expected.iter().enumerate() {
            let single = Gauge::new(&bytes).value(reading, reading.first_page(), 1, column);
            assert_eq!(single, Ok(*value));
        }
        let none = Gauge::new(&bytes).value(reading, reading.first_page(), 1, 7).unwrap_err();
        assert_eq!(none.number(), 20);
    }
}

/// The two rows with a cell 1 of so many integers of one byte: 2, 3 and so on. It ends where its cell ended before.
fn long_row(columns: u8) -> Vec<u8> {
    let mut bytes = two_rows();
    let payload = 1 + 2 * usize::from(columns);
    let mut row = vec![0x80 | (payload >> 7) as u8, (payload & 0x7f) as u8, 2, columns + 1];
    row.extend([1].repeat(columns.into()));
    row.extend(2..columns + 2);
    let at = 494 - row.len();
    put(&mut bytes, at, &row);
    put(&mut bytes, 110, &(at as u16).to_be_bytes());
    put(&mut bytes, 105, &(at as u16).to_be_bytes());
    bytes
}

fn integers(columns: u8) -> Vec<Value<'static>> {
    (2..columns + 2).map(|z| Value::Integer(z.into())).collect()
}

/// A row's table has eight places at first: one that is wider is one row all the same, to its end.
#[test]
fn long_rows_are_shown_to_their_end() {
    for columns in [1, 7, 8, 9, 16, 20, 100] {
        let (bytes, expected) = (long_row(columns), integers(columns));
        let count = usize::from(columns);
        for reading in Reading::ALL {
            let row = cell(&bytes, reading, 1).unwrap();
            assert_eq!((row.columns(), values(&row)), (count, expected.clone()));
            assert_eq!((row.value(count - 1), row.value(count)), (Some(expected[count - 1]), None));
            assert_eq!(row.widths().count(), count);
            assert_eq!(row.widths().all(|width| width == Some(Width::I8)), reading == Old);
        }
    }
}

#[test]
fn values_are_passed_over_and_gone_on_with() {
    let (bytes, expected) = (long_row(20), integers(20));
    for reading in Reading::ALL {
        let row = cell(&bytes, reading, 1).unwrap();
        let mut some = row.values();
        some.nth(10);
        let mut others = some.clone();
        assert_eq!((some.len(), some.next(), some.last()), (9, Some(expected[11]), Some(expected[19])));
        assert_eq!((others.nth(8), others.len(), others.next()), (Some(expected[19]), 0, None));
        assert_eq!((others.nth(3), others.next()), (None, None));
    }
}

/// The table of a row that is dropped serves the next one; a row that is kept has its own.
#[test]
fn rows_that_are_kept_keep_their_values() {
    let databases = [long_row(100), two_rows(), every_kind(), long_row(3), long_row(20)];
    let rows = |bytes| Gauge::new(bytes).rows(File).unwrap();
    let alone = |row: Row<'_>| format!("{:?}", values(&row.shown.unwrap()));
    let kept: Vec<_> = databases.iter().flat_map(|bytes| rows(bytes)).collect();
    let copies: Vec<_> = kept.iter().step_by(2).cloned().collect();
    let one_by_one: Vec<_> = databases.iter().flat_map(|bytes| rows(bytes)).map(alone).collect();
    assert_eq!(kept.into_iter().map(alone).collect::<Vec<_>>(), one_by_one);
    let every_other: Vec<_> = one_by_one.into_iter().step_by(2).collect();
    assert_eq!(copies.into_iter().map(alone).collect::<Vec<_>>(), every_other);
}

/// Rows go from thread to thread, and may outlive all else of one that ends.
#[test]
fn rows_are_not_bound_to_a_thread() {
    thread_local! {
        static LAST: RefCell<Option<Cell<'static>>> = const { RefCell::new(None) };
    }
    let bytes: &'static [u8] = Vec::leak(long_row(20));
    let row = cell(bytes, File, 1).unwrap();
    let shown = std::thread::spawn(move || {
        LAST.with(|last| last.replace(Some(row.clone())));
        assert_eq!(values(&cell(bytes, Old, 1).unwrap()), integers(20));
        LAST.with(|last| last.replace(Some(row.clone())));
        (values(&row), row)
    });
    let (shown, row) = shown.join().unwrap();
    assert_eq!((shown, values(&row)), (integers(20), integers(20)));
}

#[test]
fn texts_and_blobs_are_the_callers_bytes() {
    let bytes = every_kind();
    let row = cell(&bytes, File, 1).unwrap();
    let text = row.value(4).and_then(|value| value.bytes()).unwrap();
    assert_eq!(text.as_ptr(), bytes[429..].as_ptr());
}

#[test]
fn integers_keep_their_widths_in_the_old_reading() {
    let bytes = every_kind();
    let widths: Vec<_> = cell(&bytes, Old, 1).unwrap().widths().collect();
    let expected = [Some(Width::I8), Some(Width::I16), Some(Width::I64), None, None, None, None];
    assert_eq!(widths, expected);
    assert!(cell(&bytes, File, 1).unwrap().widths().all(|width| width.is_none()));
}

/// A real that is not a number keeps its bits, also those of a signalling one.
#[test]
fn reals_keep_their_bits() {
    let mut bytes = every_kind();
    put(&mut bytes, 421, &0x7ff0_0000_0000_0001_u64.to_be_bytes());
    let real = cell(&bytes, File, 1).unwrap().value(3).unwrap();
    assert_eq!(real.real().unwrap().to_bits(), 0x7ff0_0000_0000_0001);
    assert_eq!(real, real);
    assert_ne!(real, Value::Real(f64::NAN));
}

#[test]
fn iterators_know_their_length() {
    let bytes = every_kind();
    let page = Gauge::new(&bytes).get_page(File, 1).unwrap();
    let mut cells = page.cells();
    assert_eq!(cells.len(), 2);
    cells.next();
    assert_eq!(cells.len(), 1);
    let row = cells.next().unwrap().unwrap();
    let mut values = row.values();
    assert_eq!((values.len(), cells.len()), (7, 0));
    values.nth(4);
    assert_eq!(values.len(), 2);
    values.nth(1);
    assert_eq!((values.len(), values.next(), values.next()), (0, None, None));
    assert!(cells.next().is_none());
}

/// A reserved type refuses its own cell, and the page call refuses the page for it.
#[test]
fn one_refused_cell_leaves_the_others() {
    let mut bytes = every_kind();
    bytes[404] = 10;
    let refusal = cell(&bytes, File, 1).unwrap_err();
    assert_eq!((refusal.number(), refusal.page(), refusal.cell(), refusal.column()), (15, Some(1), Some(1), Some(1)));
    let said = "refused 15 (TypeReserved) on page 1, cell 1, column 1: the type is 10 or 11, which are reserved";
    assert_eq!(refusal.to_string(), said);
    // Old counts the same page from 0.
    let in_old = cell(&bytes, Old, 1).unwrap_err();
    assert_eq!((in_old.number(), in_old.page(), in_old.cell()), (15, Some(0), Some(1)));
    let page = Gauge::new(&bytes).get_page(File, 1).unwrap();
    assert_eq!(page.head(), Err(refusal));
    assert_eq!(page.entries(), Err(refusal));
    assert!(page.cell(0).is_ok());
    assert_eq!(page.cell(2).unwrap_err().number(), 20);
}

#[test]
fn rows_go_through_the_table_leaves() {
    let one = two_rows();
    let mut bytes = one.clone();
    bytes.extend([0; 512]);
    bytes.extend(&one);
    // The third page starts with its own head.
    put(&mut bytes, 1024, b"\x0d\x00\x00\x00\x01\x01\xee\x00\x01\xee");
    for reading in Reading::ALL {
        let rows: Vec<_> = Gauge::new(&bytes).rows(reading).unwrap().collect();
        let places: Vec<_> = rows.iter().map(|row| (row.page, row.cell)).collect();
        assert_eq!(places, [(1, 0), (1, 1), (3, 0)]);
        assert_eq!(rows[2].shown.as_ref().unwrap().rowid(), 2);
        assert_eq!(rows[0].shown.is_err(), reading == Guarded);
        let leaves = Gauge::new(&bytes).leaves(reading).unwrap();
        assert_eq!(leaves.map(|page| page.len()).collect::<Vec<_>>(), [2, 1]);
    }
}

/// What the record of [`note`] has.
fn columns(record: &[u8]) -> [Value<'_>; 4] {
    let (text, blob) = record[7..].split_at(record.len() - 9);
    [Value::Integer(5), Value::Text(text), Value::Null, Value::Blob(blob)]
}

#[test]
fn long_notes_are_shown_where_notes_are_lent() {
    let bytes = long_notes();
    let (mut rows, mut notes) = (Gauge::new(&bytes).rows(File).unwrap(), Notes::new());
    for (place, payload) in [600, 987, 0, 478].into_iter().enumerate() {
        let row = rows.next_with(&mut notes).unwrap();
        assert_eq!((row.page, row.cell), (2, place));
        let shown = row.shown.unwrap();
        assert_eq!(shown.rowid(), place as i64 + 1);
        if payload == 0 {
            assert_eq!(values(&shown), [Value::Integer(7)]);
        } else {
            assert_eq!(values(&shown), columns(&note(payload)));
        }
    }
    assert!(rows.next_with(&mut notes).is_none());
    let refusals: Vec<_> = Gauge::new(&bytes).rows(File).unwrap().filter_map(|row| row.shown.err()).collect();
    assert_eq!(
        refusals.iter().map(|refusal| (refusal.number(), refusal.cell())).collect::<Vec<_>>(),
        [(18, Some(0)), (18, Some(1)), (18, Some(3))]
    );
}

#[test]
fn cells_and_values_of_long_notes_are_those_of_rows() {
    let bytes = long_notes();
    let gauge = Gauge::new(&bytes);
    let (mut notes, mut others) = (Notes::new(), Notes::new());
    for (page, number, payload) in [(2, 0, 600), (2, 1, 987), (2, 3, 478), (7, 0, 200)] {
        let record = note(payload);
        let row = gauge.get_page(File, page).unwrap().cell_with(number, &mut notes).unwrap();
        assert_eq!(values(&row), columns(&record));
        for (column, value) in columns(&record).into_iter().enumerate() {
            assert_eq!(gauge.value_with(File, page, number, column, &mut others), Ok(value));
        }
        assert_eq!(gauge.value_with(File, page, number, 4, &mut others).unwrap_err().number(), 20);
        assert_eq!(gauge.value(File, page, number, 0).unwrap_err().name(), "PayloadSpills");
    }
}

/// A text of a row that spills is of the notes, and one of a whole row the caller's; both outlive their cells.
#[test]
fn texts_are_the_callers_bytes_or_the_notes() {
    let (bytes, mut notes) = (long_notes(), Notes::new());
    let text = Gauge::new(&bytes).get_page(File, 2).unwrap().cell_with(0, &mut notes).unwrap().value(1).unwrap();
    assert!(!bytes.as_ptr_range().contains(&text.bytes().unwrap().as_ptr()));
    assert_eq!(text, columns(&note(600))[1]);
    let bytes = every_kind();
    let text = Gauge::new(&bytes).get_page(File, 1).unwrap().cell_with(1, &mut notes).unwrap().value(4).unwrap();
    assert_eq!(text.bytes().unwrap().as_ptr(), bytes[429..].as_ptr());
}

/// Where no row spills, all is as without notes, and so is the old reading.
#[test]
fn notes_change_nothing_else() {
    for bytes in [two_rows(), every_kind(), long_row(100), long_notes(), Vec::new()] {
        for reading in Reading::ALL {
            let Ok(plain) = Gauge::new(&bytes).rows(reading) else {
                continue;
            };
            let (mut rows, mut notes) = (plain.clone(), Notes::new());
            for row in plain {
                let lent = rows.next_with(&mut notes).unwrap();
                if row.shown.as_ref().is_err_and(|refusal| refusal.number() == 18) {
                    continue;
                }
                assert_eq!(format!("{lent:?}"), format!("{row:?}"));
                let (page, cell) = (row.page - 1 + reading.first_page(), row.cell);
                let single = Gauge::new(&bytes).value(reading, page, cell, 1);
                assert_eq!(Gauge::new(&bytes).value_with(reading, page, cell, 1, &mut notes), single);
            }
        }
    }
}

/// Guarded never shows a row that spills: it tells the lowest mark.
#[test]
fn guarded_marks_long_notes() {
    let (mut bytes, mut notes) = (long_notes(), Notes::new());
    let refusal = Gauge::new(&bytes).get_page(Guarded, 2).unwrap().cell_with(1, &mut notes).unwrap_err();
    assert_eq!((refusal.number(), refusal.cell(), refusal.mark()), (21, Some(1), Some(Mark::Spills)));
    let said = "refused 21 (Marked) on page 2, cell 1: old and file need not agree: a long note, whose payload spills";
    assert_eq!(refusal.to_string(), said);
    assert_eq!(Gauge::new(&bytes).value_with(Guarded, 2, 1, 1, &mut notes), Err(refusal));
    assert_eq!(Gauge::new(&bytes).get_page(Guarded, 2).unwrap().cell(1).unwrap_err().number(), 18);
    // A type 9 in place of the null.
    bytes[512 + 367 + 3 + 4] = 9;
    let refusal = Gauge::new(&bytes).value_with(Guarded, 2, 1, 1, &mut notes).unwrap_err();
    assert_eq!((refusal.number(), refusal.mark()), (21, Some(Mark::TypeNine)));
}

/// A database of 40 pages, 20,480 bytes, whose row has a payload of 8,194.
fn longer_note() -> Vec<u8> {
    let mut bytes = pages(40);
    put(&mut bytes, 512, b"\x0d\x00\x00\x00\x01\x00\xc8\x00\x00\xc8");
    spill(&mut bytes, 2, 200, b"\xc0\x02\x01", &note(8194), 66, &(3..=18).collect::<Vec<_>>());
    bytes
}

/// Notes start with 8,192 bytes, or as many as the database has, and grow by doubling.
#[test]
fn notes_grow_with_the_payload() {
    let (small, large, mut notes) = (long_notes(), longer_note(), Notes::new());
    let small = Gauge::new(&small).get_page(File, 2).unwrap();
    let large = Gauge::new(&large).get_page(File, 2).unwrap();
    assert_eq!(values(&small.cell_with(0, &mut notes).unwrap()), columns(&note(600)));
    assert_eq!(format!("{notes:?}"), "Notes(4096 bytes)");
    assert_eq!(values(&large.cell_with(0, &mut notes).unwrap()), columns(&note(8194)));
    assert_eq!(format!("{notes:?}"), "Notes(16384 bytes)");
    assert_eq!(values(&small.cell_with(1, &mut notes).unwrap()), columns(&note(987)));
    let (bytes, mut others) = (longer_note(), Notes::new());
    assert_eq!(Gauge::new(&bytes).value_with(File, 2, 0, 1, &mut others), Ok(columns(&note(8194))[1]));
    assert_eq!(format!("{others:?}"), "Notes(16384 bytes)");
}

/// A payload of 4,097 bytes is in no chain of 4,096: that is told also by notes that have grown with another database.
#[test]
fn what_notes_held_before_changes_no_answer() {
    let (mut bytes, large, mut notes) = (long_notes(), longer_note(), Notes::new());
    put(&mut bytes, 512 + 413, b"\xa0\x01");
    let page = Gauge::new(&bytes).get_page(File, 2).unwrap();
    let refusal = page.cell_with(0, &mut notes).unwrap_err();
    assert_eq!((refusal.number(), refusal.cell()), (24, Some(0)));
    assert!(Gauge::new(&large).value_with(File, 2, 0, 0, &mut notes).is_ok());
    assert_eq!(page.cell_with(0, &mut notes).unwrap_err(), refusal);
    assert_eq!(Gauge::new(&bytes).value_with(File, 2, 0, 0, &mut notes), Err(refusal));
}

/// The row has more columns than its table has places at first, and their types spill as well.
#[test]
fn long_notes_of_many_columns_are_shown_to_their_end() {
    let mut record = vec![0x82, 0x2e];
    record.extend([1; 300]);
    record.extend((0..300).map(|column| (column % 100) as u8));
    let mut bytes = pages(3);
    put(&mut bytes, 512, b"\x0d\x00\x00\x00\x01\x00\xc8\x00\x00\xc8");
    spill(&mut bytes, 2, 200, b"\x84\x5a\x01", &record, 94, &[3]);
    let mut notes = Notes::new();
    let row = Gauge::new(&bytes).get_page(File, 2).unwrap().cell_with(0, &mut notes).unwrap();
    let expected: Vec<_> = (0..300).map(|column| Value::Integer(column % 100)).collect();
    assert_eq!((row.columns(), values(&row)), (300, expected));
}

#[test]
fn chains_that_are_not_sound_are_refused() {
    let mut notes = Notes::new();
    let mut refused = |at: usize, part: &[u8]| {
        let mut bytes = long_notes();
        put(&mut bytes, at, part);
        let file = Gauge::new(&bytes).get_page(File, 2).unwrap().cell_with(1, &mut notes).unwrap_err();
        assert_eq!(Gauge::new(&bytes).value_with(File, 2, 1, 0, &mut notes), Err(file));
        assert_eq!(Gauge::new(&bytes).value_with(Guarded, 2, 1, 0, &mut notes), Err(file));
        file.to_string()
    };
    let chain = "refused 23 (ChainUnfit) on page 2, cell 1: the overflow chain leaves the file, ends early or goes on";
    let first = 512 + 367 + 3 + 39;
    // It leaves the file, ends early, goes on, and goes in a circle.
    for (at, next) in [(first, 9), (first, 0), (4 * 512, 0), (3 * 512, 5), (3 * 512, 3), (4 * 512, 5)] {
        assert_eq!(refused(at, &[0, 0, 0, next]), chain);
    }
    // A payload that is longer than the file is in none of its chains.
    let short = "refused 24 (BufferTooShort) on page 2, cell 1: the gather buffer is shorter than the payload";
    assert_eq!(refused(512 + 367, &[0xff, 0x7f]), short);
    // What is kept and the number of the next page pass the page's end.
    assert_eq!(refused(512 + 10, &[1, 0xfb]), "refused 13 (CellCut) on page 2, cell 1: the cell is cut short");
}

/// Nothing is allocated until a payload spills, and a buffer is shown by its length alone.
#[test]
fn notes_have_no_room_until_it_is_asked_for() {
    let (bytes, mut notes) = (long_notes(), Notes::new());
    assert!(Gauge::new(&bytes).value_with(File, 2, 2, 0, &mut notes).is_ok());
    assert_eq!(format!("{notes:?}"), "Notes(0 bytes)");
}
