//! All rows of a table, and the tables that a database names, on databases worked by hand.

mod common;

use common::trees::{index, interior, leaf, odd_row, row, schema, schema_row, two_leaves};
use common::{long_notes, note, pages, put};
use shorgavel::Reading::{File, Guarded, Old};
use shorgavel::{Gauge, Mark, Named, Notes, Place, Reading, Refusal, Root, TextEncoding, Unreadable, Value};

fn places(places: &[Place]) -> Vec<(u32, usize, i64)> {
    places.iter().map(|place| (place.page(), place.cell(), place.rowid())).collect()
}

fn refused(bytes: &[u8], root: u32) -> (u8, Option<u32>, Option<usize>) {
    let refusal = Gauge::new(bytes).table(root).unwrap_err();
    assert_eq!(Gauge::new(bytes).count_rows(root), Err(refusal));
    (refusal.number(), refusal.page(), refusal.cell())
}

#[test]
fn rows_come_in_the_order_of_their_numbers() {
    let bytes = two_leaves();
    let table = Gauge::new(&bytes).table(2).unwrap();
    assert_eq!((table.root(), table.len(), table.is_empty()), (2, 4, false));
    assert_eq!(places(table.places()), [(4, 0, -5), (4, 1, 2), (3, 0, 7), (3, 1, 9)]);
    assert_eq!(Gauge::new(&bytes).count_rows(2), Ok(4));
    assert_eq!(format!("{table:?}"), "Table at root 2: 4 rows");
    let schema = Gauge::new(&bytes).table(1).unwrap();
    assert_eq!(places(schema.places()), [(1, 0, 1), (1, 1, 2), (1, 2, 3)]);
    assert_eq!(places(Gauge::new(&bytes).table(5).unwrap().places()), [(5, 0, 8)]);
}

/// The old reading takes row number -5, of nine bytes, for none; the others show the same rows at the same places.
#[test]
fn rows_are_shown_in_any_reading() {
    let bytes = two_leaves();
    let table = Gauge::new(&bytes).table(2).unwrap();
    for reading in Reading::ALL {
        let mut rows = table.rows(reading);
        assert_eq!(rows.len(), 4);
        let first = rows.next().unwrap();
        assert_eq!((first.page, first.cell, first.shown.is_ok()), (4, 0, reading == File));
        let others: Vec<_> = rows.map(|row| (row.page, row.cell, row.shown.unwrap())).collect();
        let shown: Vec<_> = others.iter().map(|(page, cell, one)| (*page, *cell, one.rowid(), one.value(0))).collect();
        let value = |number| Some(Value::Integer(number));
        assert_eq!(shown, [(4, 1, 2, value(11)), (3, 0, 7, value(12)), (3, 1, 9, value(13))]);
    }
    let refusal = table.rows(Old).next().unwrap().shown.unwrap_err();
    assert_eq!((refusal.number(), refusal.page()), (13, Some(3)));
    assert_eq!(table.rows(Guarded).next().unwrap().shown.unwrap_err().page(), Some(4));
}

#[test]
fn long_notes_of_a_table_are_shown_where_notes_are_lent() {
    let bytes = long_notes();
    let table = Gauge::new(&bytes).table(2).unwrap();
    let (mut rows, mut notes, mut refusals) = (table.rows(File), Notes::new(), Vec::new());
    for payload in [600, 987, 0, 478] {
        let shown = rows.next_with(&mut notes).unwrap().shown.unwrap();
        match payload {
            0 => assert_eq!(shown.value(0), Some(Value::Integer(7))),
            _ => assert_eq!(shown.value(1), Some(Value::Text(&note(payload)[7..payload - 2]))),
        }
    }
    assert!(rows.next_with(&mut notes).is_none());
    refusals.extend(table.rows(File).map(|row| row.shown.map_or_else(Refusal::number, |_| 0)));
    assert_eq!(refusals, [18, 18, 0, 18]);
}

/// Each in the table of the requests: the page that was due or walked to, and the cell.
#[test]
fn trees_that_are_not_sound_are_refused_with_their_place() {
    let bytes = two_leaves();
    assert_eq!(refused(&[], 1), (1, None, None));
    assert_eq!(refused(&bytes, 0), (8, Some(0), None));
    assert_eq!(refused(&bytes, 7), (8, Some(7), None));
    assert_eq!(refused(&bytes, 6), (25, Some(6), None));
    let damaged = |change: &dyn Fn(&mut Vec<u8>)| {
        let mut bytes = two_leaves();
        change(&mut bytes);
        refused(&bytes, 2)
    };
    // A child outside, an index page, a page that is none, a leaf twice, a cycle.
    assert_eq!(damaged(&|bytes| interior(bytes, 2, &[(4, 2)], 9)), (8, Some(9), None));
    assert_eq!(damaged(&|bytes| interior(bytes, 2, &[(6, 2)], 3)), (25, Some(6), None));
    assert_eq!(damaged(&|bytes| bytes[3 * 512] = 0), (10, Some(4), None));
    assert_eq!(damaged(&|bytes| interior(bytes, 2, &[(4, 2)], 4)), (27, Some(4), Some(0)));
    assert_eq!(damaged(&|bytes| interior(bytes, 2, &[(4, 2)], 2)), (27, Some(2), Some(0)));
    // A row above its key, a key that does not rise, a row that is as large as the one before it.
    assert_eq!(damaged(&|bytes| interior(bytes, 2, &[(4, 1)], 3)), (27, Some(4), Some(1)));
    assert_eq!(damaged(&|bytes| interior(bytes, 2, &[(4, 2), (3, 2)], 5)), (27, Some(2), Some(1)));
    assert_eq!(damaged(&|bytes| leaf(bytes, 3, &[row(7, 1), row(7, 1)])), (27, Some(3), Some(1)));
    // A pointer outside, and a cell that is cut.
    assert_eq!(damaged(&|bytes| put(bytes, 2 * 512 + 10, &[0, 9])), (12, Some(3), Some(1)));
    assert_eq!(damaged(&|bytes| put(bytes, 2 * 512 + 10, &[1, 255])), (13, Some(3), Some(1)));
}

/// Pages without cells lead on to the rightmost child alone: to themselves, until as many were visited as there are, and to a
/// leaf, which may be 20 deep.
#[test]
fn a_walk_ends() {
    let mut bytes = two_leaves();
    interior(&mut bytes, 2, &[], 2);
    assert_eq!(refused(&bytes, 2), (28, Some(2), None));
    for depth in [20, 21] {
        let mut bytes = pages(30);
        (2..=depth).for_each(|page| interior(&mut bytes, page, &[], page as u8 + 1));
        leaf(&mut bytes, depth + 1, &[row(3, 3)]);
        match depth {
            20 => assert_eq!(places(Gauge::new(&bytes).table(2).unwrap().places()), [(21, 0, 3)]),
            _ => assert_eq!(refused(&bytes, 2), (26, Some(22), None)),
        }
    }
}

#[test]
fn tables_are_named_with_their_roots() {
    let bytes = two_leaves();
    let schema = Gauge::new(&bytes).schema().unwrap();
    let own = Named::schema();
    assert_eq!((own.name.as_str(), own.root, &own.sql), ("sqlite_schema", Root::Numbered(1), &None));
    let found: Vec<_> = schema.tables[1..].iter().map(|table| (table.name.as_str(), table.root)).collect();
    assert_eq!(found, [("load", Root::Numbered(2)), ("keyed", Root::Keyed(6)), ("far", Root::Virtual)]);
    assert_eq!((&schema.tables[0], schema.unread.len()), (&own, 0));
    assert_eq!(schema.table("LOAD").unwrap().sql.as_deref(), Some("CREATE TABLE load(idle)"));
    assert_eq!(schema.table("load2"), None);
    assert_eq!(Gauge::new(&[]).schema().unwrap_err().number(), 1);
}

/// What is no table is passed over, and what cannot be read does not hide the others.
#[test]
fn rows_of_the_schema_that_tell_nothing_are_told() {
    let mut bytes = two_leaves();
    let utf8 = |text: &str| text.as_bytes().to_vec();
    let mut rows: Vec<(i64, Vec<u8>)> = [0, 1, 3].iter().map(|&column| (column as i64, odd_row(column))).collect();
    rows.push((4, vec![1]));
    rows.push((5, vec![2, 10]));
    rows.push((6, schema_row(&("tadle", "x", 2, ""), utf8)));
    rows.push((7, schema_row(&("index", "i", 6, ""), utf8)));
    rows.push((8, schema_row(&("view", "v", 0, ""), utf8)));
    rows.push((9, schema_row(&("table", "load", 2, "CREATE"), utf8)));
    leaf(&mut bytes, 1, &rows);
    let schema = Gauge::new(&bytes).schema().unwrap();
    assert_eq!(schema.tables.iter().map(|table| table.name.as_str()).collect::<Vec<_>>(), ["sqlite_schema", "load"]);
    let said: Vec<_> = schema.unread.iter().map(|row| (row.place.rowid(), row.why.to_string())).collect();
    let expected = [
        (0, "its type is no text"),
        (1, "its name is no text"),
        (3, "its root is no page number"),
        (4, "it has not five columns"),
        (5, "refused 15 (TypeReserved) on page 1, cell 4, column 0: the type is 10 or 11, which are reserved"),
        (6, "its type is no table, index, view or trigger"),
    ];
    assert_eq!(said, expected.map(|(row, why)| (row, why.to_string())));
    assert!(matches!(schema.unread[4].why, Unreadable::Refused(refusal) if refusal.number() == 15));
}

#[test]
fn names_are_decoded_as_the_database_encodes_them() {
    for (number, encoding) in [(2, TextEncoding::Utf16Le), (3, TextEncoding::Utf16Be)] {
        let encode = |text: &str| -> Vec<u8> {
            let unit = |unit: u16| if number == 2 { unit.to_le_bytes() } else { unit.to_be_bytes() };
            text.encode_utf16().flat_map(unit).collect()
        };
        let mut bytes = two_leaves();
        bytes[59] = number;
        let named = schema_row(&("table", "Lädt Ω", 2, "CREATE TABLE x(a)"), encode);
        let mut half = schema_row(&("table", "ab", 2, ""), encode);
        // A lone surrogate in the name, behind the six bytes of the header and the ten of the type.
        let lone = if number == 2 { [0, 0xd8] } else { [0xd8, 0] };
        half[16..18].copy_from_slice(&lone);
        leaf(&mut bytes, 1, &[(1, named), (2, half)]);
        let schema = Gauge::new(&bytes).schema().unwrap();
        assert_eq!(Gauge::new(&bytes).header(File).unwrap().db_text_encoding, encoding);
        assert_eq!((schema.tables[1].name.as_str(), schema.tables[1].root), ("Lädt Ω", Root::Numbered(2)));
        assert_eq!(schema.tables[1].sql.as_deref(), Some("CREATE TABLE x(a)"));
        assert_eq!(schema.tables[2].name, "\u{fffd}b");
    }
}

/// A statement of 600 bytes, most of which is on page 7.
#[test]
fn long_statements_are_read() {
    let mut bytes = two_leaves();
    bytes.resize(7 * 512, 0);
    let sql = format!("CREATE TABLE load(idle /* {} */)", "x".repeat(500));
    let record = schema_row(&("table", "load", 2, &sql), |text| text.as_bytes().to_vec());
    // As many stay on the page as the rules say: M + (P - M) mod 508, with M = 39.
    let kept = 39 + (record.len() - 39) % 508;
    leaf(&mut bytes, 1, &[]);
    put(&mut bytes, 100, &[13, 0, 0, 0, 1, 0, 200, 0, 0, 200]);
    let size = record.len();
    common::spill(&mut bytes, 1, 200, &[0x80 | (size >> 7) as u8, (size & 0x7f) as u8, 1], &record, kept, &[7]);
    let schema = Gauge::new(&bytes).schema().unwrap();
    assert_eq!(schema.table("load").unwrap().sql.as_deref(), Some(sql.as_str()));
    // Its chain leads outside, and so the row tells nothing.
    put(&mut bytes, 6 * 512, &[0, 0, 0, 9]);
    let schema = Gauge::new(&bytes).schema().unwrap();
    assert_eq!((schema.tables.len(), schema.unread.len()), (1, 1));
    assert!(schema.unread[0].why.to_string().starts_with("refused 23 (ChainUnfit) on page 1, cell 0: "));
}

/// A root that cannot be opened is asked for all the same: the walk tells why there are no rows.
#[test]
fn a_root_that_is_not_there_is_told_by_the_walk() {
    let mut bytes = two_leaves();
    schema(&mut bytes, &[("table", "gone", 99, ""), ("table", "load", 2, "")]);
    let schema = Gauge::new(&bytes).schema().unwrap();
    assert_eq!(schema.tables[1].root, Root::Numbered(99));
    assert_eq!(refused(&bytes, 99), (8, Some(99), None));
    index(&mut bytes, 2);
    assert_eq!(Gauge::new(&bytes).schema().unwrap().tables[2].root, Root::Keyed(2));
}

/// The refusal of a table that is not trusted.
fn parted(bytes: &[u8], root: u32) -> (u8, Option<u32>, Option<usize>, Option<Mark>) {
    let refusal = Gauge::new(bytes).trusted(root).unwrap_err();
    (refusal.number(), refusal.page(), refusal.cell(), refusal.mark())
}

/// Two leaves with no row that parts.
fn agreeing() -> Vec<u8> {
    let mut bytes = two_leaves();
    leaf(&mut bytes, 4, &[row(1, 10), row(2, 11)]);
    bytes
}

#[test]
fn a_table_that_agrees_is_trusted() {
    let bytes = agreeing();
    let gauge = Gauge::new(&bytes);
    let table = gauge.trusted(2).unwrap();
    assert_eq!((table.root(), table.len()), (2, 4));
    assert_eq!(places(table.places()), places(gauge.table(2).unwrap().places()));
    for (old, file) in table.rows(Old).zip(table.rows(File)) {
        let (old, file) = (old.shown.unwrap(), file.shown.unwrap());
        assert_eq!((old.rowid(), old.columns()), (file.rowid(), file.columns()));
        assert!(old.values().eq(file.values()));
    }
    // The schema agrees, and so does a table with no row.
    assert_eq!(gauge.trusted(1).unwrap().len(), 3);
    assert!(Gauge::new(&pages(1)).trusted(1).unwrap().is_empty());
}

/// The first in the order of the walk, which is not that of the file.
#[test]
fn the_first_row_that_parts_is_told() {
    assert_eq!(parted(&two_leaves(), 2), (21, Some(4), Some(0), Some(Mark::LongVarint)));
    assert_eq!(parted(&two_leaves(), 5), (21, Some(5), Some(0), Some(Mark::TypeNine)));
    let mut bytes = agreeing();
    leaf(&mut bytes, 3, &[row(7, 12), (9, vec![2, 9])]);
    assert_eq!(parted(&bytes, 2), (21, Some(3), Some(1), Some(Mark::TypeNine)));
    leaf(&mut bytes, 4, &[row(1, 10), (2, vec![2, 13])]);
    assert_eq!(parted(&bytes, 2), (21, Some(4), Some(1), Some(Mark::NoBytes)));
    // What file refuses is no mark, and what spills is refused for that.
    leaf(&mut bytes, 4, &[(1, vec![2, 10]), (2, vec![2, 13])]);
    assert_eq!(parted(&bytes, 2), (15, Some(4), Some(0), None));
    assert_eq!(parted(&long_notes(), 2), (18, Some(2), Some(0), None));
}

#[test]
fn the_walk_is_refused_before_a_row() {
    let mut bytes = two_leaves();
    interior(&mut bytes, 2, &[(4, 1)], 3);
    assert_eq!(parted(&bytes, 2), (27, Some(4), Some(1), None));
    assert_eq!(parted(&bytes, 9), (8, Some(9), None, None));
    assert_eq!(parted(&[], 1), (1, None, None, None));
}
