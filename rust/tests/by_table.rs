//! The command `shorgavel` by tables: `tables`, `rows --table`, and how `compare` goes table by table. What it says of files
//! that are cut or have a log beside them.

mod common;

use common::command::{err, fed, out, run, status, Kept};
use common::trees::{interior, leaf, named, row, schema, two_leaves};
use common::{long_notes, pages, put, two_rows};
use std::fs;
use std::process::Output;

fn lines(output: &Output) -> Vec<&str> {
    out(output).lines().collect()
}

#[test]
fn tables_has_a_line_each() {
    let output = fed(&["tables", "-"], &two_leaves());
    let expected = "\
root rows name
1 3 sqlite_schema
2 4 load
    CREATE TABLE load(idle)
6 keyed keyed
  it has no row numbers: its rows are in an index, and are not listed
    CREATE TABLE keyed(k PRIMARY KEY) WITHOUT ROWID
- virtual far
  it is virtual: it has no pages of its own
    CREATE VIRTUAL TABLE far USING x
";
    assert_eq!((out(&output), err(&output), status(&output)), (expected, "", 0));
}

#[test]
fn tables_tells_what_is_refused_and_what_tells_nothing() {
    let mut bytes = two_leaves();
    schema(&mut bytes, &[("table", "a\x1b[2J", 2, "CREATE\n\tTABLE"), ("tadle", "b", 2, ""), ("table", "c", 3, "")]);
    interior(&mut bytes, 2, &[(4, 1)], 3);
    let output = fed(&["tables", "-"], &bytes);
    let expected = [
        "root rows name",
        "1 3 sqlite_schema",
        "2 refused a\\u{1b}[2J",
        "  refused 27 (OutOfOrder) on page 4, cell 1: the row number or key is out of order",
        "    CREATE",
        "     TABLE",
        "3 2 c",
        "- unread -",
        "  row 2 of the schema, page 1 cell 1, tells nothing: its type is no table, index, view or trigger",
    ];
    assert_eq!((lines(&output), status(&output)), (expected.to_vec(), 0));
    // With no schema there is nothing to list.
    leaf(&mut bytes, 1, &[row(2, 2), row(1, 1)]);
    let output = fed(&["tables", "-"], &bytes);
    assert_eq!((out(&output), status(&output)), ("", 6));
    let said = "shorgavel: refused 27 (OutOfOrder) on page 1, cell 1: the row number or key is out of order\n";
    assert_eq!(err(&output), said);
}

#[test]
fn rows_of_one_table_come_in_walk_order() {
    let bytes = two_leaves();
    let output = fed(&["rows", "-", "--table", "2", "--reading", "file"], &bytes);
    let expected = "\
page cell reading rowid values
4 0 file -5 i:10
4 1 file 2 i:11
3 0 file 7 i:12
3 1 file 9 i:13
";
    assert_eq!((out(&output), err(&output), status(&output)), (expected, "", 0));
    let all = fed(&["rows", "-", "--table", "2"], &bytes);
    let first = ["4 0 old refused 13 3 0 0 0", "4 0 file -5 i:10", "4 0 guarded refused 21 4 0 0 1", "4 1 old 2 i:11"];
    assert_eq!((&lines(&all)[1..5], lines(&all).len()), (&first[..], 13));
    // All leaves, in the order of the file, the deleted one too.
    let plain = fed(&["rows", "-", "--reading", "file"], &bytes);
    let places: Vec<_> = lines(&plain)[1..].iter().map(|line| &line[..3]).collect();
    assert_eq!(places, ["1 0", "1 1", "1 2", "3 0", "3 1", "4 0", "4 1", "5 0"]);
}

#[test]
fn rows_of_a_table_show_long_notes() {
    let bytes = long_notes();
    let plain = fed(&["rows", "-", "--table", "2"], &bytes);
    let lent = fed(&["rows", "-", "--table", "2", "--notes"], &bytes);
    assert_eq!(out(&plain), out(&fed(&["rows", "-"], &bytes)));
    assert_eq!(out(&lent), out(&fed(&["rows", "-", "--notes"], &bytes)));
    assert_ne!(out(&plain), out(&lent));
}

#[test]
fn rows_of_a_table_that_is_refused() {
    for (root, line, said) in [
        ("6", "refused 25 6 0 0 0", "refused 25 (IndexPage) on page 6: the page is of an index"),
        ("9", "refused 8 9 0 0 0", "refused 8 (PageAbsent) on page 9: the page is not wholly in the bytes"),
    ] {
        let output = fed(&["rows", "-", "--table", root], &two_leaves());
        assert_eq!((lines(&output)[1..].to_vec(), status(&output)), (vec![line], 6));
        assert_eq!(err(&output), format!("shorgavel: {said}\n"));
    }
    let output = fed(&["rows", "-", "--table", "1"], b"");
    assert_eq!((lines(&output)[1], status(&output)), ("refused 1", 6));
}

#[test]
fn compare_goes_by_tables_and_tells_the_rest_apart() {
    let mut bytes = two_leaves();
    let output = fed(&["compare", "-"], &bytes);
    let expected = "\
page 4: no tablet showed any of its 2 cells: the original refuses the page for cell 0: 13 CellCut: the cell is cut short
page 4 cell 0: a varint of over five bytes: old refuses it (13 CellCut: the cell is cut short), the gauge wrote row -5: 10
table keyed is not compared: it has no row numbers: its rows are in an index, and are not listed
table far is not compared: it is virtual: it has no pages of its own
of no table: page 5 cell 0 column 0: type 9: old shows 0, the gauge wrote 1
1 page with 2 cells is refused by the original: what old shows there was on no tablet
1 cells of no table, deleted or damaged, do not count: 1 part, 0 are refused by old and file alike
7 cells compared: 1 part, 0 are refused by old and file alike
";
    assert_eq!((out(&output), err(&output), status(&output)), (expected, "", 1));
    // Where no row of a table parts, it is content, whatever stands on deleted pages.
    leaf(&mut bytes, 4, &[row(1, 10), row(2, 11)]);
    let output = fed(&["compare", "-"], &bytes);
    assert!(out(&output).ends_with("\n7 cells compared: 0 part, 0 are refused by old and file alike\n"));
    assert_eq!((err(&output), status(&output)), ("", 0));
}

/// Rows that old and file refuse stand below all others, and change no status.
#[test]
fn compare_lists_what_both_refuse_apart() {
    let mut bytes = two_leaves();
    leaf(&mut bytes, 4, &[(1, vec![2, 10]), row(2, 11)]);
    leaf(&mut bytes, 5, &[(1, vec![2, 11])]);
    let output = fed(&["compare", "-"], &bytes);
    let expected = "\
page 4: no tablet showed any of its 2 cells: the original refuses the page for cell 0: 15 TypeReserved in column 0: the \
type is 10 or 11, which are reserved
table keyed is not compared: it has no row numbers: its rows are in an index, and are not listed
table far is not compared: it is virtual: it has no pages of its own
of no table: page 5: no tablet showed its one cell: the original refuses the page for cell 0: 15 TypeReserved in column \
0: the type is 10 or 11, which are reserved
refused by old and file alike, and no part of the verdict:
page 4 cell 0: 15 TypeReserved in column 0: the type is 10 or 11, which are reserved
of no table: page 5 cell 0: 15 TypeReserved in column 0: the type is 10 or 11, which are reserved
1 page with 2 cells is refused by the original: what old shows there was on no tablet
1 cells of no table, deleted or damaged, do not count: 0 part, 1 are refused by old and file alike
7 cells compared: 0 part, 1 are refused by old and file alike
";
    assert_eq!((out(&output), err(&output), status(&output)), (expected, "", 0));
}

/// The original answers a page whole or not at all. Cell 1 of page 2 ends it there; of the others the old reading still tells
/// what it shows of each alone, and that no tablet did.
#[test]
fn compare_tells_pages_of_which_no_tablet_showed_anything() {
    let mut bytes = pages(3);
    let rows = [(1, vec![2, 9]), (2, vec![2, 10]), row(3, 7)];
    leaf(&mut bytes, 2, &rows);
    let output = fed(&["compare", "-"], &named(bytes.clone(), "load", 2));
    let expected = "\
page 2: no tablet showed any of its 3 cells: the original refuses the page for cell 1: 15 TypeReserved in column 0: the \
type is 10 or 11, which are reserved
page 2 cell 0 column 0: type 9: old shows 0, the gauge wrote 1
refused by old and file alike, and no part of the verdict:
page 2 cell 1: 15 TypeReserved in column 0: the type is 10 or 11, which are reserved
1 page with 3 cells is refused by the original: what old shows there was on no tablet
4 cells compared: 1 part, 1 are refused by old and file alike
";
    assert_eq!((out(&output), status(&output)), (expected, 1));
    // Without that cell the tablets showed the page, a 0 for the stored 1 in it.
    leaf(&mut bytes, 2, &[(1, vec![2, 9]), row(3, 7)]);
    let output = fed(&["compare", "-"], &named(bytes, "load", 2));
    assert!(!out(&output).contains("tablet"), "{}", out(&output));
}

/// A table that is refused is not compared, and then nothing is content.
#[test]
fn compare_is_not_content_where_a_table_is_refused() {
    let mut bytes = two_leaves();
    leaf(&mut bytes, 4, &[row(1, 10), row(2, 11)]);
    interior(&mut bytes, 2, &[(4, 1)], 3);
    let output = fed(&["compare", "-"], &bytes);
    let refused =
        "table load is not compared: refused 27 (OutOfOrder) on page 4, cell 1: the row number or key is out of order";
    assert_eq!(lines(&output)[0], refused);
    assert!(out(&output).ends_with("\n3 cells compared: 0 part, 0 are refused by old and file alike\n"));
    assert!(out(&output).contains("\n5 cells of no table, deleted or damaged, do not count: 1 part, "));
    assert_eq!((err(&output), status(&output)), ("shorgavel: not all tables are compared\n", 6));
    // Nor where a row of the schema may name a table to which pages belong.
    let mut bytes = two_leaves();
    schema(&mut bytes, &[("tadle", "load", 2, "x")]);
    let output = fed(&["compare", "-"], &bytes);
    assert_eq!((err(&output), status(&output)), ("shorgavel: not all tables are compared\n", 6));
    assert!(out(&output).starts_with("row 1 of the schema, page 1 cell 0, tells nothing: its type is no table"));
}

/// Two tables with one page: it is of the first, and the other is told.
#[test]
fn a_page_is_of_one_table() {
    let mut bytes = two_leaves();
    schema(&mut bytes, &[("table", "one", 3, "x"), ("table", "two", 2, "x"), ("table", "own", 1, "x")]);
    let output = fed(&["compare", "-"], &bytes);
    assert!(out(&output).contains("table two is not compared: page 3 is of a table before it as well\n"));
    assert!(out(&output).contains("table own is not compared: page 1 is of a table before it as well\n"));
    assert!(out(&output).ends_with("\n5 cells compared: 0 part, 0 are refused by old and file alike\n"));
    assert_eq!(status(&output), 6);
}

#[test]
fn nothing_is_agreed_on_over_no_rows() {
    let output = fed(&["compare", "-"], &pages(2));
    let nothing = "0 cells compared: 0 part, 0 are refused by old and file alike\n";
    assert_eq!((out(&output), status(&output)), (nothing, 5));
    assert_eq!(err(&output), "shorgavel: there is no row to compare\n");
}

/// The header says nine pages, and the counters are equal.
#[test]
fn half_a_file_is_told() {
    let mut bytes = named(long_notes(), "notes", 2);
    put(&mut bytes, 28, &[0, 0, 0, 9]);
    let said = "shorgavel: the file is cut: 8 of its 9 pages are there\n";
    for words in [
        &["trust", "-"][..],
        &["writer", "-"][..],
        &["tables", "-"],
        &["rows", "-"],
        &["rows", "-", "--table", "2"],
        &["compare", "-"],
        &["sheet", "-"],
    ] {
        let output = fed(words, &bytes);
        assert_eq!((err(&output), status(&output)), (said, 4), "{words:?}");
    }
    // What is refused besides is told as well.
    let output = fed(&["rows", "-", "--table", "9"], &bytes);
    let both = "shorgavel: refused 8 (PageAbsent) on page 9: the page is not wholly in the bytes\n".to_string() + said;
    assert_eq!((err(&output), status(&output)), (both.as_str(), 4));
    // Where all agrees that is there, it is not said of all.
    let mut bytes = two_leaves();
    leaf(&mut bytes, 4, &[row(1, 10), row(2, 11)]);
    put(&mut bytes, 28, &[0, 0, 0, 7]);
    assert_eq!(status(&fed(&["compare", "-"], &bytes)), 4);
    // Pages behind the end are no part of the file, and nothing is missing.
    put(&mut bytes, 28, &[0, 0, 0, 4]);
    let output = fed(&["compare", "-"], &bytes);
    assert!(!out(&output).contains("of no table") && !err(&output).contains("cut"));
}

#[test]
fn a_log_beside_the_file_is_told() {
    let file = Kept::new("logged.db", &two_rows());
    let log = file.0.with_file_name("logged.db-wal");
    let plain = file.show(&["rows"]);
    fs::write(&log, b"").unwrap();
    assert_eq!(file.show(&["rows"]).stderr, plain.stderr);
    fs::write(&log, b"x").unwrap();
    let said = "shorgavel: the last writes are in logged.db-wal, beside the file: they are not read\n";
    for words in
        [&["trust"][..], &["writer"], &["header"], &["page", "1"], &["tables"], &["rows"], &["compare"], &["sheet"]]
    {
        let output = file.show(words);
        assert!(err(&output).starts_with(said), "{words:?}");
    }
    assert_eq!(out(&file.show(&["rows"])), out(&plain));
    fs::remove_file(&log).unwrap();
    assert_eq!(err(&run(&[std::ffi::OsStr::new("rows"), file.0.as_os_str()])), "");
}
