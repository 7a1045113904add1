//! The command `shorgavel trust`: what it says of tables that agree, part, are damaged or left out, and of the file.

mod common;

use common::command::{err, fed, out, run, status, Kept};
use common::trees::{interior, leaf, named, record, row, schema, two_leaves};
use common::{long_notes, pages, put, two_rows};
use shorgavel::Value::{Integer, Text};
use std::fs;
use std::process::Output;

const TITLE: &str =
    "standard input: do the printed sheets (the old reading) and the gauge (the file) say the same?\n\n";
const FOOT: &str = "Pages count from 1, cells and columns from 0. `shorgavel compare` has every row that parts.\n";
const PLACES: &str = "Pages count from 1, cells and columns from 0.\n";

fn trust(bytes: &[u8]) -> Output {
    let output = fed(&["trust", "-"], bytes);
    assert!(out(&output).lines().all(|line| line.chars().count() <= 100), "{}", out(&output));
    output
}

/// What is said between the title and the verdict, and the verdict itself.
fn said(output: &Output) -> (Vec<&str>, &str) {
    let told = out(output).strip_prefix(TITLE).unwrap();
    let (tables, rest) = told.split_once("\n\n").unwrap();
    (tables.lines().collect(), rest)
}

/// The database of `two_leaves` with this record in place of row 2.
fn with(record: &[u8]) -> Vec<u8> {
    let mut bytes = two_leaves();
    leaf(&mut bytes, 4, &[row(1, 10), (2, record.to_vec())]);
    bytes
}

/// What is said of row 2 below its place, once it is seen that it is told.
fn of_row_2(record: &[u8]) -> Vec<String> {
    let output = trust(&with(record));
    let (tables, verdict) = said(&output);
    assert_eq!(tables[1], "parts     load: 4 rows; the first that parts is row 2 (page 4, cell 1)");
    assert_eq!(verdict, format!("{FOOT}1 of 2 tables agrees in all rows; 1 parts.\n"));
    assert_eq!((err(&output), status(&output)), ("", 1));
    let below = tables[2..].iter().take_while(|line| line.starts_with(' '));
    below.map(|line| line.trim_start().to_string()).collect()
}

#[test]
fn tables_that_agree() {
    let mut bytes = two_leaves();
    leaf(&mut bytes, 4, &[row(1, 10), row(2, 11)]);
    let output = trust(&bytes);
    let expected = [
        "agrees    sqlite_schema: all 3 rows",
        "agrees    load: all 4 rows",
        "left out  keyed: not compared, it has no row numbers: its rows are in an index, and are not listed",
        "left out  far: not compared, it is virtual: it has no pages of its own",
    ];
    let verdict = "Every row of all 2 tables agrees, 7 rows: the printed sheets and the gauge say the same.\n";
    assert_eq!(said(&output), (expected.to_vec(), verdict));
    assert_eq!((err(&output), status(&output)), ("", 0));
    // The schema's own table alone, whose row names an index: no table of the gauge was compared.
    let mut bytes = pages(1);
    schema(&mut bytes, &[("index", "i", 0, "CREATE INDEX i")]);
    let output = trust(&bytes);
    let verdict = "Nothing was compared but sqlite_schema, the list of the tables, which agrees: 1 row.\n";
    assert_eq!(said(&output), (vec!["agrees    sqlite_schema: its one row"], verdict));
    assert_eq!(status(&output), 0);
}

/// Row -5, of nine bytes: old does not find its end.
#[test]
fn a_table_that_parts() {
    let output = trust(&two_leaves());
    let (tables, verdict) = said(&output);
    let expected = [
        "agrees    sqlite_schema: all 3 rows",
        "parts     load: 4 rows; the first that parts is row -5 (page 4, cell 0)",
        "          A number in it takes over five bytes: the old reading reads five at most.",
        "          The sheet cannot show it: the cell is cut short.",
        "          The gauge wrote row -5: 10",
    ];
    assert_eq!(tables[..5], expected);
    assert_eq!(verdict, format!("{FOOT}1 of 2 tables agrees in all rows; 1 parts.\n"));
    assert_eq!((err(&output), status(&output)), ("", 1));
}

#[test]
fn values_that_part_are_named_with_their_column() {
    let one = "Column 0 is a stored 1, which the old reading takes for 0: the sheet shows 0, the gauge";
    assert_eq!(of_row_2(&[2, 9]), [one, "wrote 1"]);
    let text = "Column 0 is an empty text, which the old reading takes for nothing: the sheet shows null,";
    assert_eq!(of_row_2(&[2, 13]), [text, "the gauge wrote ''"]);
    let blob = "Column 1 is an empty blob, which the old reading takes for nothing: the sheet shows null,";
    assert_eq!(of_row_2(&[3, 8, 12]), [blob, "the gauge wrote x''"]);
    // The first is told, and how many more there are.
    assert_eq!(of_row_2(&[3, 9, 9]), [one, "wrote 1", "One more column of it differs."]);
    assert_eq!(of_row_2(&[4, 13, 9, 12])[2], "2 more columns of it differ.");
    assert!(of_row_2(&[4, 13, 9, 12])[0].starts_with("Column 0 is an empty text"));
}

/// A header size of two bytes: old takes the types a byte further on.
#[test]
fn rows_of_which_old_shows_others() {
    let long = "The list of its types is so long that the old reading takes its length wrong.";
    let sheet = "The sheet cannot show it: the value passes the end, or bytes are left over behind the";
    let none = "No sheet has any row of page 4: the tablets' reader refuses it whole for cell 1 (16).";
    assert_eq!(of_row_2(&[0x80, 3, 1, 5]), [long, sheet, "last.", "The gauge wrote row 2: 5", none]);
    // Where the byte that old takes for a type has no end, both show no column; guarded refuses it all the same.
    let mut bytes = pages(2);
    schema(&mut bytes, &[("table", "load", 2, "")]);
    put(&mut bytes, 512, &[13, 0, 0, 0, 1, 1, 251, 0, 1, 251]);
    put(&mut bytes, 512 + 507, &[2, 1, 0x80, 2, 0x80]);
    // The schema's own row has an empty statement, and parts too.
    let output = trust(&bytes);
    let (tables, verdict) = said(&output);
    assert_eq!(tables[0], "parts     sqlite_schema: its one row parts: row 1 (page 1, cell 0)");
    let expected = [
        "parts     load: its one row parts: row 1 (page 2, cell 0)",
        &format!("          {long}"),
        "          Here both show the same, but of such a row that is not certain.",
    ];
    assert_eq!(tables[3..], expected);
    assert_eq!(verdict, format!("{FOOT}0 of 2 tables agree in all rows; 2 part.\n"));
    // A byte more, a null: old shows a column that file has not.
    bytes[512 + 511] = 0;
    let output = trust(&bytes);
    let rows = ["          The sheet shows row 1: null", "          The gauge wrote row 1 with no columns"];
    assert_eq!(said(&output).0[5..], rows);
}

/// A row that file refuses, and one that both do.
#[test]
fn damaged_rows_are_told() {
    let left = "As it stands in the file it is damaged: the value passes the end, or bytes are left over";
    assert_eq!(of_row_2(&[2, 8, 0]), [left, "behind the last (16).", "The sheet shows row 2: 0"]);
    let reserved = "As it stands in the file it is damaged: the type is 10 or 11, which are reserved (15).";
    let none = "No sheet has any row of page 4: the tablets' reader refuses it whole for cell 1 (15).";
    assert_eq!(of_row_2(&[2, 10]), [reserved, "The sheet cannot show it either.", none]);
}

/// Cell 1 is refused by both, so that no tablet showed cell 0 either: what a sheet would show of it was on none.
#[test]
fn rows_of_pages_that_no_tablet_showed() {
    let mut bytes = two_leaves();
    leaf(&mut bytes, 4, &[(1, vec![2, 9]), (2, vec![2, 10])]);
    let output = trust(&bytes);
    let expected = [
        "parts     load: 4 rows; the first that parts is row 1 (page 4, cell 0)",
        "          Column 0 is a stored 1, which the old reading takes for 0: the sheet would show 0, the",
        "          gauge wrote 1",
        "          No sheet has any row of page 4: the tablets' reader refuses it whole for cell 1 (15).",
    ];
    assert_eq!(said(&output).0[1..5], expected);
}

/// Row 4 alone is shown by old, with other bytes of the page; row 1 is not.
#[test]
fn long_notes_part() {
    let spills = "          Its payload spills to other pages: the old reading does not follow it.";
    let mut bytes = named(long_notes(), "notes", 2);
    let output = trust(&bytes);
    let (tables, verdict) = said(&output);
    assert_eq!(tables[1], "parts     notes: 4 rows; the first that parts is row 1 (page 2, cell 0)");
    assert_eq!(tables[2], spills);
    assert!(tables[3].starts_with("          The sheet cannot show it: the value passes the end"));
    assert!(tables[5].starts_with("          The gauge wrote row 1: 5, 'h"));
    assert_eq!((verdict.ends_with("; 1 parts.\n"), status(&output)), (true, 1));
    // Row 4 is the first, and its text differs, and its blob.
    put(&mut bytes, 512, b"\x0d\x00\x00\x00\x01\x00\x14\x00\x00\x14");
    let output = trust(&bytes);
    let (tables, _) = said(&output);
    assert_eq!(tables[1..3], ["parts     notes: its one row parts: row 4 (page 2, cell 0)", spills]);
    assert!(tables[3].starts_with("          Column 1 differs: the sheet shows text"));
    assert_eq!(tables.last(), Some(&"          One more column of it differs."));
    // Its chain ends early: what the gauge wrote is not there.
    put(&mut bytes, 5 * 512, &[0, 0, 0, 9]);
    let output = trust(&bytes);
    let (tables, _) = said(&output);
    assert_eq!(tables[2], spills);
    assert!(tables[3].starts_with("          As it stands in the file it is damaged: the overflow chain leaves the"));
}

#[test]
fn trees_that_are_not_sound_are_told() {
    let mut bytes = two_leaves();
    interior(&mut bytes, 2, &[(4, 1)], 3);
    let output = trust(&bytes);
    let (tables, verdict) = said(&output);
    let expected = [
        "damaged   load: its tree is not sound: on page 4, cell 1, the row number or key is out of order (27)",
        "          Nothing of it can be trusted as a whole.",
    ];
    assert_eq!(tables[1..3], expected.map(|line| line.to_string()));
    assert_eq!(verdict, format!("{PLACES}1 of 2 tables agrees in all rows; 1 is damaged.\n"));
    assert_eq!((err(&output), status(&output)), ("shorgavel: not all tables are compared\n", 6));
    // A page that is not there; one that two tables have; and a row that parts besides.
    interior(&mut bytes, 2, &[(4, 2)], 9);
    schema(&mut bytes, &[("table", "one", 3, "x"), ("table", "two", 3, "x"), ("table", "load", 2, "x")]);
    leaf(&mut bytes, 3, &[(7, vec![2, 9])]);
    let output = trust(&bytes);
    let (tables, verdict) = said(&output);
    assert_eq!(tables[1], "parts     one: its one row parts: row 7 (page 3, cell 0)");
    assert_eq!(tables[4], "damaged   two: not compared, page 3 is of a table before it as well");
    assert!(tables[5].starts_with("damaged   load: its tree is not sound: at page 9, the page is not wholly in the"));
    assert_eq!(verdict, format!("{FOOT}1 of 4 tables agrees in all rows; 1 parts, 2 are damaged.\n"));
    assert_eq!(status(&output), 1);
}

/// The schema's own tree: then no table is known, and nothing was compared.
#[test]
fn a_schema_that_is_not_sound() {
    let mut bytes = two_leaves();
    leaf(&mut bytes, 1, &[row(2, 2), row(1, 1)]);
    let output = trust(&bytes);
    let (tables, verdict) = said(&output);
    assert!(tables[0].starts_with("damaged   sqlite_schema: its tree is not sound: on page 1, cell 1, the row"));
    assert_eq!(verdict, format!("{PLACES}Nothing was compared.\n"));
    assert_eq!((err(&output), status(&output)), ("shorgavel: not all tables are compared\n", 6));
}

/// A row of the schema that tells nothing may name a table to which pages belong.
#[test]
fn rows_of_the_schema_that_tell_nothing() {
    let mut bytes = two_leaves();
    schema(&mut bytes, &[("tadle", "load", 2, "x")]);
    let output = trust(&bytes);
    let expected = [
        "agrees    sqlite_schema: its one row",
        "unread    row 1 of the schema, page 1 cell 0, tells nothing: its type is no table, index, view or",
        "          trigger",
    ];
    let verdict = "Every row that was compared agrees, 1 row, but that is not all of the file.\n";
    assert_eq!(said(&output), (expected.to_vec(), verdict));
    assert_eq!((err(&output), status(&output)), ("shorgavel: not all tables are compared\n", 6));
    // Two of them, on the one page that there is: all is compared.
    let mut bytes = two_rows();
    bytes[506] = 8;
    let output = trust(&bytes);
    let (tables, verdict) = said(&output);
    let unread = "unread    row 1 of the schema, page 1 cell 0, tells nothing: it has not five columns (and 1 more";
    assert_eq!(tables[1..], [unread, "          rows)"]);
    assert!(verdict.starts_with("Nothing was compared but sqlite_schema, ") && verdict.ends_with("agrees: 2 rows.\n"));
    assert_eq!(status(&output), 0);
}

#[test]
fn nothing_is_said_to_agree_over_no_rows() {
    let output = trust(&pages(2));
    let empty = vec!["empty     sqlite_schema: it has no rows, so nothing was compared"];
    assert_eq!(said(&output), (empty, "Nothing was compared.\n"));
    assert_eq!((err(&output), status(&output)), ("shorgavel: there is no row to compare\n", 5));
    // An empty table does not count among those that agree.
    let mut bytes = pages(2);
    schema(&mut bytes, &[("table", "load", 2, "x")]);
    put(&mut bytes, 512, &[13, 0, 0, 0, 0, 2, 0, 0]);
    let output = trust(&bytes);
    let (tables, verdict) = said(&output);
    assert_eq!(tables[1], "empty     load: it has no rows, so nothing was compared");
    assert!(verdict.starts_with("Nothing was compared but sqlite_schema, ") && verdict.ends_with("agrees: 1 row.\n"));
    assert_eq!(status(&output), 0);
    // No database at all.
    let output = fed(&["trust", "-"], b"");
    assert_eq!((out(&output), status(&output)), ("", 6));
    assert!(err(&output).starts_with("shorgavel: refused 1 (OpeningDiffers)"));
}

/// What is there agrees, and is not said to be all.
#[test]
fn half_a_file_is_not_the_whole() {
    let mut bytes = two_leaves();
    leaf(&mut bytes, 4, &[row(1, 10), row(2, 11)]);
    put(&mut bytes, 28, &[0, 0, 0, 7]);
    let output = trust(&bytes);
    let verdict = "\
The file is cut: 6 of its 7 pages are there.
Every row that was compared agrees, 7 rows, but that is not all of the file.
";
    assert_eq!(said(&output).1, verdict);
    assert_eq!((err(&output), status(&output)), ("shorgavel: the file is cut: 6 of its 7 pages are there\n", 4));
}

#[test]
fn a_log_beside_the_file_is_not_the_gauges_last_word() {
    let mut bytes = two_leaves();
    leaf(&mut bytes, 4, &[row(1, 10), row(2, 11)]);
    let file = Kept::new("trusted.db", &bytes);
    let log = file.0.with_file_name("trusted.db-wal");
    fs::write(&log, b"x").unwrap();
    let output = file.show(&["trust"]);
    fs::remove_file(&log).unwrap();
    let verdict = "
The last writes are in trusted.db-wal, beside the file: they are not read.
Every row that was compared agrees, 7 rows, but that is not all of the file.
";
    assert!(out(&output).starts_with("trusted.db: do the printed sheets") && out(&output).ends_with(verdict));
    assert_eq!(status(&output), 0);
    assert!(out(&run(&[std::ffi::OsStr::new("trust"), file.0.as_os_str()])).ends_with("say the same.\n"));
}

/// Names and values are folded, whatever is in them.
#[test]
fn lines_stay_short_and_steer_no_terminal() {
    let mut bytes = two_leaves();
    let name = format!("a\x1b[2J{}", "n".repeat(150));
    schema(&mut bytes, &[("table", &name, 2, "x")]);
    let text = "Ω ".repeat(40);
    leaf(&mut bytes, 4, &[(-1, record(&[Integer(3), Text(text.as_bytes()), Text(&[b'x'; 99])])), row(2, 11)]);
    let output = trust(&bytes);
    assert!(out(&output).contains("a\\u{1b}[2Jnnn") && !out(&output).contains('\x1b'));
}
