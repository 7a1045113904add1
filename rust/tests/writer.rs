//! The command `shorgavel writer`: what it says of tables whose varints are in their shortest form or not, of rows that cannot be
//! asked, and of the file.

mod common;

use common::command::{err, fed, out, status, Kept};
use common::trees::{interior, leaf, named, raw_leaf, row, schema, two_leaves};
use common::{long_notes, pages, put};
use std::fs;
use std::process::Output;

const TITLE: &str = "standard input: could its rows have come from the gauge and from SQLite?\n\n";
const FOOT: &str = "Pages count from 1, cells from 0. `shorgavel rows` shows what stands there.\n";

/// Rows 5 and 6, each a 7: as SQLite writes them, and with the row number in two bytes.
const FIVE: &[u8] = &[3, 5, 2, 1, 7];
const SIX: &[u8] = &[3, 6, 2, 1, 7];
const LONG_FIVE: &[u8] = &[3, 0x80, 5, 2, 1, 7];
const LONG_SIX: &[u8] = &[3, 0x80, 6, 2, 1, 7];

fn writer(bytes: &[u8]) -> Output {
    let output = fed(&["writer", "-"], bytes);
    assert!(out(&output).lines().all(|line| line.chars().count() <= 100), "{}", out(&output));
    output
}

/// What is said between the title and the verdict, and the verdict in one line.
fn said(output: &Output) -> (Vec<&str>, String) {
    let told = out(output).strip_prefix(TITLE).unwrap();
    let (tables, rest) = told.split_once("\n\n").unwrap();
    let (foot, verdict) = rest.strip_prefix(FOOT).map_or(("", rest), |verdict| (FOOT, verdict));
    (tables.lines().collect(), format!("{foot}{}", verdict.trim_end().replace('\n', " ")))
}

/// The table `load`, root 2, with these cells.
fn load(cells: &[&[u8]]) -> Vec<u8> {
    let mut bytes = named(pages(2), "load", 2);
    raw_leaf(&mut bytes, 2, cells);
    bytes
}

const CONTENT: &str =
    "could have come from the gauge and from SQLite: all varints are in their shortest form, as both \
                       write them.";
const OTHER: &str = "written by something else: SQLite never writes such forms, nor does the gauge.";

#[test]
fn rows_that_could_have_come_from_sqlite() {
    let output = writer(&two_leaves());
    let expected = [
        "shortest  sqlite_schema: all 3 rows",
        "shortest  load: all 4 rows",
        "left out  keyed: not asked, it has no row numbers: its rows are in an index, and are not listed",
        "left out  far: not asked, it is virtual: it has no pages of its own",
        "no table  1 row, deleted or damaged, not counted: 0 with a longer varint, 1 with none, 0 that could",
        "          not be asked",
    ];
    assert_eq!(said(&output), (expected.to_vec(), format!("Every row of all tables, 7 rows, {CONTENT}")));
    assert_eq!((err(&output), status(&output)), ("", 0));
    let output = writer(&load(&[FIVE]));
    assert_eq!(said(&output).0[1], "shortest  load: its one row");
}

#[test]
fn rows_that_something_else_wrote() {
    let output = writer(&load(&[FIVE, LONG_SIX]));
    let (tables, verdict) = said(&output);
    let expected = [
        "shortest  sqlite_schema: its one row",
        "longer    load: 1 of 2 rows holds a varint that is not in its shortest form, on page 2; the first is",
        "          row 6 (page 2, cell 1)",
    ];
    assert_eq!((tables, verdict), (expected.to_vec(), format!("{FOOT}1 row on 1 page was {OTHER}")));
    assert_eq!((err(&output), status(&output)), ("", 1));
}

/// The leaves of a table are named in the order of the walk, and those of no table do not count.
#[test]
fn pages_are_named() {
    let mut bytes = two_leaves();
    raw_leaf(&mut bytes, 4, &[&[3, 0x80, 1, 2, 1, 7], &[3, 0x80, 2, 2, 1, 7]]);
    raw_leaf(&mut bytes, 3, &[&[3, 7, 2, 1, 7], &[4, 9, 3, 0x80, 1, 7]]);
    raw_leaf(&mut bytes, 5, &[LONG_FIVE, &[3, 6, 2, 10, 7]]);
    let output = writer(&bytes);
    let (tables, verdict) = said(&output);
    let load = [
        "longer    load: 3 of 4 rows hold a varint that is not in its shortest form, on pages 4 and 3; the",
        "          first is row 1 (page 4, cell 0)",
    ];
    assert_eq!(tables[1..3], load);
    let loose = [
        "no table  2 rows, deleted or damaged, not counted: 1 with a longer varint, 0 with none, 1 that could",
        "          not be asked",
    ];
    assert_eq!(tables[5..], loose);
    assert_eq!(verdict, format!("{FOOT}3 rows on 2 pages were {OTHER}"));
    assert_eq!(status(&output), 1);
}

#[test]
fn of_many_pages_the_first_are_named() {
    let mut bytes = pages(17);
    schema(&mut bytes, &[("table", "load", 2, "x")]);
    interior(&mut bytes, 2, &(3..17).map(|page| (page, page.into())).collect::<Vec<_>>(), 17);
    for page in 3..=17 {
        raw_leaf(&mut bytes, page.into(), &[&[3, 0x80, page, 2, 1, 7]]);
    }
    let output = writer(&bytes);
    let told = out(&output).split_whitespace().collect::<Vec<_>>().join(" ");
    assert!(told.contains("on pages 3, 4, 5, 6, 7, 8, 9, 10, 11, 12, 13, 14 and 3 more;"), "{told}");
    assert!(told.contains("15 of 15 rows hold"));
}

/// Rows 1, 2 and 4 spill; then row 3 is damaged too, and none is left to ask.
#[test]
fn rows_that_cannot_be_asked_are_told_apart() {
    let mut bytes = named(long_notes(), "notes", 2);
    let output = writer(&bytes);
    let (tables, verdict) = said(&output);
    let expected = [
        "shortest  notes: the one row that could be asked",
        "          3 rows could not be asked: 3 spill to other pages.",
    ];
    assert_eq!(tables[1..], expected);
    let partly = format!("Every row that was asked, 2 rows, {CONTENT} But that is not all of the file.");
    assert_eq!((verdict, status(&output)), (partly, 0));
    bytes[512 + 362 + 3] = 10;
    let output = writer(&bytes);
    let expected = [
        "unasked   notes: none of its 4 rows could be asked",
        "          4 rows could not be asked: 3 spill to other pages, 1 is damaged.",
    ];
    assert_eq!(said(&output).0[1..], expected);
    // Beside one that something else wrote.
    let output = writer(&load(&[LONG_FIVE, &[3, 6, 2, 10, 7], &[3, 7, 2, 11, 7]]));
    let told = said(&output).0[1..].join(" ");
    assert!(told.starts_with("longer    load: 1 of 1 row that could be asked holds a varint"), "{told}");
    assert!(told.ends_with("2 rows could not be asked: 2 are damaged."));
    assert_eq!(status(&output), 1);
}

#[test]
fn nothing_is_said_where_nothing_was_asked() {
    let none = "No row was asked, so nothing is said of who wrote the file.".to_string();
    let output = writer(&pages(2));
    assert_eq!(said(&output), (vec!["empty     sqlite_schema: it has no rows"], none.clone()));
    assert_eq!((err(&output), status(&output)), ("shorgavel: there is no row that could be asked\n", 5));
    // The one row that there is, of the schema, is damaged.
    let mut bytes = pages(1);
    raw_leaf(&mut bytes, 1, &[&[3, 1, 2, 10, 7]]);
    let output = writer(&bytes);
    assert_eq!((said(&output).1, status(&output)), (none, 5));
    // No database at all.
    let output = fed(&["writer", "-"], b"");
    assert_eq!((out(&output), status(&output)), ("", 6));
    assert!(err(&output).starts_with("shorgavel: refused 1 (OpeningDiffers)"));
}

#[test]
fn trees_that_are_not_sound_are_not_asked() {
    let mut bytes = load(&[SIX, FIVE]);
    let output = writer(&bytes);
    let (tables, verdict) = said(&output);
    assert!(tables[1].starts_with("damaged   load: not asked, refused 27 (OutOfOrder) on page 2, cell 1: the row"));
    assert!(tables[3].starts_with("no table  2 rows, "), "{tables:?}");
    assert!(verdict.starts_with("Every row that was asked, 1 row, could") && verdict.ends_with("not all of the file."));
    assert_eq!((err(&output), status(&output)), ("shorgavel: not all tables are asked\n", 6));
    // What something else wrote is told, whatever is damaged besides.
    schema(&mut bytes, &[("table", "load", 2, "x"), ("table", "more", 2, "x")]);
    raw_leaf(&mut bytes, 2, &[LONG_FIVE, SIX]);
    let output = writer(&bytes);
    let (tables, verdict) = said(&output);
    assert_eq!(tables.last(), Some(&"damaged   more: not asked, page 2 is of a table before it as well"));
    assert_eq!((verdict, status(&output)), (format!("{FOOT}1 row on 1 page was {OTHER}"), 1));
}

#[test]
fn half_a_file_is_not_the_whole() {
    let mut bytes = load(&[FIVE]);
    put(&mut bytes, 28, &[0, 0, 0, 3]);
    let output = writer(&bytes);
    let verdict = format!(
        "The file is cut: 2 of its 3 pages are there. Every row that was asked, 2 rows, {CONTENT} But that is not all of \
         the file."
    );
    assert_eq!(said(&output).1, verdict);
    assert_eq!((err(&output), status(&output)), ("shorgavel: the file is cut: 2 of its 3 pages are there\n", 4));
}

#[test]
fn a_log_beside_the_file_is_not_asked() {
    let file = Kept::new("written.db", &load(&[FIVE]));
    let log = file.0.with_file_name("written.db-wal");
    fs::write(&log, b"x").unwrap();
    let output = file.show(&["writer"]);
    fs::remove_file(&log).unwrap();
    let told = out(&output).replace('\n', " ");
    assert!(told.starts_with("written.db: could its rows have come from"));
    assert!(told.contains("The last writes are in written.db-wal, beside the file: they are not read. Every row that"));
    assert!(told.ends_with("But that is not all of the file. "));
    assert_eq!(status(&output), 0);
}

#[test]
fn names_steer_no_terminal() {
    let mut bytes = pages(2);
    schema(&mut bytes, &[("table", &format!("a\x1b[2J{}", "n".repeat(150)), 2, "x")]);
    leaf(&mut bytes, 2, &[row(1, 1)]);
    let output = writer(&bytes);
    assert!(out(&output).contains("a\\u{1b}[2Jnnn") && !out(&output).contains('\x1b'));
}
