//! The command `shorgavel compare --summary`: a line a file, as a table, as CSV and as JSON.

mod common;

use common::command::{err, fed, out, status};
use common::folder::Folder;
use common::trees::{leaf, named, row, two_leaves};
use common::{long_notes, pages};
use std::fs;

/// Files in a folder and below it: one that agrees, one with a row that both refuse, so that no tablet showed its page, one with
/// long notes, one that is cut short and one with no row.
fn several(name: &str) -> Folder {
    let folder = Folder::new(name);
    fs::create_dir_all(folder.0.join("north/truck 7")).unwrap();
    let mut bytes = two_leaves();
    leaf(&mut bytes, 4, &[row(1, 10), row(2, 11)]);
    folder.put("agrees.db", &bytes);
    leaf(&mut bytes, 4, &[(1, vec![2, 10]), row(2, 11)]);
    folder.put("north/both.db", &bytes);
    folder.put("north/truck 7/notes.db", &named(long_notes(), "notes", 2));
    folder.put("north/short.db", &bytes[..50]);
    folder.put("north/truck 7/words.txt", b"no database");
    folder.put("none.db", &pages(2));
    folder
}

#[test]
fn a_table_for_people() {
    let folder = several("summary");
    let output = folder.run(&["compare", "--summary", ".", "gone.db"]);
    let expected = "\
file                      verdict                 rows        part     refused   no tablet
./agrees.db               agrees                     7           0           0           0
./none.db                 nothing compared           0           0           0           0
./north/both.db           agrees                     7           0           1           2
./north/short.db          refused                    0           0           0           0; 2 HeaderCut: there are fewer than 100 bytes
./north/truck 7/notes.db  parts                      5           3           0           4
gone.db                   unread                     0           0           0           0; No such file or directory (os error 2)
6 files: 2 agree, 1 parts, 1 is refused, 1 has no row to compare, 1 cannot be read
";
    assert_eq!((out(&output), err(&output), status(&output)), (expected, "", 3));
}

/// The counts are those of `compare` of each file alone.
#[test]
fn the_same_as_of_each_alone() {
    let folder = several("alone");
    for (file, line, ended) in [
        ("agrees.db", "\n7 cells compared: 0 part, 0 are refused by old and file alike\n", 0),
        ("north/both.db", "\n7 cells compared: 0 part, 1 are refused by old and file alike\n", 0),
        ("north/truck 7/notes.db", "\n5 cells compared: 3 part, 0 are refused by old and file alike\n", 1),
        ("none.db", "0 cells compared: 0 part, 0 are refused by old and file alike\n", 5),
    ] {
        let (alone, listed) = (folder.run(&["compare", file]), folder.run(&["compare", "--summary", file]));
        assert!(out(&alone).ends_with(line), "{}", out(&alone));
        assert_eq!((status(&alone), status(&listed)), (ended, ended), "{file}");
    }
}

#[test]
fn the_same_for_a_spreadsheet_and_a_program() {
    let folder = several("summary_forms");
    let csv = folder.run(&["compare", "--summary", "--csv", "north"]);
    let expected = "\
file,verdict,rows,rows that part,rows refused by both,pages on no tablet,rows on no tablet,notes
north/both.db,agrees,7,0,1,1,2,
north/short.db,refused,0,0,0,0,0,2 HeaderCut: there are fewer than 100 bytes
north/truck 7/notes.db,parts,5,3,0,1,4,
";
    assert_eq!((out(&csv), err(&csv), status(&csv)), (expected, "", 1));
    let json = folder.run(&["compare", "--json", "--summary", "north/both.db"]);
    let line = concat!(
        r#"{"file":"north/both.db","verdict":"agrees","rows":7,"rows_that_part":0,"rows_refused_by_both":1,"#,
        r#""pages_on_no_tablet":1,"rows_on_no_tablet":2,"notes":[]}"#,
        "\n"
    );
    assert_eq!((out(&json), status(&json)), (line, 0));
}

#[test]
fn words_that_do_not_go_together() {
    let folder = several("summary_words");
    for (words, why) in [
        (
            &["compare", "agrees.db", "none.db"][..],
            "compare: none.db is one word too many: --summary takes several files",
        ),
        (&["compare", "agrees.db", "--csv"], "compare takes no --csv"),
        (&["trust", "agrees.db", "--summary"], "trust takes no --summary"),
        (&["compare", "--summary"], "compare: FILE is missing"),
        (&["compare", "--summary=yes", "agrees.db"], "--summary takes no value"),
    ] {
        let output = folder.run(words);
        let said = format!("shorgavel: {why}; `shorgavel --help` has the words\n");
        assert_eq!((err(&output), status(&output)), (said.as_str(), 2));
    }
    let output = fed(&["compare", "--summary", "-"], &two_leaves());
    assert!(out(&output).contains("\nstandard input  parts ") && status(&output) == 1);
}
