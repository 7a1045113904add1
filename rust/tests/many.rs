//! The command `shorgavel trust` of several files and folders: a line each in their order, what they come to, and the same as CSV and
//! as JSON.

mod common;

use common::command::{err, fed, out, status};
use common::folder::Folder;
use common::trees::{interior, leaf, row, schema, two_leaves};
use common::{pages, put};
use std::fs;

/// A file for each verdict, and one that is no database.
fn of_all(name: &str) -> Folder {
    let folder = Folder::new(name);
    fs::create_dir_all(folder.0.join("sub/deeper")).unwrap();
    folder.put("sub/hidden.db", &agreeing());
    folder.put("sub/deeper/below.db", &two_leaves());
    folder.put("agrees.db", &agreeing());
    folder.put("parts.db", &two_leaves());
    folder.put("cut.db", &cut(agreeing()));
    folder.put("empty.db", &pages(2));
    folder.put("damaged.db", &damaged());
    folder.put("short.db", &agreeing()[..50]);
    folder.put("words.txt", b"no database");
    folder
}

fn agreeing() -> Vec<u8> {
    let mut bytes = two_leaves();
    leaf(&mut bytes, 4, &[row(1, 10), row(2, 11)]);
    bytes
}

fn cut(mut bytes: Vec<u8>) -> Vec<u8> {
    put(&mut bytes, 28, &[0, 0, 0, 7]);
    bytes
}

fn damaged() -> Vec<u8> {
    let mut bytes = agreeing();
    interior(&mut bytes, 2, &[(4, 1)], 3);
    bytes
}

const DAMAGED: &str =
    "table load is not compared: refused 27 (OutOfOrder) on page 4, cell 1: the row number or key is out of order";

#[test]
fn a_folder_has_a_line_for_each_database() {
    let folder = of_all("verdicts");
    let output = folder.run(&["trust", "."]);
    let expected = format!(
        "\
./agrees.db: agrees, 2 tables, 7 rows
./cut.db: cut, 2 tables, 7 rows; 6 of its 7 pages are there
./damaged.db: refused, 2 tables, 3 rows; {DAMAGED}
./empty.db: nothing compared
./parts.db: parts, 2 tables, 7 rows; the first that parts is row -5 of load (page 4, cell 0)
./short.db: refused; 2 HeaderCut: there are fewer than 100 bytes
./sub/deeper/below.db: parts, 2 tables, 7 rows; the first that parts is row -5 of load (page 4, cell 0)
./sub/hidden.db: agrees, 2 tables, 7 rows
8 files: 2 agree, 2 part, 2 are refused, 1 is cut, 1 has no row to compare
"
    );
    assert_eq!((out(&output), err(&output), status(&output)), (expected.as_str(), "", 4));
}

#[test]
fn csv_has_the_same_with_a_heading() {
    let folder = of_all("csv");
    folder.put("a, \"b\".db", &agreeing());
    let output = folder.run(&["trust", "--csv", "."]);
    let expected = format!(
        "\
file,verdict,tables,rows,first table,first row,first page,first cell,notes
\"./a, \"\"b\"\".db\",agrees,2,7,,,,,
./agrees.db,agrees,2,7,,,,,
./cut.db,cut,2,7,,,,,6 of its 7 pages are there
./damaged.db,refused,2,3,,,,,\"{DAMAGED}\"
./empty.db,nothing compared,0,0,,,,,
./parts.db,parts,2,7,load,-5,4,0,
./short.db,refused,0,0,,,,,2 HeaderCut: there are fewer than 100 bytes
./sub/deeper/below.db,parts,2,7,load,-5,4,0,
./sub/hidden.db,agrees,2,7,,,,,
"
    );
    assert_eq!((out(&output), err(&output), status(&output)), (expected.as_str(), "", 4));
    // One file has a page of its own, and a line where it is asked for.
    let alone = folder.run(&["trust", "parts.db", "--csv"]);
    assert_eq!(out(&alone).lines().nth(1), Some("parts.db,parts,2,7,load,-5,4,0,"));
    assert_eq!((out(&alone).lines().count(), status(&alone)), (2, 1));
    assert!(out(&folder.run(&["trust", "parts.db"])).starts_with("parts.db: do the printed sheets"));
    assert!(err(&folder.run(&["compare", "parts.db", "--csv"])).starts_with("shorgavel: compare takes no --csv; "));
}

/// An object a line, with the same in it; of one file too.
#[test]
fn json_has_the_same_in_objects() {
    let folder = of_all("json");
    folder.put("a \"b\"\\.db", &agreeing());
    let output = folder.run(&["trust", "--json", "."]);
    let expected = format!(
        r#"{{"file":"./a \"b\"\\.db","verdict":"agrees","tables":2,"rows":7,"notes":[]}}
{{"file":"./agrees.db","verdict":"agrees","tables":2,"rows":7,"notes":[]}}
{{"file":"./cut.db","verdict":"cut","tables":2,"rows":7,"notes":["6 of its 7 pages are there"]}}
{{"file":"./damaged.db","verdict":"refused","tables":2,"rows":3,"notes":["{DAMAGED}"]}}
{{"file":"./empty.db","verdict":"nothing compared","tables":0,"rows":0,"notes":[]}}
{{"file":"./parts.db","verdict":"parts","tables":2,"rows":7,"first":{{"table":"load","row":-5,"page":4,"cell":0}},"notes":[]}}
{{"file":"./short.db","verdict":"refused","tables":0,"rows":0,"notes":["2 HeaderCut: there are fewer than 100 bytes"]}}
{{"file":"./sub/deeper/below.db","verdict":"parts","tables":2,"rows":7,"first":{{"table":"load","row":-5,"page":4,"cell":0}},"notes":[]}}
{{"file":"./sub/hidden.db","verdict":"agrees","tables":2,"rows":7,"notes":[]}}
"#
    );
    assert_eq!((out(&output), err(&output), status(&output)), (expected.as_str(), "", 4));
    let alone = folder.run(&["trust", "agrees.db", "--json"]);
    let line = r#"{"file":"agrees.db","verdict":"agrees","tables":2,"rows":7,"notes":[]}"#;
    assert_eq!((out(&alone), status(&alone)), (format!("{line}\n").as_str(), 0));
    let both = folder.run(&["trust", "--json", "--csv", "."]);
    assert!(err(&both).starts_with("shorgavel: --csv and --json do not go together; ") && status(&both) == 2);
}

/// A link to a folder may lead back up: it is not followed, but where it is named.
#[test]
fn links_to_folders_are_followed_only_where_they_are_named() {
    let folder = of_all("links");
    std::os::unix::fs::symlink("..", folder.0.join("sub/up")).unwrap();
    std::os::unix::fs::symlink("deeper", folder.0.join("sub/link")).unwrap();
    assert!(out(&folder.run(&["trust", "."]))
        .ends_with("\n8 files: 2 agree, 2 part, 2 are refused, 1 is cut, 1 has no row to compare\n"));
    let named = folder.run(&["trust", "sub/link"]);
    assert!(out(&named).starts_with("sub/link/below.db: parts") && out(&named).ends_with("\n1 file: 1 parts\n"));
}

/// Unread, cut, parting, refused, nothing compared, agreeing.
#[test]
fn the_status_is_the_worst() {
    let folder = of_all("worst");
    for (names, ended) in [
        (&["agrees.db", "agrees.db"][..], 0),
        (&["agrees.db", "empty.db"], 5),
        (&["empty.db", "parts.db", "agrees.db"], 1),
        (&["short.db", "empty.db"], 6),
        (&["damaged.db", "empty.db"], 6),
        (&["short.db", "parts.db", "damaged.db"], 1),
        (&["cut.db", "parts.db", "empty.db"], 4),
        (&["none.db", "cut.db", "parts.db"], 3),
    ] {
        let output = folder.run(&[&["trust"], names].concat());
        assert_eq!((status(&output), out(&output).lines().count()), (ended, names.len() + 1), "{names:?}");
    }
}

/// What is refused or cannot be read stops none behind it.
#[test]
fn it_goes_on_past_what_it_cannot_read() {
    let folder = of_all("past");
    fs::create_dir(folder.0.join("bare")).unwrap();
    let output = folder.run(&["trust", "none.db", "words.txt", "bare", "sub", "parts.db"]);
    let lines: Vec<_> = out(&output).lines().collect();
    assert!(lines[0].starts_with("none.db: unread; No such file"));
    assert_eq!(
        lines[1..],
        [
            "words.txt: refused; 1 OpeningDiffers: the 16 opening bytes of a database are not there",
            "sub/deeper/below.db: parts, 2 tables, 7 rows; the first that parts is row -5 of load (page 4, cell 0)",
            "sub/hidden.db: agrees, 2 tables, 7 rows",
            "parts.db: parts, 2 tables, 7 rows; the first that parts is row -5 of load (page 4, cell 0)",
            "5 files: 1 agrees, 2 part, 1 is refused, 1 cannot be read",
        ]
    );
    assert_eq!((err(&output), status(&output)), ("shorgavel: bare is a folder with no database in it\n", 3));
    let bare = folder.run(&["trust", "bare"]);
    assert_eq!((out(&bare), status(&bare)), ("0 files: nothing was compared\n", 5));
}

/// More files than processors, long ones among short ones.
#[test]
fn lines_stand_in_the_order_of_the_words() {
    let folder = of_all("order");
    let names = ["parts.db", "agrees.db", "short.db", "empty.db"];
    let words: Vec<_> = (0..120).map(|at| names[at * 7 % 4]).collect();
    let output = folder.run(&[&["trust"][..], &words].concat());
    let told: Vec<_> = out(&output).lines().map(|line| line.split(':').next().unwrap()).collect();
    assert_eq!((&told[..120], told[120]), (&words[..], "120 files"));
    let last = ": 30 agree, 30 part, 30 are refused, 30 have no row to compare\n";
    assert!(out(&output).ends_with(last));
}

#[test]
fn what_is_not_all_is_told_in_the_line() {
    let folder = Folder::new("notes");
    folder.put("log.db", &agreeing());
    folder.put("log.db-wal", b"x");
    let mut bytes = pages(1);
    schema(&mut bytes, &[("index", "i", 0, "CREATE INDEX i")]);
    folder.put("schema.db", &bytes);
    // Cut, and a row parts in what is there.
    folder.put("worse.db", &cut(two_leaves()));
    let mut bytes = two_leaves();
    schema(&mut bytes, &[("table", "a\x1b[2J", 2, "x"), ("tadle", "b", 2, "x")]);
    folder.put("named\n.db", &bytes);
    let output = folder.run(&["trust", "log.db", "schema.db", "worse.db", "named\n.db"]);
    let unread = "row 2 of the schema, page 1 cell 1, tells nothing: its type is no table, index, view or trigger";
    let expected = [
        "log.db: agrees, 2 tables, 7 rows; the last writes are in log.db-wal, beside the file: they are not read",
        "schema.db: agrees, 1 table, 1 row; nothing was compared but sqlite_schema, the list of the tables",
        "worse.db: cut, 2 tables, 7 rows; the first that parts is row -5 of load (page 4, cell 0); 6 of its 7 pages are there",
        &format!(
            "named\\u{{a}}.db: parts, 2 tables, 6 rows; the first that parts is row -5 of a\\u{{1b}}[2J (page 4, cell 0); {unread}"
        ),
        "4 files: 2 agree, 1 parts, 1 is cut",
    ];
    assert_eq!((out(&output).lines().collect::<Vec<_>>(), err(&output)), (expected.to_vec(), ""));
}

#[test]
fn standard_input_is_one_of_several() {
    let folder = of_all("fed_too");
    let file = folder.0.join("agrees.db");
    let output = fed(&["trust", file.to_str().unwrap(), "-"], &two_leaves());
    assert!(out(&output).contains("\nstandard input: parts, 2 tables, 7 rows; the first that parts is row -5 of load"));
    assert!(out(&output).ends_with("\n2 files: 1 agrees, 1 parts\n") && status(&output) == 1);
}

/// The list may be written into a folder that is read, but over no database in it.
#[test]
fn a_list_is_written_to_a_file() {
    let folder = of_all("listed");
    let shown = folder.run(&["trust", "--csv", "."]);
    let output = folder.run(&["trust", "--csv", ".", "-o", "list.csv"]);
    assert_eq!((out(&output), status(&output)), ("", 4));
    assert_eq!(fs::read_to_string(folder.0.join("list.csv")).unwrap(), out(&shown));
    for words in [
        &["trust", ".", "-o", "agrees.db"][..],
        &["trust", ".", "-o", "sub/deeper/below.db"],
        &["trust", "--csv", "parts.db", "--output=parts.db"],
    ] {
        let output = folder.run(words);
        assert!(err(&output).contains(" is a file that is read: it is not written over") && status(&output) == 2);
    }
    assert_eq!(fs::read(folder.0.join("agrees.db")).unwrap(), agreeing());
}
