//! The command `shorgavel rows` for a spreadsheet and for a program: `--csv` and `--json`.

mod common;

use common::command::{err, fed, out, run, status, Kept};
use common::trees::{leaf, named, record, row};
use common::{every_kind, long_notes, pages, put, two_rows};
use shorgavel::Value::Text;

#[test]
fn csv_has_a_line_a_row_and_reading() {
    let output = fed(&["rows", "-", "--csv"], &two_rows());
    let expected = "\
page,cell,reading,row,refused,mark,refused column,column 0,column 1
1,0,old,1,,,,0,16777216
1,0,file,1,,,,1,16777216
1,0,guarded,,21,3,,,
1,1,old,2,,,,0,16777216
1,1,file,2,,,,0,16777216
1,1,guarded,2,,,,0,16777216
";
    assert_eq!((out(&output), err(&output), status(&output)), (expected, "", 0));
}

#[test]
fn json_has_a_line_a_row_and_reading() {
    let output = fed(&["rows", "-", "--json"], &two_rows());
    let expected = r#"{"page":1,"cell":0,"reading":"old","row":1,"values":[0,16777216]}
{"page":1,"cell":0,"reading":"file","row":1,"values":[1,16777216]}
{"page":1,"cell":0,"reading":"guarded","refused":{"number":21,"name":"Marked","mark":3}}
{"page":1,"cell":1,"reading":"old","row":2,"values":[0,16777216]}
{"page":1,"cell":1,"reading":"file","row":2,"values":[0,16777216]}
{"page":1,"cell":1,"reading":"guarded","row":2,"values":[0,16777216]}
"#;
    assert_eq!((out(&output), err(&output), status(&output)), (expected, "", 0));
}

/// Every line has as many fields as the widest row; a real has the digits that read back as its bits, a blob is hexadecimal.
#[test]
fn every_kind_of_value() {
    let bytes = every_kind();
    let csv = fed(&["rows", "-", "--csv", "--reading=file"], &bytes);
    let lines: Vec<_> = out(&csv).lines().collect();
    assert!(lines[0].ends_with(",refused column,column 0,column 1,column 2,column 3,column 4,column 5,column 6"));
    assert_eq!(
        lines[1..],
        ["1,0,file,1,,,,1,16777216,,,,,", "1,1,file,2,,,,-1,-2,-9223372036854775808,1.5,Hi,x'0001',"]
    );
    let json = fed(&["rows", "-", "--json", "--reading=file"], &bytes);
    let line = r#"{"page":1,"cell":1,"reading":"file","row":2,"values":[-1,-2,{"integer":"-9223372036854775808"},{"real":1.5,"bits":"3ff8000000000000"},"Hi",{"blob":"0001"},null]}"#;
    assert_eq!(out(&json).lines().nth(1), Some(line));
}

/// Texts as they are, but that JSON escapes what would steer a terminal; bytes that are no text are told by their digits.
#[test]
fn texts_are_whole() {
    let mut bytes = pages(2);
    let texts = [Text("a,\"b\"\nΩ\x1b[2J".as_bytes()), Text(b"\xff\xfe"), Text(b"")];
    leaf(&mut bytes, 2, &[(-7, record(&texts)), row(9, 5)]);
    let bytes = named(bytes, "load", 2);
    let words = ["rows", "-", "--table=2", "--reading", "file"];
    let csv = fed(&[&words[..], &["--csv"]].concat(), &bytes);
    let expected = "\
page,cell,reading,row,refused,mark,refused column,column 0,column 1,column 2
2,0,file,-7,,,,\"a,\"\"b\"\"\nΩ\x1b[2J\",x'fffe',
2,1,file,9,,,,5,,
";
    assert_eq!(out(&csv), expected);
    let json = fed(&[&words[..], &["--json"]].concat(), &bytes);
    let first = r#"{"page":2,"cell":0,"reading":"file","row":-7,"values":["a,\"b\"\nΩ\u001b[2J",{"text":"fffe"},""]}"#;
    assert_eq!(out(&json).lines().collect::<Vec<_>>()[..1], [first]);
}

/// A text of UTF-16 is shown in its characters.
#[test]
fn texts_are_decoded() {
    let mut bytes = pages(2);
    leaf(&mut bytes, 2, &[(1, record(&[Text(&[0x4b, 0, 0x3a, 0x4e])]))]);
    let mut bytes = named(bytes, "load", 2);
    put(&mut bytes, 56, &[0, 0, 0, 2]);
    let json = fed(&["rows", "-", "--json", "--reading=file", "--table=2"], &bytes);
    assert!(out(&json).ends_with("\"values\":[\"K\u{4e3a}\"]}\n"), "{}", out(&json));
}

#[test]
fn long_notes_are_shown_where_they_are_asked_for() {
    let file = Kept::new("forms_of_notes", &long_notes());
    let (plain, lent) = (file.show(&["rows", "--json"]), file.show(&["rows", "--json", "--notes"]));
    let refused = r#"{"page":2,"cell":0,"reading":"file","refused":{"number":18,"name":"PayloadSpills"}}"#;
    assert!(out(&plain).contains(refused) && !out(&lent).contains("PayloadSpills"));
    assert_eq!(out(&plain).lines().count(), out(&lent).lines().count());
    let csv = file.show(&["rows", "--csv", "--notes"]);
    let fields = |line: &str| line.split(',').count();
    assert!(out(&csv).lines().all(|line| fields(line) == 7 + 4) && out(&csv).contains("\n2,0,guarded,,21,5,"));
}

/// Then there is nothing to show, and a file of before stays.
#[test]
fn what_is_refused_has_no_line() {
    for form in ["--csv", "--json"] {
        let output = fed(&["rows", "-", form], b"");
        assert_eq!((out(&output), status(&output)), ("", 6));
        assert!(err(&output).starts_with("shorgavel: refused 1 (OpeningDiffers)"));
        let output = fed(&["rows", "-", form, "--table=9"], &two_rows());
        assert_eq!((out(&output), status(&output)), ("", 6));
        let output = run(&["sheet", "x.db", form]);
        assert!(err(&output).starts_with(&format!("shorgavel: sheet takes no {form}; ")) && status(&output) == 2);
    }
}
