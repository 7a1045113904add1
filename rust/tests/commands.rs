//! The command `shorgavel`: its output, its statuses, and what it does where it cannot go on.

mod common;

use common::command::{command, err, fed, kept, out, run, status, Kept};
use common::trees::named;
use common::{every_kind, long_notes, note, put, two_rows};
use std::ffi::OsStr;
use std::fs::{self, File};
use std::process::Stdio;

#[test]
fn rows_are_the_proved_programs_lines() {
    let refused = ["rows_empty", "rows_refused"];
    let shown = ["rows", "rows_hand", "rows_largest", "rows_reserved"];
    for name in shown.iter().chain(&refused) {
        let output = run(&[OsStr::new("rows"), kept(name, "stdin").as_os_str()]);
        assert!(output.stdout == fs::read(kept(name, "stdout")).unwrap(), "{name}");
        assert_eq!(status(&output), 6 * i32::from(refused.contains(name)), "{name}");
    }
}

/// The proved program reads 65,536 bytes and refuses one more with 22; the command's limit is the readers' own.
#[test]
fn rows_reads_on_where_the_proved_program_stops() {
    assert!(fs::read_to_string(kept("rows_over", "stdout")).unwrap().ends_with("\nrefused 22\n"));
    let output = run(&[OsStr::new("rows"), kept("rows_over", "stdin").as_os_str()]);
    assert_eq!((out(&output), status(&output)), ("page cell reading rowid values\nrefused 1\n", 6));

    let mut bytes = fs::read(kept("rows_largest", "stdin")).unwrap();
    bytes.extend(vec![0; 65_536]);
    let longer = fed(&["rows", "-"], &bytes);
    assert!(longer.stdout == fs::read(kept("rows_largest", "stdout")).unwrap());
}

/// A file with a hole of a gigabyte and one byte more: it is refused by its length.
#[test]
fn over_the_limit_is_refused_unread() {
    let file = Kept::new("over_the_limit", b"");
    File::options().write(true).open(&file.0).unwrap().set_len(1_073_741_825).unwrap();
    let output = file.show(&["rows"]);
    assert_eq!((out(&output), status(&output)), ("page cell reading rowid values\nrefused 22\n", 6));
    for words in [&["trust"][..], &["writer"], &["header"], &["page", "1"], &["tables"], &["compare"], &["sheet"]] {
        let output = file.show(words);
        assert_eq!((out(&output), status(&output)), ("", 6));
        assert_eq!(err(&output), "shorgavel: refused 22 (OverLimit): there are over 1,073,741,824 bytes\n");
    }
}

#[test]
fn one_reading_shows_its_lines_alone() {
    let all = fs::read_to_string(kept("rows_hand", "stdout")).unwrap();
    for reading in ["old", "file", "guarded"] {
        let of_reading = |line: &&str| line.starts_with("page ") || line.split(' ').nth(2) == Some(reading);
        let expected: Vec<_> = all.lines().filter(of_reading).collect();
        let file = kept("rows_hand", "stdin");
        let output = run(&[OsStr::new("rows"), OsStr::new("--reading"), OsStr::new(reading), file.as_os_str()]);
        assert_eq!(out(&output).lines().collect::<Vec<_>>(), expected);
        assert_eq!(status(&output), 0);
    }
}

/// The bytes of a note's text, and its blob's, as `rows` has them.
fn long_line(payload: usize) -> String {
    let hex = |bytes: &[u8]| bytes.iter().map(|byte| format!("{byte:02x}")).collect::<String>();
    let record = note(payload);
    format!("i:5 t:{} null b:{}", hex(&record[7..payload - 2]), hex(&record[payload - 2..]))
}

#[test]
fn rows_shows_long_notes_where_it_is_asked_to() {
    let file = Kept::new("long_notes", &long_notes());
    let (plain, lent) = (file.show(&["rows"]), file.show(&["rows", "--notes"]));
    assert_eq!((status(&plain), status(&lent)), (0, 0));
    for (cell, payload) in [(0, 600), (1, 987), (3, 478)] {
        let refused = format!("\n2 {cell} file refused 18 2 {cell} 0 0\n2 {cell} guarded refused 18 2 {cell} 0 0\n");
        assert!(out(&plain).contains(&refused));
        let (row, line) = (cell + 1, long_line(payload));
        let shown = format!("\n2 {cell} file {row} {line}\n2 {cell} guarded refused 21 2 {cell} 0 5\n");
        assert!(out(&lent).contains(&shown));
    }
    let alone = file.show(&["rows", "--notes", "--reading", "file"]);
    let of_file = |line: &&str| line.starts_with("page ") || line.contains(" file ");
    assert_eq!(out(&alone).lines().collect::<Vec<_>>(), out(&lent).lines().filter(of_file).collect::<Vec<_>>());
}

#[test]
fn notes_change_only_lines_that_were_refused_with_18() {
    let long = Kept::new("long_notes_too", &long_notes());
    let names = ["rows", "rows_hand", "rows_largest", "rows_reserved", "rows_empty", "rows_refused"];
    let files = names.map(|name| kept(name, "stdin")).into_iter().chain([long.0.clone()]);
    for file in files {
        let plain = run(&[OsStr::new("rows"), file.as_os_str()]);
        let lent = run(&[OsStr::new("rows"), OsStr::new("--notes"), file.as_os_str()]);
        assert_eq!(out(&plain).lines().count(), out(&lent).lines().count());
        for (before, after) in out(&plain).lines().zip(out(&lent).lines()) {
            assert!(before == after || before.contains(" refused 18 "), "{before}");
            assert!(!after.contains(" refused 18 "), "{after}");
        }
    }
}

#[test]
fn standard_input_is_a_dash() {
    let output = fed(&["rows", "-", "--reading", "file"], &two_rows());
    let expected = "page cell reading rowid values\n1 0 file 1 i:1 i:16777216\n1 1 file 2 i:0 i:16777216\n";
    assert_eq!(out(&output), expected);
    let empty = fed(&["rows", "-"], b"");
    assert_eq!((out(&empty), status(&empty)), ("page cell reading rowid values\nrefused 1\n", 6));
    assert_eq!(
        err(&empty),
        "shorgavel: refused 1 (OpeningDiffers): the 16 opening bytes of a database are not there\n"
    );
}

#[test]
fn header_has_both_readings() {
    let output = run(&[OsStr::new("header"), kept("rows_reserved", "stdin").as_os_str()]);
    let lines: Vec<Vec<_>> = out(&output).lines().map(|line| line.split_whitespace().collect()).collect();
    assert_eq!((lines.len(), status(&output)), (22, 0));
    assert_eq!(lines[0], ["field", "old", "file"]);
    assert_eq!(lines[1], ["page_size", "512", "512"]);
    assert_eq!(lines[4], ["reserved_space", "0", "32"]);
}

#[test]
fn header_that_file_refuses_is_shown_as_old_has_it() {
    let output = run(&[OsStr::new("header"), kept("rows_refused", "stdin").as_os_str()]);
    assert!(out(&output).lines().nth(1).unwrap().ends_with("512    refused"));
    assert_eq!(status(&output), 6);
    assert_eq!(out(&fed(&["header", "-"], b"")), "");
    assert_eq!(err(&output), "shorgavel: refused 7 (FractionsDiffer): the payload fractions are not 64, 32, 32\n");
}

#[test]
fn page_has_head_and_entries() {
    let file = Kept::new("page", &two_rows());
    let output = file.show(&["page", "1"]);
    let lines: Vec<Vec<_>> = out(&output).lines().map(|line| line.split_whitespace().collect()).collect();
    assert_eq!(lines[0], ["page", "1,", "file", "reading"]);
    assert_eq!(lines[1], ["kind", "13", "(leaf", "table)"]);
    assert_eq!(lines[2], ["first_freeblock_offset", "-"]);
    assert_eq!(lines[4], ["cell_content_offset", "494"]);
    assert_eq!(lines[9], ["0", "503", "-", "7", "1", "3", "2"]);
    assert_eq!((lines.len(), status(&output)), (11, 0));
    assert!(out(&file.show(&["page", "0", "--reading", "old"])).starts_with("page 0, old reading\n"));
}

/// Old counts whole pages from 0 on; the others take the header's word, where it was written with the last change.
#[test]
fn a_page_past_the_end_tells_which_there_are() {
    let absent = |bytes: &[u8], words: &[&str], pages: &str| {
        let output = fed(&[&["page", "-"], words].concat(), bytes);
        let said =
            format!("shorgavel: refused 8 (PageAbsent) on page {}: the page is not wholly in the bytes", words[0]);
        assert_eq!((out(&output), status(&output)), ("", 6));
        assert_eq!(err(&output), format!("{said}; {pages}\n"));
    };
    absent(&two_rows(), &["2"], "there is 1 page, 1");
    absent(&two_rows(), &["1", "--reading", "old"], "there is 1 page, 0");
    let mut bytes = long_notes();
    for number in ["0", "9", "4294967295"] {
        absent(&bytes, &[number], "there are 8 pages, 1 to 8");
        absent(&bytes, &[number, "--reading=guarded"], "there are 8 pages, 1 to 8");
    }
    absent(&bytes, &["8", "--reading=old"], "there are 8 pages, 0 to 7");
    put(&mut bytes, 28, &[0, 0, 4, 0]);
    absent(&bytes, &["9"], "8 of its 1,024 pages are there, 1 to 8");
    absent(&bytes[..512], &["2"], "1 of its 1,024 pages is there, 1");
    absent(&bytes[..511], &["1"], "no page is wholly there");
    absent(&bytes[..511], &["0", "--reading=old"], "no page is wholly there");
    // Another refusal of a page has nothing to do with how many there are.
    let index = fed(&["page", "-", "2", "--reading=guarded"], &[&two_rows()[..], &[0; 512]].concat());
    assert!(status(&index) == 6 && !err(&index).contains("there "));
}

#[test]
fn compare_says_where_the_readings_part() {
    let output = run(&[OsStr::new("compare"), kept("rows_hand", "stdin").as_os_str()]);
    let expected = "\
page 1: no tablet showed any of its 12 cells: the original refuses the page for cell 1: 14 HeaderUnfit: the record's \
header does not fit
page 1 cell 4 column 0: type 9: old shows 0, the gauge wrote 1
page 1 cell 6 column 0: an empty text: old shows null, the gauge wrote ''
page 1 cell 10: a header size that is not in one byte: old shows row 11: 8, 11003806875647, the gauge wrote row 11: 5
page 1 cell 11: file refuses it (14 HeaderUnfit: the record's header does not fit), old shows row 12: 5
";
    assert!(out(&output).starts_with(expected));
    let refused = "
refused by old and file alike, and no part of the verdict:
page 1 cell 1: 14 HeaderUnfit: the record's header does not fit
page 1 cell 7: 15 TypeReserved in column 0: the type is 10 or 11, which are reserved
1 page with 12 cells is refused by the original: what old shows there was on no tablet
2 cells of no table, deleted or damaged, do not count: 1 part, 0 are refused by old and file alike
12 cells compared: 4 part, 2 are refused by old and file alike
";
    assert!(out(&output).ends_with(refused));
    assert_eq!((err(&output), status(&output)), ("", 1));
    let largest = run(&[OsStr::new("compare"), kept("rows_largest", "stdin").as_os_str()]);
    let first = "page 1 cell 0: a varint of over five bytes: old refuses it (13 CellCut: the cell is cut short), \
                 the gauge wrote row -1: 42, ''\n";
    // Its row numbers do not rise, so that it is no table.
    assert!(out(&largest).contains(&format!("\nof no table: {first}")));
}

#[test]
fn compare_is_content_where_they_agree() {
    let mut bytes = every_kind();
    bytes[506] = 8;
    let output = fed(&["compare", "-"], &bytes);
    let expected = "\
row 1 of the schema, page 1 cell 0, tells nothing: it has not five columns (and 1 more rows)
2 cells compared: 0 part, 0 are refused by old and file alike
";
    assert_eq!((out(&output), status(&output)), (expected, 0));
}

/// A header size of 2 in two bytes, `80 02`: file has no types. The one byte that old takes for types is behind the
/// payload: a null, or no type at all, and then the two show the same.
#[test]
fn compare_tells_what_guarded_alone_refuses() {
    let mut bytes = two_rows();
    put(&mut bytes, 503, b"\x02\x01\x80\x02\x00");
    let place = "page 1 cell 0: a header size that is not in one byte: old ";
    let differing = format!("{place}shows row 1: null, the gauge wrote row 1 with no columns\n");
    assert!(out(&fed(&["compare", "-"], &bytes)).starts_with(&differing));
    bytes[507] = 0x80;
    let output = fed(&["compare", "-"], &bytes);
    let expected = format!("{place}and file show the same, guarded refuses it\n");
    assert!(out(&output).starts_with(&expected) && out(&output).contains("\n2 cells compared: 1 part, "));
    assert_eq!(status(&output), 1);
}

/// Of rows 1 and 2 old does not find all bytes on the page; of row 4 it shows others that stand there.
#[test]
fn compare_shows_long_notes() {
    let output = fed(&["compare", "-"], &named(long_notes(), "notes", 2));
    let text = |payload: usize| String::from_utf8(note(payload)[7..67].to_vec()).unwrap();
    let place = |cell: usize| format!("page 2 cell {cell}: a long note, whose payload spills: old refuses it (");
    let passes = "16 ValueUnfit in column 1: the value passes the end, or bytes are left over behind the last";
    let mut lines = out(&output).lines();
    let none = "page 2: no tablet showed any of its 4 cells: the original refuses the page for cell 0";
    assert_eq!(lines.next(), Some(&*format!("{none}: {passes}")));
    for (cell, payload) in [(0, 600), (1, 987)] {
        let row = format!("row {}: 5, '{}'… ({} bytes), null, x'", cell + 1, text(payload), payload - 9);
        let expected = format!("{}{passes}), the gauge wrote {row}", place(cell));
        assert!(lines.next().unwrap().starts_with(&expected), "{expected}");
    }
    let (column, wrote) = (lines.next().unwrap(), format!(", the gauge wrote '{}'… (469 bytes)", text(478)));
    assert!(column.starts_with("page 2 cell 3 column 1: a long note, whose payload spills: old shows text x'"));
    assert!(column.ends_with(&wrote));
    let blob = lines.next().unwrap();
    assert!(blob.starts_with("page 2 cell 3 column 3: a long note, whose payload spills: old shows x'"));
    let none = "1 page with 4 cells is refused by the original: what old shows there was on no tablet";
    assert_eq!(lines.next(), Some(none));
    assert_eq!(lines.next(), Some("5 cells compared: 3 part, 0 are refused by old and file alike"));
    assert_eq!((lines.next(), status(&output)), (None, 1));
}

/// A chain that ends early, where old refuses the row as well.
#[test]
fn compare_tells_what_is_refused_of_long_notes() {
    let mut bytes = named(long_notes(), "notes", 2);
    put(&mut bytes, 4 * 512, &[0; 4]);
    // A type 9 in place of row 4's null: a lower mark, but the text differs for its length.
    bytes[512 + 20 + 3 + 4] = 9;
    let output = fed(&["compare", "-"], &bytes);
    let both = "old: 16 ValueUnfit in column 1: the value passes the end, or bytes are left over behind the last; \
                file: 23 ChainUnfit: the overflow chain leaves the file, ends early or goes on";
    let heading = "refused by old and file alike, and no part of the verdict:";
    assert!(out(&output).contains(&format!("\n{heading}\npage 2 cell 1: {both}\n1 page with 4 cells is refused ")));
    assert_eq!(out(&output).matches("page 2 cell 1").count(), 1);
    assert!(out(&output).contains("\npage 2 cell 3 column 1: a long note, whose payload spills: old shows "));
    assert!(out(&output).contains("\npage 2 cell 3 column 2: type 9: old shows 0, the gauge wrote 1\n"));
    assert!(out(&output).ends_with("\n5 cells compared: 2 part, 1 are refused by old and file alike\n"));
}

#[test]
fn help_and_version_are_told() {
    for word in ["-h", "--help"] {
        let output = run(&[word]);
        assert_eq!((err(&output), status(&output)), ("", 0));
        for command in [
            "trust",
            "writer",
            "header",
            "page",
            "tables",
            "rows",
            "compare",
            "sheet",
            "--reading",
            "--table",
            "--notes",
            "--parting",
            "--csv",
        ] {
            assert!(out(&output).contains(&format!("\n  {command} ")), "{command}");
        }
    }
    assert_eq!(out(&run(&["rows", "--help"])), out(&run(&["-h"])));
    assert_eq!(out(&run(&["--version"])), concat!("shorgavel ", env!("CARGO_PKG_VERSION"), "\n"));
}

#[test]
fn wrong_words_end_with_2() {
    let root = "--table takes the number of a root page, as `shorgavel tables` lists it";
    let wrong: [(&[&str], &str); 20] = [
        (&[], "a command is missing"),
        (&["row"], "there is no command row"),
        (&["rows"], "rows: FILE is missing"),
        (&["page", "-"], "page: N is missing"),
        (&["page", "-", "one"], "page: one is no page number"),
        (&["rows", "-", "-", "x"], "rows: - is one word too many"),
        (&["rows", "-", "--fast"], "there is no option --fast"),
        (&["rows", "-", "--reading"], "--reading takes old, file or guarded"),
        (&["rows", "-", "--reading", "new"], "--reading takes old, file or guarded"),
        (&["trust"], "trust: FILE is missing"),
        (&["writer", "-", "-"], "writer: - is one word too many"),
        (&["trust", "-", "--notes"], "trust takes no --notes"),
        (&["writer"], "writer: FILE is missing"),
        (&["writer", "-", "--parting"], "writer takes no --parting"),
        (&["rows", "-", "--table"], root),
        (&["rows", "-", "--table", "load"], root),
        (&["compare", "-", "--table", "2"], "compare takes no --table"),
        (&["tables", "-", "--reading", "old"], "tables takes no --reading"),
        (&["sheet", "-", "--notes"], "sheet takes no --notes"),
        (&["rows", "-", "--parting"], "rows takes no --parting"),
    ];
    for (words, why) in wrong {
        let output = run(words);
        assert_eq!((out(&output), status(&output)), ("", 2), "{why}");
        assert_eq!(err(&output), format!("shorgavel: {why}; `shorgavel --help` has the words\n"));
    }
}

#[test]
fn files_that_cannot_be_read_end_with_3() {
    for file in [env!("CARGO_TARGET_TMPDIR"), "no such file"] {
        let output = run(&["rows", file]);
        assert_eq!((out(&output), status(&output)), ("", 3));
        assert!(err(&output).starts_with(&format!("shorgavel: {file} cannot be read: ")));
    }
}

#[test]
fn a_full_disk_ends_with_3() {
    let full = File::options().write(true).open("/dev/full").unwrap();
    let mut command = command();
    command.arg("rows").arg(kept("rows", "stdin")).stdout(full);
    let output = command.output().unwrap();
    assert_eq!(status(&output), 3);
    assert!(err(&output).starts_with("shorgavel: the output cannot be written: "));
}

/// Whoever reads may go away. What these write does not fit in a pipe, so the command notices.
#[test]
fn a_broken_pipe_ends_it_quietly() {
    for words in ["rows", "sheet"] {
        let mut command = command();
        command.arg(words).arg(kept("rows_largest", "stdin")).stdout(Stdio::piped()).stderr(Stdio::piped());
        let mut child = command.spawn().unwrap();
        drop(child.stdout.take());
        let output = child.wait_with_output().unwrap();
        assert_eq!((err(&output), status(&output)), ("", 0), "{words}");
    }
}
