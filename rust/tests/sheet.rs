//! `shorgavel sheet`: table by table, the three readings line by line; what stands apart, and what its top says.

mod common;

use common::command::{err, fed, out, status, Kept};
use common::trees::{idle_load, interior, leaf, named, record, row, schema, two_leaves};
use common::{every_kind, long_notes, note, pages, put, two_rows};
use shorgavel::Value::{Integer, Null, Text};
use std::fs;

/// The sheet of a database, which is written without a complaint.
fn sheet(words: &[&str], bytes: &[u8]) -> String {
    let output = fed(&[&["sheet", "-"], words].concat(), bytes);
    assert_eq!((err(&output), status(&output)), ("", 0));
    out(&output).to_string()
}

/// The lines of its rows, and of words among them.
fn lines(sheet: &str) -> Vec<&str> {
    let bodies = sheet.split("<tbody>\n").skip(1);
    bodies.flat_map(|body| body.split("</table>").next().unwrap().lines()).collect()
}

fn headings(sheet: &str) -> Vec<&str> {
    sheet.lines().filter_map(|line| line.find("<h2>").map(|at| &line[at..])).collect()
}

/// A text and a name that could be taken for markup.
#[test]
fn it_is_one_page_and_escapes_what_it_shows() {
    let mut bytes = every_kind();
    put(&mut bytes, 429, b"<&");
    let file = Kept::new("a <sheet>.db", &bytes);
    let output = file.show(&["sheet"]);
    let page = out(&output);
    assert_eq!((err(&output), status(&output)), ("", 0));
    assert!(page.starts_with("<!doctype html>") && page.ends_with("</html>\n"));
    assert!(page.contains("<h1>a &lt;sheet&gt;.db</h1>"));
    assert!(page.contains("'&lt;&amp;'") && !page.contains("'<&'"));
    for other in ["<script", "http", "src=", "@import", "url("] {
        assert!(!page.contains(other), "{other}");
    }
    let mut bytes = two_leaves();
    schema(&mut bytes, &[("table", "<b>", 2, "CREATE TABLE <i>(a)")]);
    let page = sheet(&[], &bytes);
    assert!(page.contains("<h2>&lt;b&gt; <small>") && page.contains("<pre>CREATE TABLE &lt;i&gt;(a)\n"));
    assert!(page.contains("<th colspan=5>&lt;b&gt;: old, file and guarded reading\n"));
}

/// Old's value stands before file's, in the column where they differ.
#[test]
fn a_row_takes_one_line_that_names_its_readings() {
    let page = sheet(&[], &idle_load());
    let parting = "<tr class=p><th>1<td>2·0<td class=t>old ≠ file<td class=d><i class=o>0</i> ≠ <i class=f>1</i>\
                   <td>16777216<td class=\"t r\">refuses: stored 1";
    let agreeing = "<tr><th>2<td>2·1<td class=t>old = file<td>0<td>16777216<td class=t>shows it";
    assert_eq!(lines(&page)[..2], [parting, agreeing]);
    assert!(page.contains("<h1>standard input</h1>") && page.contains("The readings part on 1 of 3 rows"));
}

#[test]
fn it_goes_table_by_table() {
    let page = sheet(&[], &two_leaves());
    let expected = [
        "<h2>load <small>root page 2, 4 rows, <b>1 part</b></small></h2>",
        "<h2>keyed <small>root page 6</small></h2>",
        "<h2>far <small>no root page</small></h2>",
        "<h2>sqlite_schema <small>root page 1, 3 rows</small></h2>",
        "<h2>Pages of no table: deleted or damaged <small>1 page, 1 row, <b>1 part</b></small></h2>",
    ];
    assert_eq!(headings(&page), expected);
    assert!(page.contains("<caption><h2>load ") && page.contains("<pre>CREATE TABLE load(idle)\n</pre>\n</caption>"));
    // Rows come in the order of the walk, and those of no table do not count.
    let places: Vec<_> = lines(&page).iter().filter_map(|line| line.split("<td>").nth(1)?.split('<').next()).collect();
    assert_eq!(places, ["4·0", "4·0", "4·1", "3·0", "3·1", "1·0", "1·1", "1·2", "5·0"]);
    assert!(page.contains("The readings part on 1 of 7 rows"));
    assert!(page.contains("<dt>Rows of no table</dt><dd>1</dd>"));
    assert!(page.contains("No table leads to these rows, and they do not count above."));
}

/// They hold no table leaf, and are named where all is summed up.
#[test]
fn tables_without_row_numbers_are_named_as_not_compared() {
    let page = sheet(&[], &two_leaves());
    let (top, below) = page.split_once("</header>").unwrap();
    assert!(top.contains("2 tables are not compared: keyed, far.</p>"));
    assert!(below.contains("<p class=note>Not compared: it has no row numbers: its rows are in an index"));
    assert!(below.contains("<p class=note>Not compared: it is virtual"));
}

/// The column heads of a table whose only row has six values.
fn heads(statement: &str) -> String {
    let mut bytes = pages(2);
    schema(&mut bytes, &[("table", "load", 2, statement)]);
    leaf(&mut bytes, 2, &[(1, record(&[Integer(1), Integer(2), Integer(3), Integer(4), Null, Text(b"x")]))]);
    let page = sheet(&[], &bytes);
    let heads = page.lines().find(|line| line.starts_with("<tr><th>Row<th>Place")).unwrap();
    heads.replace("<tr><th>Row<th>Place<th class=t>Readings", "").replace("<th class=t>Guarded", "")
}

#[test]
fn columns_have_names_where_the_statement_has_plain_ones() {
    let named = "<th><small>0</small><br>at<th><small>1</small><br>idle<th>2<th>3<th>4<th class=t>5";
    assert_eq!(heads("CREATE TABLE load(at INTEGER NOT NULL, idle)"), named);
    let numbers = "<th>0<th>1<th>2<th>3<th>4<th class=t>5";
    assert_eq!(heads("CREATE TABLE load(\"at\", idle)"), numbers);
    assert_eq!(heads("CREATE TABLE load(at, idle AS (at))"), numbers);
    // The schema's own are the format's.
    let page = sheet(&[], &two_leaves());
    assert!(page.contains("<th class=t><small>0</small><br>type<th class=t><small>1</small><br>name"));
}

/// The shares of its columns, and what its row takes: no value is broken in a line of 100 digits.
#[test]
fn a_row_of_six_short_columns_takes_one_line() {
    let mut bytes = pages(2);
    schema(&mut bytes, &[("table", "load", 2, "CREATE TABLE load(at, idle, charging, coulombs, volts, kelvin)")]);
    let types = b"\x07\x04\x09\x09\x04\x07\x00";
    let values = b"\x65\x53\xf1\x2a\x01\x00\x00\x00\x40\x36\x5c\x28\xf5\xc2\x8f\x5c";
    leaf(&mut bytes, 2, &[(20_000, [&types[..], values].concat())]);
    let page = sheet(&[], &bytes);
    let expected = "<tr class=p><th>20000<td>2·0<td class=t>old ≠ file<td>1700000042\
                    <td class=d><i class=o>0</i> ≠ <i class=f>1</i><td class=d><i class=o>0</i> ≠ <i class=f>1</i>\
                    <td>16777216<td>22.36<td class=u>null<td class=\"t r\">refuses: stored 1";
    assert_eq!(lines(&page)[0], expected);
    let width = page.split("<table class=grid style=\"--width:").nth(1).unwrap().split("ch").next().unwrap();
    assert!(width.parse::<usize>().unwrap() <= 100, "{width}");
}

/// Thirty values have no room side by side: they follow each other, numbered.
#[test]
fn a_wide_row_flows() {
    let mut bytes = named(pages(2), "wide", 2);
    leaf(&mut bytes, 2, &[(1, record(&[Integer(7); 30]))]);
    let page = sheet(&[], &bytes);
    let row = format!("<tr><th>1<td>2·0<td class=t>old = file<td class=w><div>{}</div>", "<b>7</b>".repeat(30));
    assert!(lines(&page)[0].starts_with(&row));
    assert!(page.contains("<table class=flow ") && page.contains("<th class=t>30 columns: <small>0</small>\u{a0}a<th"));
}

#[test]
fn a_note_keeps_its_line_breaks() {
    let mut bytes = named(pages(2), "note", 2);
    leaf(&mut bytes, 2, &[(1, record(&[Text(b"Cell 7 is low:\n  2.91 V\r\n<rest>")]))]);
    let page = sheet(&[], &bytes);
    assert!(page.contains("<td class=t>'Cell 7 is low:\n  2.91 V\n&lt;rest&gt;'<td class=t>shows it\n"));
    assert!(page.contains("white-space: pre-wrap;"));
}

#[test]
fn long_notes_are_whole() {
    let mut bytes = named(long_notes(), "notes", 2);
    put(&mut bytes, 4 * 512, &[0; 4]);
    let text = String::from_utf8(note(600)[7..598].to_vec()).unwrap();
    for words in [&[][..], &["--parting"], &["--reading=file"]] {
        let page = sheet(words, &bytes);
        assert!(page.contains(&format!("'{text}'")));
        let chain = ">refused 23 ChainUnfit: the overflow chain leaves the file, ends early or goes on";
        assert_eq!(page.contains(chain), words != ["--parting"]);
        assert!(!page.contains("refused 18"));
        assert_eq!(page.contains("The readings part on 2 of 5 rows"), words != ["--reading=file"]);
        assert_eq!(page.contains(">refuses: long note"), words != ["--reading=file"]);
    }
}

/// Row 2 has a reserved type, and row 3 a header with no end, which old takes for one.
#[test]
fn rows_that_are_refused_keep_their_numbers() {
    let mut bytes = two_leaves();
    leaf(&mut bytes, 4, &[row(-5, 10), (2, vec![2, 10])]);
    leaf(&mut bytes, 3, &[row(7, 12), (9, vec![3, 1, 0x81, 5])]);
    let page = sheet(&[], &bytes);
    let cut = "<td class=\"t r\" colspan=1>refused 13 CellCut: the cell is cut short";
    let reserved =
        "<td class=\"t r\" colspan=1>refused 15 TypeReserved in column 0: the type is 10 or 11, which are reserved";
    let unfit = "<td class=\"t r\" colspan=1>refused 14 HeaderUnfit: the record's header does not fit";
    let expected = [
        format!("<tr class=p><th>-5<td>4·0<td class=t>old†{cut}<td class=t>"),
        "<tr class=p><th>-5<td>4·0<td class=t>file<td>10<td class=\"t r\">refuses: long varint".to_string(),
        format!("<tr><th>2<td>4·1<td class=t>old†, file{reserved}<td class=\"t r\">refuses: 15"),
        "<tr><th>7<td>3·0<td class=t>old = file<td>12<td class=t>shows it".to_string(),
        "<tr class=p><th>9<td>3·1<td class=t>old<td>5<td class=t>".to_string(),
        format!("<tr class=p><th>9<td>3·1<td class=t>file{unfit}<td class=\"t r\">refuses: 14"),
    ];
    assert_eq!(lines(&page)[1..7], expected);
    // Of a page that is of no table nobody tells them.
    leaf(&mut bytes, 5, &[(8, vec![2, 10])]);
    assert!(sheet(&[], &bytes).contains("<tr><th><td>5·0<td class=t>old†, file<td class=\"t r\" colspan=1>refused 15"));
}

#[test]
fn parting_rows_come_alone_where_they_are_asked_for() {
    let page = sheet(&["--parting"], &two_leaves());
    let parting = lines(&page).iter().filter(|line| line.starts_with("<tr class=p>")).count();
    assert_eq!((parting, lines(&page).len(), page.matches("<table").count()), (3, 4, 2));
    assert!(page.contains("load: old, file and guarded reading, only the rows on which they part"));
    assert!(page.contains("<h2>sqlite_schema <small>root page 1, 3 rows</small></h2>\n<p class=note>No row parts.</p>"));
    let both = sheet(&["--parting"], &[two_rows(), vec![0; 512]].concat());
    assert_eq!(lines(&both).len(), 1);
}

#[test]
fn one_table_comes_alone_where_it_is_asked_for() {
    let page = sheet(&["--table", "2"], &two_leaves());
    assert_eq!(headings(&page).len(), 1);
    assert_eq!(lines(&page)[1], "<tr class=p><th>-5<td>4·0<td class=t>old†<td class=\"t r\" colspan=1>refused 13 CellCut: the cell is cut short<td class=t>");
    assert!(
        page.contains("The readings part on 1 of 4 rows") && page.contains("Only the table load is on this sheet.")
    );
    assert!(page.contains("<dt>Rows of no table</dt><dd>0</dd>"));
    for (root, said) in [
        ("5", "no table has the root page 5; `shorgavel tables` lists the roots"),
        ("6", "refused 25 (IndexPage) on page 6: the page is of an index"),
        ("9", "refused 8 (PageAbsent) on page 9: the page is not wholly in the bytes"),
    ] {
        let output = fed(&["sheet", "-", "--table", root], &two_leaves());
        assert_eq!((out(&output), status(&output)), ("", 6));
        assert_eq!(err(&output), format!("shorgavel: {said}\n"));
    }
}

#[test]
fn a_table_that_is_refused_is_told() {
    let mut bytes = two_leaves();
    leaf(&mut bytes, 4, &[row(1, 10), row(2, 11)]);
    interior(&mut bytes, 2, &[(4, 1)], 3);
    let page = sheet(&[], &bytes);
    let why = "refused 27 (OutOfOrder) on page 4, cell 1: the row number or key is out of order";
    assert!(page.contains(&format!("<p class=\"note bad\">Not compared: {why}.</p>")));
    assert!(page.contains("1 table is refused, and not compared: load.</p>"));
    assert!(page.contains("Old and file agree on all 3 rows of those compared, which are not all."));
    assert!(page.contains("Pages of no table: deleted or damaged <small>3 pages, 5 rows"));
}

#[test]
fn nothing_is_agreed_on_over_no_rows() {
    for words in [&[][..], &["--parting"]] {
        let page = sheet(words, &pages(2));
        assert!(page.contains("There is no row of a table to compare.") && !page.contains("agree on"));
        assert!(page.contains("<p class=note>It has no rows.</p>"));
    }
}

/// Of 8,192 bytes 3,000 are there: of two pages none, of sixteen five.
#[test]
fn half_a_file_is_told_at_the_top() {
    let mut large = vec![0; 8_192];
    put(&mut large, 0, &two_rows());
    put(&mut large, 16, b"\x10\x00");
    put(&mut large, 28, &[0, 0, 0, 2]);
    let mut small = two_leaves();
    small.resize(8_192, 0);
    leaf(&mut small, 4, &[row(1, 10), row(2, 11)]);
    put(&mut small, 28, &[0, 0, 0, 16]);
    for words in [&[][..], &["--parting"], &["--reading=old"], &["--reading=file"], &["--reading=guarded"]] {
        for (bytes, present, count) in [(&large, 0, 2), (&small, 5, 16)] {
            let output = fed(&[&["sheet", "-"], words].concat(), &bytes[..3_000]);
            let top = out(&output).split("</header>").next().unwrap();
            assert!(top.contains(&format!("The file is cut: {present} of its {count} pages are there.</p>")));
            assert!(!top.contains("verdict ok"));
            assert_eq!(err(&output), format!("shorgavel: the file is cut: {present} of its {count} pages are there\n"));
            assert_eq!(status(&output), 4);
        }
    }
    let output = fed(&["sheet", "-"], &small[..3_000]);
    assert!(out(&output).contains("Old and file agree on all 7 rows of those compared, which are not all."));
    put(&mut small, 28, &[0, 0, 0, 6]);
    let whole = sheet(&[], &small);
    assert!(whole.contains("<p class=\"verdict ok\">Old and file agree on all 7 rows.</p>"));
}

#[test]
fn a_log_beside_the_file_is_told_at_the_top() {
    let file = Kept::new("sheet_logged.db", &two_rows());
    let log = file.0.with_file_name("sheet_logged.db-wal");
    fs::write(&log, b"x").unwrap();
    let page = file.show(&["sheet"]);
    assert!(out(&page).contains("The last writes are in sheet_logged.db-wal, beside the file: they are not read."));
    fs::remove_file(&log).unwrap();
}

/// 60 leaves of 50 rows each: a row takes so many bytes of the sheet, however many there are.
#[test]
fn a_sheet_is_light() {
    let mut bytes = named(pages(62), "load", 2);
    for page in 0..60 {
        let rows: Vec<_> = (1..=50).map(|number| row(page * 50 + number, 7)).collect();
        leaf(&mut bytes, page as usize + 3, &rows);
    }
    let cells: Vec<_> = (0..59).map(|page| (page as u8 + 3, (page + 1) * 50)).collect();
    interior(&mut bytes, 2, &cells, 62);
    let page = sheet(&[], &bytes);
    assert_eq!(lines(&page).len(), 3_001);
    assert!(page.len() < 12_000 + 75 * 3_000, "{}", page.len());
}

/// Its colours are for a dark screen too, and it is printed on A4 with the heads of a table on each page.
#[test]
fn it_has_rules_for_dark_screens_and_for_paper() {
    let page = sheet(&[], &two_rows());
    for rule in ["@media screen and (prefers-color-scheme: dark)", "@page { size: A4;", "display: table-header-group;"]
    {
        assert!(page.contains(rule), "{rule}");
    }
}
