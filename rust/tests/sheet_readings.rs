//! `shorgavel sheet --reading`: one reading alone; and the pages that the original refuses whole, of which no tablet showed a row.

mod common;

use common::command::{err, fed, kept, out, run, status};
use common::trees::{idle_load, leaf, row, two_leaves};
use common::{pages, put, two_rows};
use std::collections::HashSet;
use std::ffi::OsStr;

/// The sheet of a database, and its lines below the heads.
fn sheet(words: &[&str], bytes: &[u8]) -> (String, Vec<String>) {
    let output = fed(&[&["sheet", "-"], words].concat(), bytes);
    assert_eq!((err(&output), status(&output)), ("", 0));
    let page = out(&output).to_string();
    let bodies = page.split("<tbody>\n").skip(1);
    let lines = bodies.flat_map(|body| body.split("</table>").next().unwrap().lines()).map(str::to_string).collect();
    (page, lines)
}

#[test]
fn one_reading_is_named_by_every_heading() {
    let (old, lines) = sheet(&["--reading", "old"], &idle_load());
    let first = "<tr class=q><td colspan=4>Page 2, 1 on the tablets";
    assert_eq!(lines[..3], [first, "<tr><th>1<td>2·0<td>0<td>16777216", "<tr><th>2<td>2·1<td>0<td>16777216"]);
    assert!(old.contains("<title>standard input: old reading</title>"));
    assert!(old.contains("<tr class=\"b o\"><th colspan=4>load: old reading, what the tablets show\n"));
    let (file, lines) = sheet(&["--reading", "file"], &idle_load());
    assert_eq!(lines[..2], ["<tr><th>1<td>2·0<td>1<td>16777216", "<tr><th>2<td>2·1<td>0<td>16777216"]);
    assert!(file.contains("<tr class=\"b f\"><th colspan=4>load: file reading, what the gauge wrote\n"));
    let (guarded, lines) = sheet(&["--reading", "guarded"], &idle_load());
    let refused = "<tr><th>1<td>2·0<td class=\"t r\" colspan=2>refused 21 Marked: a type 9, a stored 1";
    assert_eq!(lines[..2], [refused, "<tr><th>2<td>2·1<td>0<td>16777216"]);
    assert!(guarded.contains("<dt>Rows shown</dt><dd>2</dd>") && guarded.contains("<dt>Rows refused</dt><dd>1</dd>"));
    // One alone compares nothing.
    for page in [old, file, guarded] {
        assert!(!page.contains("agree on all") && !page.contains("part on") && !page.contains("<td class=d>"));
        assert!(page.contains(" reading alone: "));
    }
}

#[test]
fn one_reading_has_no_rows_that_part() {
    let output = run(&["sheet", "-", "--reading", "old", "--parting"]);
    assert_eq!((out(&output), status(&output)), ("", 2));
    assert!(err(&output).starts_with("shorgavel: sheet takes --reading or --parting, not both; "));
}

/// Of page 4 one row has a reserved type. The other three rows of the table are sound.
fn one_bad_page() -> Vec<u8> {
    let mut bytes = two_leaves();
    leaf(&mut bytes, 4, &[row(1, 10), (2, vec![2, 10])]);
    bytes
}

const WHY: &str = "no tablet showed any of its 2 cells: the original refuses the page for cell 1: \
                   15 TypeReserved in column 0: the type is 10 or 11, which are reserved";

#[test]
fn what_was_never_on_a_tablet_is_told() {
    let (page, lines) = sheet(&[], &one_bad_page());
    let note = format!("<tr class=x><td colspan=5>Page 4: {WHY}. What stands below as old† is of single cells.");
    assert_eq!(lines[..2], [note, "<tr><th>1<td>4·0<td class=t>old† = file<td>10<td class=t>shows it".to_string()]);
    assert!(lines[2].starts_with("<tr><th>2<td>4·1<td class=t>old†, file<td"));
    assert_eq!(lines[3], "<tr><th>7<td>3·0<td class=t>old = file<td>12<td class=t>shows it");
    let (top, _) = page.split_once("</header>").unwrap();
    assert!(top.contains("The original refuses 1 page with 2 rows: they were on no tablet."));
    // A row that no tablet showed is not said to agree.
    let verdict =
        "<p class=\"verdict bad\">Old and file agree on every row that they show, cell by cell; but not all of \
                   them were on a tablet.</p>";
    assert!(top.contains(verdict) && top.contains("<dt>Rows that agree</dt><dd>5</dd>"));
    assert!(top.contains("<dt>Rows alike, on no tablet</dt><dd>1</dd>"));
    // Guarded shows such a row, and it is told there too.
    let (page, lines) = sheet(&["--reading=guarded"], &one_bad_page());
    assert_eq!(lines[..2], [format!("<tr class=x><td colspan=3>Page 4: {WHY}."), "<tr><th>1<td>4·0<td>10".to_string()]);
    assert!(page.contains("The original refuses 1 page with 2 rows: they were on no tablet."));
    // It is told also where only parting rows are shown, of which the page has none.
    let (_, lines) = sheet(&["--parting"], &one_bad_page());
    assert!(lines[0].starts_with("<tr class=x><td colspan=5>Page 4: no tablet") && lines[1].contains("5·0"));
}

/// Page for page, as the original accepts them: those of no table too.
#[test]
fn the_old_sheet_has_what_the_tablets_had() {
    let (page, lines) = sheet(&["--reading=old"], &one_bad_page());
    let expected = [
        format!("<tr class=x><td colspan=3>Page 4, 3 on the tablets: {WHY}."),
        "<tr class=q><td colspan=3>Page 3, 2 on the tablets".to_string(),
        "<tr><th>7<td>3·0<td>12".to_string(),
        "<tr><th>9<td>3·1<td>13".to_string(),
    ];
    assert_eq!(lines[..4], expected);
    assert_eq!(
        lines[lines.len() - 2..],
        ["<tr class=q><td colspan=3>Page 5, 4 on the tablets", "<tr><th>8<td>5·0<td>0"]
    );
    assert!(page.contains("<dt>Of them on the tablets</dt><dd>5</dd>"));
    assert!(page.contains("The original refuses 1 page with 2 rows: they were on no tablet."));
    assert!(page.contains("The tablets know no tables, and show them with all others."));
    // The other readings show cells one by one.
    let (_, lines) = sheet(&["--reading=file"], &one_bad_page());
    assert_eq!(lines[0], "<tr><th>1<td>4·0<td>10");
    assert!(lines[1].starts_with("<tr><th>2<td>4·1<td class=\"t r\" colspan=1>refused 15 TypeReserved"));
}

/// The rows of `rows --reading old` on pages of which it refuses none: what the original shows is what its pages have.
#[test]
fn the_old_sheet_has_as_many_rows_as_the_accepted_pages() {
    for (name, shown) in [("rows", 2), ("rows_hand", 2), ("rows_largest", 0), ("rows_reserved", 3)] {
        let file = kept(name, "stdin");
        let rows = run(&[OsStr::new("rows"), OsStr::new("--reading=old"), file.as_os_str()]);
        let page = |line: &str| line.split(' ').next().unwrap().to_string();
        let refused: HashSet<_> = out(&rows).lines().filter(|line| line.contains(" refused ")).map(page).collect();
        let accepted = out(&rows).lines().skip(1).filter(|line| !refused.contains(&page(line))).count();
        let sheet = run(&[OsStr::new("sheet"), OsStr::new("--reading=old"), file.as_os_str()]);
        let lines = out(&sheet).lines().filter(|line| line.starts_with("<tr><th>") && line.contains('·')).count();
        assert_eq!((lines, accepted), (shown, shown), "{name}");
    }
}

/// The tablets count pages by the bytes, and open some that file does not.
#[test]
fn the_old_sheet_has_pages_that_file_has_not() {
    let mut bytes = pages(4);
    leaf(&mut bytes, 3, &[row(1, 5)]);
    // A cell count whose pointers pass the end of the page.
    put(&mut bytes, 3 * 512, &[13, 0, 0, 1, 255, 0, 0, 0]);
    put(&mut bytes, 28, &[0, 0, 0, 2]);
    let (page, lines) = sheet(&["--reading=old"], &bytes);
    let refused =
        "<tr class=x><td colspan=3>Page 4, 3 on the tablets: no tablet showed any of it: the original refuses \
                   the page: 11 PointersPassEnd: the page's header or pointers pass its end.";
    assert_eq!(lines, ["<tr class=q><td colspan=3>Page 3, 2 on the tablets", "<tr><th>1<td>3·0<td>5", refused]);
    assert!(page.contains("<dt>Pages</dt><dd>4</dd>"));
    assert!(!sheet(&["--reading=file"], &bytes).0.contains("3·0"));
    // File refuses the whole database for its fractions.
    let mut bytes = two_rows();
    bytes[21] = 65;
    let (page, lines) = sheet(&["--reading=old"], &bytes);
    assert_eq!(lines.len(), 3);
    assert!(
        page.contains("The file reading refuses this database, so that no table is known: refused 7 (FractionsDiffer)")
    );
    let output = fed(&["sheet", "-"], &bytes);
    assert_eq!((out(&output), status(&output)), ("", 6));
}
