//! The top of the sheet: what the file is, how its rows stand, and how to read the tables.

use super::html;
use super::view::{Tally, View};
use crate::out::Out;
use crate::trees::{Tree, Trees};
use crate::words::{self, counted, grouped};
use shorgavel::{PageCount, Reading, Refusal};
use std::io::{self, Write};

const STYLE: &str = include_str!("style.css");
const LEGEND: &str = include_str!("legend.html");
const VALUES: &str = include_str!("values.html");

/// Of tables that are left out, so many are named: each has its own heading below.
const MOST: usize = 10;

pub struct Summary<'a> {
    pub name: &'a str,
    pub view: View,
    /// Whether one table alone was asked for.
    pub only: bool,
    pub page_size: u32,
    /// How many pages there are to show.
    pub pages: u32,
    /// How many pages the file has and are there, where not all are.
    pub cut: Option<PageCount>,
    /// The log beside the file.
    pub log: Option<&'a str>,
    /// Why file refuses a database that old shows.
    pub refused: Option<Refusal>,
    pub trees: &'a Trees,
    /// The rows of tables, and those of no table.
    pub tally: Tally,
    pub loose: Tally,
}

impl Summary<'_> {
    pub fn write(&self, out: &mut Out) -> io::Result<()> {
        out.text(b"<!doctype html>\n<html lang=\"en\">\n<head>\n<meta charset=\"utf-8\">\n");
        out.text(b"<meta name=\"viewport\" content=\"width=device-width, initial-scale=1\">\n<title>");
        html::text(out, self.name);
        let (title, kicker) = match self.view {
            View::One(reading) => (format!("{reading} reading"), format!("Gauge sheet, {reading} reading")),
            _ => ("three readings".to_string(), "Gauge sheet, three readings".to_string()),
        };
        write!(out, ": {title}</title>\n<style>\n{STYLE}</style>\n</head>\n<body>\n<header>\n")?;
        write!(out, "<p class=kicker>{kicker}</p>\n<h1>")?;
        html::text(out, self.name);
        out.text(b"</h1>\n");
        match self.view {
            View::One(reading) => self.banner(reading, out)?,
            View::Three | View::Parting => self.verdict(out)?,
        }
        self.notes(out)?;
        self.facts(out)?;
        out.text(b"<section class=legend>\n");
        out.text(if matches!(self.view, View::One(_)) { b"" } else { LEGEND.as_bytes() });
        out.text(VALUES.as_bytes());
        out.text(b"</section>\n</header>\n<main>\n");
        Ok(())
    }

    /// A sheet of one reading compares nothing, and has no verdict.
    fn banner(&self, reading: Reading, out: &mut Out) -> io::Result<()> {
        let (class, words) = match reading {
            Reading::Old => ("o", "what the tablets show, faults and all. The gauge may have written something else"),
            Reading::File => ("f", "what the gauge wrote. The tablets may show something else"),
            Reading::Guarded => ("g", "a row only where old and file agree"),
        };
        writeln!(out, "<p class=\"verdict {class}\">The {reading} reading alone: {words}.</p>")
    }

    fn verdict(&self, out: &mut Out) -> io::Result<()> {
        let Tally { rows, parted, refused, unshown_rows, .. } = self.tally;
        // Rows that are not known of are not said to agree.
        let all = !self.trees.is_partial() && self.cut.is_none();
        let (class, limit) = if all { ("ok", "") } else { ("none", " of those compared, which are not all") };
        let every = match (rows, refused) {
            (1, 0) => "the one row".to_string(),
            (_, 0) => format!("all {} rows", grouped(rows)),
            _ => "every row that they show".to_string(),
        };
        let (class, words) = match (rows, parted, unshown_rows) {
            (0, ..) => ("none", "There is no row of a table to compare.".to_string()),
            (_, 0, 0) => (class, format!("Old and file agree on {every}{limit}.")),
            (_, 0, _) => (
                "bad",
                format!("Old and file agree on {every}{limit}, cell by cell; but not all of them were on a tablet."),
            ),
            _ => (
                "bad",
                format!(
                    "The readings part on {} of {} rows: there the tablets need not show what the gauge wrote.",
                    grouped(parted),
                    grouped(rows)
                ),
            ),
        };
        writeln!(out, "<p class=\"verdict {class}\">{words}</p>")
    }

    /// What the rows below do not show.
    fn notes(&self, out: &mut Out) -> io::Result<()> {
        if let Some(PageCount { count, present }) = self.cut {
            let (present, count) = (grouped(present as usize), grouped(count as usize));
            writeln!(out, "<p class=\"note bad\">The file is cut: {present} of its {count} pages are there.</p>")?;
        }
        if let Some(log) = self.log {
            out.text(b"<p class=\"note bad\">The last writes are in ");
            html::text(out, log);
            out.text(b", beside the file: they are not read.</p>\n");
        }
        if let Some(refusal) = self.refused {
            let known = "so that no table is known";
            writeln!(out, "<p class=\"note bad\">The file reading refuses this database, {known}: {refusal}.</p>")?;
        }
        let Tally { unshown_pages, unshown_rows, .. } = self.tally;
        if unshown_pages > 0 {
            let (pages, rows) = (counted(unshown_pages, "page"), counted(unshown_rows, "row"));
            writeln!(
                out,
                "<p class=\"note bad\">The original refuses {pages} with {rows}: they were on no tablet.</p>"
            )?;
        }
        self.left_out("note bad", "refused, and ", true, out)?;
        self.left_out("note", "", false, out)?;
        if let (true, [tree]) = (self.only, &self.trees.tables[..]) {
            out.text(b"<p class=note>Only the table ");
            html::text(out, &words::plain(&tree.named.name));
            out.text(b" is on this sheet.</p>\n");
        }
        Ok(())
    }

    /// For example `2 tables are not compared: settings, far.`
    fn left_out(&self, class: &str, how: &str, fault: bool, out: &mut Out) -> io::Result<()> {
        let is = |tree: &&Tree| tree.leaves.as_ref().is_err_and(|why| why.is_fault() == fault);
        let names: Vec<&str> = self.trees.tables.iter().filter(is).map(|tree| tree.named.name.as_str()).collect();
        if names.is_empty() {
            return Ok(());
        }
        let (noun, verb) = (counted(names.len(), "table"), if names.len() == 1 { "is" } else { "are" });
        let work = if matches!(self.view, View::One(_)) { "shown" } else { "compared" };
        write!(out, "<p class=\"{class}\">{noun} {verb} {how}not {work}: ")?;
        let named: Vec<String> = names.iter().take(MOST).map(|name| words::plain(name)).collect();
        html::text(out, &named.join(", "));
        out.text(if names.len() > MOST { b" and others.</p>\n" } else { b".</p>\n" });
        Ok(())
    }

    fn facts(&self, out: &mut Out) -> io::Result<()> {
        let Tally { rows, parted, refused, unshown_rows, unshown_alike, .. } = self.tally;
        let mut facts = vec![
            ("Page size", self.page_size as usize),
            ("Pages", self.pages as usize),
            ("Tables", self.trees.tables.len()),
            ("Rows", rows),
        ];
        match self.view {
            View::One(Reading::Old) => facts.extend([("Of them on the tablets", rows - unshown_rows)]),
            View::One(_) => facts.extend([("Rows shown", rows - refused), ("Rows refused", refused)]),
            View::Three | View::Parting => {
                facts.push(("Rows that agree", rows - parted - refused - unshown_alike));
                facts.extend((unshown_alike > 0).then_some(("Rows alike, on no tablet", unshown_alike)));
                facts.extend([("Rows that part", parted), ("Rows refused by both", refused)]);
            }
        }
        facts.push(("Rows of no table", self.loose.rows));
        out.text(b"<dl>\n");
        for (name, number) in facts {
            writeln!(out, "<div><dt>{name}</dt><dd>{}</dd></div>", grouped(number))?;
        }
        out.text(b"</dl>\n");
        Ok(())
    }
}
