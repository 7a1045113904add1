//! `page`: the head of a page and the entries of its cells.

use crate::failure::Failure;
use crate::input::Database;
use crate::out::Out;
use crate::words::grouped;
use shorgavel::{Entry, Gauge, PageCount, Reading, Refusal};
use std::fmt::Display;
use std::io::{self, Write};

/// The number of a refusal: there is no such page, or it is not wholly there.
const ABSENT: u8 = 8;

pub fn show(database: &Database, number: u32, reading: Reading, out: &mut Out) -> Result<(), Failure> {
    let gauge = database.gauge()?;
    let page = gauge.get_page(reading, number).map_err(|refusal| refused(gauge, reading, refusal))?;
    let head = page.head()?;
    writeln!(out, "page {number}, {reading} reading")?;
    writeln!(out, "{:24}{} ({})", "kind", head.kind.number(), head.kind)?;
    writeln!(out, "{:24}{}", "first_freeblock_offset", word(head.first_freeblock_offset))?;
    writeln!(out, "{:24}{}", "no_cells", head.no_cells)?;
    writeln!(out, "{:24}{}", "cell_content_offset", head.cell_content_offset)?;
    writeln!(out, "{:24}{}", "no_fragmented_bytes", head.no_fragmented_bytes)?;
    writeln!(out, "{:24}{}", "rightmost_pointer", word(head.rightmost_pointer))?;
    let entries = page.entries()?;
    if !entries.is_empty() {
        writeln!(out, "\n cell  pointer      child  payload_size                 rowid  header_size  columns")?;
    }
    for (cell, entry) in entries.iter().enumerate() {
        line(out, cell, entry)?;
        out.pass()?;
    }
    Ok(())
}

/// Who asks for a page that is not there is told which are.
fn refused(gauge: Gauge<'_>, reading: Reading, refusal: Refusal) -> Failure {
    match gauge.page_count(reading) {
        Ok(pages) if refusal.number() == ABSENT => Failure::Absent(refusal, range(pages, reading.first_page())),
        _ => refusal.into(),
    }
}

/// For example `there are 8 pages, 1 to 8`.
fn range(pages: PageCount, first: u32) -> String {
    let PageCount { count, present } = pages;
    let (all, there) = (grouped(count as usize), grouped(present as usize));
    let last = (u64::from(first) + u64::from(present)).saturating_sub(1);
    match (present, count) {
        (0, _) => "no page is wholly there".to_string(),
        (1, 1) => format!("there is 1 page, {first}"),
        (1, _) if present < count => format!("1 of its {all} pages is there, {first}"),
        _ if present < count => format!("{there} of its {all} pages are there, {first} to {last}"),
        _ => format!("there are {there} pages, {first} to {last}"),
    }
}

fn line(out: &mut Out, cell: usize, entry: &Entry) -> io::Result<()> {
    let (child, payload) = (word(entry.left_child_page_no), word(entry.payload_size));
    let (rowid, size) = (word(entry.rowid), word(entry.header_size));
    let (pointer, columns) = (entry.cell_pointer, entry.columns);
    writeln!(out, "{cell:5}{pointer:9}{child:>11}{payload:>14}{rowid:>22}{size:>13}{columns:9}")
}

/// A dash where there is no such thing.
fn word<T: Display>(number: Option<T>) -> String {
    number.map_or("-".to_string(), |number| number.to_string())
}
