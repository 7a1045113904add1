//! Everything the original shows of one database, one line a thing.

use std::io::{self, Write};

use sqlite_parser_nom::model::{DbHeader, TextEncoding};
use sqlite_parser_nom::Reader;

use crate::alone;
use crate::ask::ask;
use crate::cells::{view, CellView, PageView};
use crate::values::{self, VARIANTS};

/// All pages of a database.
pub fn print(out: &mut impl Write, index: usize, bytes: &[u8]) -> io::Result<()> {
    match open(out, index, bytes)? {
        None => Ok(()),
        Some(reader) => {
            let last = last_page(bytes.len(), reader.header.page_size.real_size());
            print_pages(out, bytes, &reader, 0..=last)
        }
    }
}

/// The pages asked for, of a database that has too many to show them all.
pub fn print_some(out: &mut impl Write, bytes: &[u8], numbers: &[u32]) -> io::Result<()> {
    match open(out, 0, bytes)? {
        None => Ok(()),
        Some(reader) => print_pages(out, bytes, &reader, numbers.iter().copied()),
    }
}

/// The lines before the pages, and the reader where the header is accepted.
fn open<'b>(
    out: &mut impl Write,
    index: usize,
    bytes: &'b [u8],
) -> io::Result<Option<Reader<&'b [u8]>>> {
    writeln!(out, "db {index} {}", bytes.len())?;
    match ask(|| Reader::from_source(bytes)) {
        Err(refusal) => {
            writeln!(out, "header refused {refusal}")?;
            Ok(None)
        }
        Ok(reader) => {
            print_header(out, &reader.header)?;
            Ok(Some(reader))
        }
    }
}

fn print_pages(
    out: &mut impl Write,
    bytes: &[u8],
    reader: &Reader<&[u8]>,
    numbers: impl Iterator<Item = u32>,
) -> io::Result<()> {
    let size = reader.header.page_size.real_size();
    for number in numbers {
        if !print_page(out, reader, number)? {
            alone::print(out, bytes, size, number)?;
        }
    }
    Ok(())
}

/// The page behind the last whole one is asked for too: its refusal belongs to
/// the answers. Pages of no bytes have no last one; 0 and 1 stand for all.
fn last_page(length: usize, size: usize) -> u32 {
    let last = length.checked_div(size).unwrap_or(1);
    u32::try_from(last).expect("a database in a stream has at most 2^31 pages")
}

fn print_header(out: &mut impl Write, h: &DbHeader) -> io::Result<()> {
    let encoding = match h.db_text_encoding {
        TextEncoding::Utf8 => 1,
        TextEncoding::Utf16Le => 2,
        TextEncoding::Utf16Be => 3,
    };
    let fields = [
        u32::try_from(h.page_size.real_size()).expect("at most 65536"),
        h.write_version.into(),
        h.read_version.into(),
        h.max_payload_fraction.into(),
        h.min_payload_fraction.into(),
        h.leaf_payload_fraction.into(),
        h.file_change_counter,
        h.db_size,
        h.first_freelist_page_no,
        h.total_freelist_pages,
        h.schema_cookie,
        h.schema_format_no,
        h.default_page_cache_size,
        h.no_largest_root_b_tree,
        encoding,
        h.user_version,
        h.incremental_vacuum_mode,
        h.application_id,
        h.version_valid_for_no,
        h.sqlite_version_number,
    ];
    write!(out, "header")?;
    fields
        .iter()
        .try_for_each(|field| write!(out, " {field}"))?;
    writeln!(out)
}

/// Answers whether the original shows the page.
fn print_page(out: &mut impl Write, reader: &Reader<&[u8]>, number: u32) -> io::Result<bool> {
    let page = match ask(|| reader.get_page(number)) {
        Err(refusal) => {
            writeln!(out, "page {number} refused {refusal}")?;
            return Ok(false);
        }
        Ok(page) => page,
    };
    let page = view(&page);
    print_head(out, number, &page)?;
    let cells = page.cells.iter().zip(page.pointers).enumerate();
    for (index, (cell, pointer)) in cells {
        print_cell(out, index, page.kind, *pointer, cell)?;
    }
    Ok(true)
}

fn print_head(out: &mut impl Write, number: u32, page: &PageView) -> io::Result<()> {
    let (kind, freeblock, count) = (page.kind, page.freeblock, page.count);
    let (content, fragmented, rightmost) = (page.content, page.fragmented, page.rightmost);
    writeln!(
        out,
        "page {number} {kind} {freeblock} {count} {content} {fragmented} {rightmost}"
    )
}

fn print_cell(
    out: &mut impl Write,
    index: usize,
    kind: u8,
    pointer: u16,
    cell: &CellView,
) -> io::Result<()> {
    let (child, size, row, header) = (cell.child, cell.size, cell.row, cell.header);
    let columns = cell.values.len();
    write!(
        out,
        "cell {index} {kind} {pointer} {child} {size} {row} {header} {columns}"
    )?;
    values::print_all(out, &VARIANTS, cell.values)
}
