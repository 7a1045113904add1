//! The lines of the old reading, in the form of the program `rows`.

use std::io::{self, Write};

use sqlite_parser_nom::Reader;

use crate::ask::ask;
use crate::cells::{view, CellView};
use crate::values::{self, PLAIN};

const TABLE_LEAF: u8 = 13;

pub fn print(out: &mut impl Write, bytes: &[u8]) -> io::Result<()> {
    let reader = match ask(|| Reader::from_source(bytes)) {
        Err(_) => return writeln!(out, "refused"),
        Ok(reader) => reader,
    };
    let size = reader.header.page_size.real_size();
    if size == 0 {
        // Pages of no bytes have no kind, so none of them is a table leaf.
        return Ok(());
    }
    for (number, page) in (0..).zip(bytes.chunks_exact(size)) {
        if kind_of(number, page) == Some(TABLE_LEAF) {
            print_page(out, &reader, number)?;
        }
    }
    Ok(())
}

/// The kind byte itself: a page that the original refuses shows none.
fn kind_of(number: u32, page: &[u8]) -> Option<u8> {
    let place = if number == 0 { 100 } else { 0 };
    page.get(place).copied()
}

fn print_page(out: &mut impl Write, reader: &Reader<&[u8]>, number: u32) -> io::Result<()> {
    let shown = number + 1;
    match ask(|| reader.get_page(number)) {
        Err(_) => writeln!(out, "{shown} refused"),
        Ok(page) => {
            for (index, cell) in view(&page).cells.iter().enumerate() {
                print_cell(out, shown, index, cell)?;
            }
            Ok(())
        }
    }
}

fn print_cell(out: &mut impl Write, page: u32, index: usize, cell: &CellView) -> io::Result<()> {
    write!(out, "{page} {index} old {}", cell.row)?;
    values::print_all(out, &PLAIN, cell.values)
}
