//! The cells of a page that the original refuses as a whole, each by itself.
//!
//! The original answers a page whole or not at all. So a cell is shown by a copy
//! of its page that has no other: the count is 1, and the first pointer is the
//! cell's own. All other bytes stay as they are.

use std::io::{self, Write};

use sqlite_parser_nom::Reader;

use crate::ask::ask;
use crate::cells::view;
use crate::values::{self, VARIANTS};

/// How many cells of a page are asked for, the first ones.
const MOST: usize = 64;

const HEADER: usize = 100;

/// One line for each cell of page `number`, where its head and pointers are
/// there. A cell that begins before the pointers' end is left out, as the copy
/// may have other bytes there.
pub fn print(out: &mut impl Write, bytes: &[u8], size: usize, number: u32) -> io::Result<()> {
    let page = match Page::find(bytes, size, number) {
        None => return Ok(()),
        Some(page) => page,
    };
    let mut copy = Copy::of(bytes, &page);
    let place = copy.number;
    for (index, pointer) in page.pointers.iter().take(MOST).enumerate() {
        if usize::from(*pointer) >= page.end {
            write!(out, "alone {number} {index}")?;
            print_cell(out, copy.with(*pointer), place)?;
        }
    }
    Ok(())
}

fn print_cell(out: &mut impl Write, copy: &[u8], number: u32) -> io::Result<()> {
    let reader = Reader::from_source(copy);
    let reader = reader.unwrap_or_else(|_| panic!("the copy has the database's header"));
    let page = match ask(|| reader.get_page(number)) {
        Err(refusal) => return writeln!(out, " refused {refusal}"),
        Ok(page) => page,
    };
    let page = view(&page);
    let cell = &page.cells[0];
    write!(out, " {} {}", cell.row, cell.values.len())?;
    values::print_all(out, &VARIANTS, cell.values)
}

/// A page with a head and pointers.
struct Page<'b> {
    bytes: &'b [u8],
    /// Where its header stands.
    from: usize,
    /// Where its pointers begin, and where they end.
    first: usize,
    end: usize,
    pointers: Vec<u16>,
}

impl Page<'_> {
    fn find(bytes: &[u8], size: usize, number: u32) -> Option<Page> {
        let at = size * number as usize;
        let bytes = bytes.get(at..at + size)?;
        let from = if number == 0 { HEADER } else { 0 };
        let first = match bytes.get(from)? {
            2 | 5 => from + 12,
            10 | 13 => from + 8,
            _ => return None,
        };
        let count = u16::from_be_bytes([*bytes.get(from + 3)?, *bytes.get(from + 4)?]);
        let end = first + 2 * usize::from(count);
        let pointers = bytes.get(first..end)?.chunks(2);
        Some(Page {
            bytes,
            from,
            first,
            end,
            pointers: pointers.map(|p| u16::from_be_bytes([p[0], p[1]])).collect(),
        })
    }
}

/// A database that has the header and one page of another.
struct Copy {
    bytes: Vec<u8>,
    /// The page's number in it. The first page has the header itself; any other
    /// one is put behind it, as a small page could lie within it.
    number: u32,
    /// Where its first pointer stands.
    first: usize,
}

impl Copy {
    fn of(bytes: &[u8], page: &Page) -> Copy {
        let size = page.bytes.len();
        let number = if page.from == HEADER {
            0
        } else {
            (HEADER - 1) / size + 1
        };
        let at = number * size;
        let mut copy = bytes[..HEADER.min(at)].to_vec();
        copy.resize(at, 0);
        copy.extend(page.bytes);
        copy[at + page.from + 3..][..2].copy_from_slice(&[0, 1]);
        Copy {
            bytes: copy,
            number: u32::try_from(number).expect("at most 100"),
            first: at + page.first,
        }
    }

    /// Its bytes, with this pointer.
    fn with(&mut self, pointer: u16) -> &[u8] {
        self.bytes[self.first..][..2].copy_from_slice(&pointer.to_be_bytes());
        &self.bytes
    }
}
