//! `Cell::shortest`, on cells worked by hand: tests/c/shortest.c has them one varint by another.

mod common;

use common::{long_notes, pages, put};
use shorgavel::Reading::{self, File, Guarded, Old};
use shorgavel::{Gauge, Notes};

/// Page 2, of that kind, has one cell, which ends with the page.
fn with(kind: u8, cell: &[u8]) -> Vec<u8> {
    let mut bytes = pages(2);
    let (at, pointer) = (512 - cell.len(), if kind < 10 { 12 } else { 8 });
    put(&mut bytes, 512, &[kind, 0, 0, 0, 1]);
    put(&mut bytes, 512 + pointer, &(at as u16).to_be_bytes());
    put(&mut bytes, 512 + at, cell);
    bytes
}

/// What old, file and guarded tell; none where the page or the cell is refused.
fn told(kind: u8, cell: &[u8]) -> [Option<bool>; 3] {
    let bytes = with(kind, cell);
    Reading::ALL.map(|reading| {
        let page = Gauge::new(&bytes).get_page(reading, 1 + reading.first_page());
        page.and_then(|page| page.cell(0)).ok().and_then(|cell| cell.shortest())
    })
}

const YES: Option<bool> = Some(true);
const NO: Option<bool> = Some(false);

#[test]
fn cells_of_table_leaves() {
    assert_eq!(told(13, &[3, 5, 2, 1, 7]), [YES, YES, YES]);
    // Payload size, row number and type in two bytes.
    assert_eq!(told(13, &[0x80, 3, 5, 2, 1, 7]), [NO, NO, NO]);
    assert_eq!(told(13, &[3, 0x80, 5, 2, 1, 7]), [NO, NO, NO]);
    assert_eq!(told(13, &[4, 5, 3, 0x80, 1, 7]), [NO, NO, NO]);
    // A header size in two bytes is a mark.
    assert_eq!(told(13, &[2, 5, 0x80, 2, 8]), [NO, NO, None]);
    // A type 9 is one too, and is read by the other two.
    assert_eq!(told(13, &[2, 5, 2, 9]), [YES, YES, None]);
    // Nine bytes from 2^56 on.
    assert_eq!(told(13, &[3, 0x80, 0xc0, 0x80, 0x80, 0x80, 0x80, 0x80, 0x80, 0, 2, 1, 7]), [None, YES, None]);
    assert_eq!(told(13, &[3, 0x80, 0xbf, 255, 255, 255, 255, 255, 255, 255, 2, 1, 7]), [None, NO, None]);
}

/// Old alone takes a varint behind the record of an index cell.
#[test]
fn cells_of_other_pages() {
    assert_eq!(told(10, &[3, 2, 1, 7, 5]), [YES, YES, None]);
    assert_eq!(told(10, &[3, 2, 1, 7, 0x80, 5]), [NO, YES, None]);
    assert_eq!(told(2, &[0x80, 0x80, 0x80, 0x80, 3, 2, 1, 7, 0x80, 5]), [NO, YES, None]);
    assert_eq!(told(5, &[0x80, 0x80, 0x80, 0x80, 5]), [YES, YES, None]);
    assert_eq!(told(5, &[0, 0, 0, 9, 0x80, 5]), [NO, NO, None]);
}

/// Rows 1, 2 and 4 spill. Old takes them for whole; of file's, put together in notes, nothing is told.
#[test]
fn notes_are_not_told() {
    let (bytes, mut notes) = (long_notes(), Notes::new());
    let gauge = Gauge::new(&bytes);
    let page = gauge.get_page(File, 2).unwrap();
    let lent: Vec<_> = (0..4).map(|cell| page.cell_with(cell, &mut notes).unwrap().shortest()).collect();
    assert_eq!(lent, [None, None, YES, None]);
    assert_eq!(gauge.get_page(Old, 1).unwrap().cell_with(3, &mut notes).unwrap().shortest(), YES);
    assert_eq!(gauge.get_page(Guarded, 2).unwrap().cell_with(2, &mut notes).unwrap().shortest(), YES);
}

/// A cell that is kept, copied or come by along the rows of a table is asked where it stands.
#[test]
fn every_way_to_a_cell() {
    let mut bytes = pages(2);
    put(&mut bytes, 512, &[13, 0, 0, 0, 2, 0, 0, 0, 1, 251, 1, 245]);
    put(&mut bytes, 512 + 501, &[3, 0x80, 6, 2, 1, 7, 3, 5, 2, 1, 7]);
    let gauge = Gauge::new(&bytes);
    for reading in Reading::ALL {
        let kept: Vec<_> = gauge.rows(reading).unwrap().map(|row| row.shown.unwrap()).collect();
        assert_eq!(kept.iter().map(|cell| cell.clone().shortest()).collect::<Vec<_>>(), [YES, NO]);
        let table = gauge.table(2).unwrap();
        let walked = table.rows(reading).map(|row| row.shown.unwrap().shortest());
        assert_eq!(walked.collect::<Vec<_>>(), [YES, NO]);
    }
}
