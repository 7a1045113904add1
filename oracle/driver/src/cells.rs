//! The four kinds of page and cell in one form, with 0 for what a kind lacks.

use sqlite_parser_nom::model::*;

pub struct PageView<'p> {
    /// The page's kind byte.
    pub kind: u8,
    pub freeblock: u16,
    pub count: u16,
    pub content: u32,
    pub fragmented: u8,
    pub rightmost: u32,
    pub pointers: &'p [u16],
    pub cells: Vec<CellView<'p>>,
}

pub struct CellView<'p> {
    pub child: u32,
    pub size: u64,
    /// The row number, the key, or the closing varint of an index cell.
    pub row: u64,
    pub header: u64,
    pub values: &'p [Option<Payload<'p>>],
}

pub fn view<'p>(page: &'p Page<'p>) -> PageView<'p> {
    match page {
        Page::InteriorIndex(p) => {
            let cells = p.cells.iter().map(interior_index).collect();
            interior(2, &p.header, &p.cell_pointers, cells)
        }
        Page::InteriorTable(p) => {
            let cells = p.cells.iter().map(interior_table).collect();
            interior(5, &p.header, &p.cell_pointers, cells)
        }
        Page::LeafIndex(p) => {
            let cells = p.cells.iter().map(leaf_index).collect();
            leaf(10, &p.header, &p.cell_pointers, cells)
        }
        Page::LeafTable(p) => {
            let cells = p.cells.iter().map(leaf_table).collect();
            leaf(13, &p.header, &p.cell_pointers, cells)
        }
    }
}

fn interior<'p>(
    kind: u8,
    header: &InteriorPageHeader,
    pointers: &'p [u16],
    cells: Vec<CellView<'p>>,
) -> PageView<'p> {
    PageView {
        kind,
        freeblock: header.first_freeblock_offset.unwrap_or(0),
        count: header.no_cells,
        content: header.cell_content_offset.real_offset(),
        fragmented: header.no_fragmented_bytes,
        rightmost: header.rightmost_pointer,
        pointers,
        cells,
    }
}

fn leaf<'p>(
    kind: u8,
    header: &LeafPageHeader,
    pointers: &'p [u16],
    cells: Vec<CellView<'p>>,
) -> PageView<'p> {
    PageView {
        kind,
        freeblock: header.first_freeblock_offset.unwrap_or(0),
        count: header.no_cells,
        content: header.cell_content_offset.real_offset(),
        fragmented: header.no_fragmented_bytes,
        rightmost: 0,
        pointers,
        cells,
    }
}

fn interior_index<'p>(cell: &'p InteriorIndexCell<'p>) -> CellView<'p> {
    index(cell.left_child_page_no, cell.payload_size, &cell.payload)
}

fn leaf_index<'p>(cell: &'p LeafIndexCell<'p>) -> CellView<'p> {
    index(0, cell.payload_size, &cell.payload)
}

fn index<'p>(child: u32, size: u64, payload: &'p IndexCellPayload<'p>) -> CellView<'p> {
    CellView {
        child,
        size,
        row: payload.rowid,
        header: payload.header_size,
        values: &payload.column_values,
    }
}

fn interior_table<'p>(cell: &'p InteriorTableCell) -> CellView<'p> {
    CellView {
        child: cell.left_child_page_no,
        size: 0,
        row: cell.integer_key,
        header: 0,
        values: &[],
    }
}

fn leaf_table<'p>(cell: &'p LeafTableCell<'p>) -> CellView<'p> {
    CellView {
        child: 0,
        size: cell.payload_size,
        row: cell.rowid,
        header: cell.payload.header_size,
        values: &cell.payload.column_values,
    }
}
