use crate::calls;
use crate::{Kind, Reading, Slot};

/// The head of a page.
#[derive(Clone, Copy, Debug, PartialEq, Eq)]
pub struct Head {
    /// The page's kind.
    pub kind: Kind,
    /// Where the first freeblock stands, if there is one.
    pub first_freeblock_offset: Option<u32>,
    /// How many cells there are.
    pub no_cells: usize,
    /// Where the cells' content starts, by its meaning: 65,536 where the field has 0.
    pub cell_content_offset: u32,
    /// How many fragmented bytes there are.
    pub no_fragmented_bytes: u32,
    /// The rightmost child of an interior page.
    pub rightmost_pointer: Option<u32>,
}

impl Head {
    pub(crate) fn of(head: &calls::Head) -> Head {
        let kind = Kind::of(head.kind);
        Head {
            kind,
            first_freeblock_offset: (head.first_freeblock != 0).then_some(head.first_freeblock),
            no_cells: head.cells,
            cell_content_offset: head.content_start,
            no_fragmented_bytes: head.fragmented,
            rightmost_pointer: kind.is_interior().then_some(head.rightmost),
        }
    }
}

/// What a page says of one of its cells. Nothing stands where a cell of the kind has no such thing.
#[derive(Clone, Copy, Debug, PartialEq, Eq)]
pub struct Entry {
    /// The page's kind.
    pub kind: Kind,
    /// Where the cell stands, from the page's first byte on.
    pub cell_pointer: u32,
    /// The child on the left, on interior pages.
    pub left_child_page_no: Option<u32>,
    /// The payload's size; an interior table has no payload.
    pub payload_size: Option<u64>,
    /// The row number, or the key on an interior table; an index has one in the old reading only.
    pub rowid: Option<i64>,
    /// The size of the record's header; an interior table has no record.
    pub header_size: Option<u64>,
    /// How many columns the record has.
    pub columns: usize,
}

impl Entry {
    pub(crate) fn of(reading: Reading, slot: &Slot) -> Entry {
        let kind = Kind::of(slot.kind);
        let has_record = kind != Kind::InteriorTable;
        let has_row = !kind.is_index() || reading == Reading::Old;
        Entry {
            kind,
            cell_pointer: slot.pointer,
            left_child_page_no: kind.is_interior().then_some(slot.child),
            payload_size: has_record.then_some(slot.payload_size),
            rowid: has_row.then_some(slot.row),
            header_size: has_record.then_some(slot.header_size),
            columns: slot.columns,
        }
    }
}
