/// Where a row of a table stands, and its number: what the walk along a table tells of it.
// As the call for C has it: three words.
#[repr(C)]
#[derive(Clone, Copy, Debug, PartialEq, Eq, Hash)]
pub struct Place {
    page: i64,
    cell: i64,
    row: i64,
}

impl Place {
    #[cfg(test)]
    pub(crate) fn new(page: u32, cell: u16, row: i64) -> Place {
        Place { page: page.into(), cell: cell.into(), row }
    }

    /// The page's number, from 1 on.
    #[inline]
    #[must_use]
    pub fn page(&self) -> u32 {
        // It is proved that the page lies in the file: its number has 32 bits.
        self.page as u32
    }

    /// The cell's number on the page, from 0 on.
    #[inline]
    #[must_use]
    pub fn cell(&self) -> usize {
        self.cell as usize
    }

    /// The row number.
    #[inline]
    #[must_use]
    pub fn rowid(&self) -> i64 {
        self.row
    }
}
