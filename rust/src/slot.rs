/// A place of a table of entries, as it is lent to an [`Exchange`](crate::Exchange): blank until a page call fills it.
// As the call for C has it.
#[repr(C)]
#[derive(Clone, Copy, Debug, Default, PartialEq, Eq)]
pub struct Slot {
    pub(crate) kind: u8,
    pub(crate) pointer: u32,
    pub(crate) child: u32,
    pub(crate) payload_size: u64,
    pub(crate) row: i64,
    pub(crate) header_size: u64,
    pub(crate) columns: usize,
}

impl Slot {
    /// Whether no page call has filled it.
    #[must_use]
    pub fn is_blank(&self) -> bool {
        // Every kind of page has a number of its own, and none has 0.
        self.kind == 0
    }
}
