//! Stands in for doradb's row number: a u64 under another name.

#[derive(Clone, Copy)]
#[repr(transparent)]
pub(crate) struct RowID(pub(crate) u64);

impl RowID {
    #[inline]
    pub(crate) fn as_u64(self) -> u64 {
        self.0
    }
}

impl From<RowID> for u64 {
    #[inline]
    fn from(row: RowID) -> u64 {
        row.0
    }
}
