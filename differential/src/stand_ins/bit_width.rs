//! `usize::bit_width`, which the original calls and the compiler in use has only as an
//! unstable method.

pub(crate) trait BitWidth {
    fn bit_width(self) -> u32;
}

impl BitWidth for usize {
    #[inline]
    fn bit_width(self) -> u32 {
        usize::BITS - self.leading_zeros()
    }
}
