//! The entry that tells why a segment starts at a corner; see the head of entries.rs.

use crate::rows::Contour;

#[repr(C)]
#[derive(Clone, Copy, Debug, PartialEq, Eq)]
pub(crate) struct WhyReport {
    pub number: u32,
    pub reasons: u32,
}

extern "C" {
    fn fontcrunch_why(
        xs: *const i16,
        xs_len: usize,
        ys: *const i16,
        ys_len: usize,
        flags: *const u8,
        flags_len: usize,
        k: usize,
    ) -> WhyReport;
}

pub(crate) fn why(contour: &Contour, index: usize) -> WhyReport {
    // SAFETY: each pointer is a slice's own, with its length; see the head of entries.rs.
    unsafe {
        fontcrunch_why(
            contour.xs.as_ptr(),
            contour.xs.len(),
            contour.ys.as_ptr(),
            contour.ys.len(),
            contour.flags.as_ptr(),
            contour.flags.len(),
            index,
        )
    }
}
