//! The entry that writes out implied points; see the head of entries.rs.

use crate::rows::{Contour, PointRows};

#[repr(C)]
#[derive(Clone, Copy, Debug, PartialEq, Eq)]
pub(crate) struct ExplicitReport {
    pub number: u32,
    pub points: usize,
}

extern "C" {
    fn fontcrunch_explicit(
        xs: *const i16,
        xs_len: usize,
        ys: *const i16,
        ys_len: usize,
        flags: *const u8,
        flags_len: usize,
        ox: *mut i16,
        ox_len: usize,
        oy: *mut i16,
        oy_len: usize,
        of: *mut u8,
        of_len: usize,
    ) -> ExplicitReport;
}

pub(crate) fn explicit(contour: &Contour, out: &mut PointRows) -> ExplicitReport {
    // SAFETY: each pointer is a slice's own, with its length; see the head of entries.rs.
    unsafe {
        fontcrunch_explicit(
            contour.xs.as_ptr(),
            contour.xs.len(),
            contour.ys.as_ptr(),
            contour.ys.len(),
            contour.flags.as_ptr(),
            contour.flags.len(),
            out.xs.as_mut_ptr(),
            out.xs.len(),
            out.ys.as_mut_ptr(),
            out.ys.len(),
            out.flags.as_mut_ptr(),
            out.flags.len(),
        )
    }
}

#[cfg(test)]
mod tests;
