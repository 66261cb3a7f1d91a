//! The two entries for idle controls; see the head of entries.rs. Their reports are those of cleaning.

use crate::entries::cleaning::{CleanReport, PutReport};
use crate::rows::{Contour, PointRows};

extern "C" {
    fn fontcrunch_drop_idle(
        xs: *const i16,
        xs_len: usize,
        ys: *const i16,
        ys_len: usize,
        flags: *const u8,
        flags_len: usize,
        ox: *mut i16,
        ox_len: usize,
        oy: *mut i16,
        oy_len: usize,
        of: *mut u8,
        of_len: usize,
        list: *mut [u32; 2],
        list_len: usize,
    ) -> CleanReport;

    fn fontcrunch_put_back_idle(
        xs: *const i16,
        xs_len: usize,
        ys: *const i16,
        ys_len: usize,
        flags: *const u8,
        flags_len: usize,
        list: *const [u32; 2],
        list_len: usize,
        ox: *mut i16,
        ox_len: usize,
        oy: *mut i16,
        oy_len: usize,
        of: *mut u8,
        of_len: usize,
    ) -> PutReport;
}

pub(crate) fn drop_idle(contour: &Contour, out: &mut PointRows, list: &mut [[u32; 2]]) -> CleanReport {
    // SAFETY: each pointer is a slice's own, with its length; see the head of entries.rs.
    unsafe {
        fontcrunch_drop_idle(
            contour.xs.as_ptr(),
            contour.xs.len(),
            contour.ys.as_ptr(),
            contour.ys.len(),
            contour.flags.as_ptr(),
            contour.flags.len(),
            out.xs.as_mut_ptr(),
            out.xs.len(),
            out.ys.as_mut_ptr(),
            out.ys.len(),
            out.flags.as_mut_ptr(),
            out.flags.len(),
            list.as_mut_ptr(),
            list.len(),
        )
    }
}

pub(crate) fn put_back_idle(contour: &Contour, list: &[[u32; 2]], out: &mut PointRows) -> PutReport {
    // SAFETY: each pointer is a slice's own, with its length; see the head of entries.rs.
    unsafe {
        fontcrunch_put_back_idle(
            contour.xs.as_ptr(),
            contour.xs.len(),
            contour.ys.as_ptr(),
            contour.ys.len(),
            contour.flags.as_ptr(),
            contour.flags.len(),
            list.as_ptr(),
            list.len(),
            out.xs.as_mut_ptr(),
            out.xs.len(),
            out.ys.as_mut_ptr(),
            out.ys.len(),
            out.flags.as_mut_ptr(),
            out.flags.len(),
        )
    }
}

#[cfg(test)]
mod tests;
