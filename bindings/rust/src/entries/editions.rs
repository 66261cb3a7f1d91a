//! The entry that crunches a contour into two editions; see the head of entries.rs.

use crate::entries::CrunchReport;
use crate::rows::{Contour, Output, OwnRows, Scratch};
use crate::settings::Settings;

/// What `fontcrunch_editions` says of each edition.
#[repr(C)]
#[derive(Clone, Copy, Debug, PartialEq, Eq)]
pub(crate) struct EditionsReport {
    pub a: CrunchReport,
    pub b: CrunchReport,
}

extern "C" {
    fn fontcrunch_editions(
        xs: *const i16,
        xs_len: usize,
        ys: *const i16,
        ys_len: usize,
        flags: *const u8,
        flags_len: usize,
        penalty_a: u32,
        penalty_b: u32,
        whole_units: u32,
        closed: u32,
        samples: *mut [f64; 4],
        samples_len: usize,
        breaks: *mut [f64; 6],
        breaks_len: usize,
        answers_a: *mut [f64; 3],
        answers_a_len: usize,
        links_a: *mut u32,
        links_a_len: usize,
        points_a: *mut [i16; 3],
        points_a_len: usize,
        ox_a: *mut i16,
        ox_a_len: usize,
        oy_a: *mut i16,
        oy_a_len: usize,
        of_a: *mut u8,
        of_a_len: usize,
        answers_b: *mut [f64; 3],
        answers_b_len: usize,
        links_b: *mut u32,
        links_b_len: usize,
        points_b: *mut [i16; 3],
        points_b_len: usize,
        ox_b: *mut i16,
        ox_b_len: usize,
        oy_b: *mut i16,
        oy_b_len: usize,
        of_b: *mut u8,
        of_b_len: usize,
    ) -> EditionsReport;
}

/// Edition A works in the cruncher's own rows, at its settings; edition B has its penalty and rows beside them.
#[rustfmt::skip] // a row to a line
pub(crate) fn editions(
    contour: &Contour,
    settings: Settings,
    penalty_b: u32,
    scratch: &mut Scratch,
    out_a: &mut Output,
    own_b: &mut OwnRows,
    out_b: &mut Output,
) -> EditionsReport {
    // SAFETY: each pointer is a slice's own, with its length; see the head of entries.rs.
    unsafe {
        fontcrunch_editions(
            contour.xs.as_ptr(), contour.xs.len(),
            contour.ys.as_ptr(), contour.ys.len(),
            contour.flags.as_ptr(), contour.flags.len(),
            settings.penalty,
            penalty_b,
            u32::from(settings.whole_units),
            u32::from(settings.closed),
            scratch.samples.as_mut_ptr(), scratch.samples.len(),
            scratch.breaks.as_mut_ptr(), scratch.breaks.len(),
            scratch.answers.as_mut_ptr(), scratch.answers.len(),
            scratch.links.as_mut_ptr(), scratch.links.len(),
            out_a.points.as_mut_ptr(), out_a.points.len(),
            out_a.xs.as_mut_ptr(), out_a.xs.len(),
            out_a.ys.as_mut_ptr(), out_a.ys.len(),
            out_a.flags.as_mut_ptr(), out_a.flags.len(),
            own_b.answers.as_mut_ptr(), own_b.answers.len(),
            own_b.links.as_mut_ptr(), own_b.links.len(),
            out_b.points.as_mut_ptr(), out_b.points.len(),
            out_b.xs.as_mut_ptr(), out_b.xs.len(),
            out_b.ys.as_mut_ptr(), out_b.ys.len(),
            out_b.flags.as_mut_ptr(), out_b.flags.len(),
        )
    }
}
