//! The entry that crunches a file of GLIF; see the head of entries.rs.

use crate::rows::{GlifRows, Output, Scratch};
use crate::settings::Settings;

#[repr(C)]
#[derive(Clone, Copy, Debug, PartialEq, Eq)]
pub(crate) struct GlifWriteReport {
    pub number: u32,
    pub bytes: usize,
}

extern "C" {
    fn fontcrunch_crunch_glif(
        bytes: *const u8,
        bytes_len: usize,
        penalty: u32,
        whole_units: u32,
        closed: u32,
        out: *mut u8,
        out_len: usize,
        ends: *mut u16,
        ends_len: usize,
        xs: *mut i16,
        xs_len: usize,
        ys: *mut i16,
        ys_len: usize,
        flags: *mut u8,
        flags_len: usize,
        marks: *mut [usize; 3],
        marks_len: usize,
        samples: *mut [f64; 4],
        samples_len: usize,
        breaks: *mut [f64; 6],
        breaks_len: usize,
        answers: *mut [f64; 3],
        answers_len: usize,
        links: *mut u32,
        links_len: usize,
        points: *mut [i16; 3],
        points_len: usize,
    ) -> GlifWriteReport;
}

pub(crate) fn crunch_glif(
    bytes: &[u8],
    settings: Settings,
    out: &mut [u8],
    file: &mut GlifRows,
    rows: &mut Output,
    scratch: &mut Scratch,
) -> GlifWriteReport {
    // SAFETY: each pointer is a slice's own, with its length; see the head of entries.rs.
    unsafe {
        fontcrunch_crunch_glif(
            bytes.as_ptr(),
            bytes.len(),
            settings.penalty,
            u32::from(settings.whole_units),
            u32::from(settings.closed),
            out.as_mut_ptr(),
            out.len(),
            file.ends.as_mut_ptr(),
            file.ends.len(),
            rows.xs.as_mut_ptr(),
            rows.xs.len(),
            rows.ys.as_mut_ptr(),
            rows.ys.len(),
            rows.flags.as_mut_ptr(),
            rows.flags.len(),
            file.marks.as_mut_ptr(),
            file.marks.len(),
            scratch.samples.as_mut_ptr(),
            scratch.samples.len(),
            scratch.breaks.as_mut_ptr(),
            scratch.breaks.len(),
            scratch.answers.as_mut_ptr(),
            scratch.answers.len(),
            scratch.links.as_mut_ptr(),
            scratch.links.len(),
            rows.points.as_mut_ptr(),
            rows.points.len(),
        )
    }
}
