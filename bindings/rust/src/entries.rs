//! The library's entries, each called in one place: those for crunching here, the others in `cleaning`, `cubics`, `editions`, `explicit`,
//! `glif`, `glyph`, `idle` and `reasons`.
//!
//! The entries ask only that a row that is written overlaps no other, and that pointers are aligned and not
//! null. Rust's slices are so, empty ones too, and those lent by `&mut` are apart from all others. So these
//! functions are safe for every row: of what is in it, and how long it is, nothing is asked.

pub(crate) mod cleaning;
pub(crate) mod cubics;
pub(crate) mod editions;
pub(crate) mod explicit;
pub(crate) mod glif;
pub(crate) mod glyph;
pub(crate) mod idle;
pub(crate) mod reasons;

use crate::rows::{ChainRows, Contour, Output, Scratch};
use crate::settings::Settings;

/// What `fontcrunch_crunch` says; the names are those of include/fontcrunch.h.
#[repr(C)]
#[derive(Clone, Copy, Debug, PartialEq, Eq)]
pub(crate) struct CrunchReport {
    pub number: u32,
    pub points: usize,
    pub pairs: usize,
    pub fallen: usize,
}

#[repr(C)]
#[derive(Clone, Copy, Debug, PartialEq, Eq)]
pub(crate) struct ChainReport {
    pub number: u32,
    pub pieces: usize,
    pub pairs: usize,
    pub score_bits: u64,
    pub fallen: usize,
}

#[repr(C)]
#[derive(Clone, Copy, Debug, PartialEq, Eq)]
pub(crate) struct CheckReport {
    pub number: u32,
    pub accepted: u32,
    pub fallen: usize,
}

extern "C" {
    fn fontcrunch_crunch(
        xs: *const i16,
        xs_len: usize,
        ys: *const i16,
        ys_len: usize,
        flags: *const u8,
        flags_len: usize,
        penalty: u32,
        whole_units: u32,
        closed: u32,
        ox: *mut i16,
        ox_len: usize,
        oy: *mut i16,
        oy_len: usize,
        of: *mut u8,
        of_len: usize,
        samples: *mut [f64; 4],
        samples_len: usize,
        breaks: *mut [f64; 6],
        breaks_len: usize,
        answers: *mut [f64; 3],
        answers_len: usize,
        links: *mut u32,
        links_len: usize,
        points: *mut [i16; 3],
        points_len: usize,
    ) -> CrunchReport;

    fn fontcrunch_chain(
        xs: *const i16,
        xs_len: usize,
        ys: *const i16,
        ys_len: usize,
        flags: *const u8,
        flags_len: usize,
        k: usize,
        penalty: u32,
        whole_units: u32,
        closed: u32,
        starts: *mut u32,
        starts_len: usize,
        ends: *mut u32,
        ends_len: usize,
        cxs: *mut f64,
        cxs_len: usize,
        cys: *mut f64,
        cys_len: usize,
        spans: *mut [u32; 2],
        spans_len: usize,
        samples: *mut [f64; 4],
        samples_len: usize,
        breaks: *mut [f64; 6],
        breaks_len: usize,
        answers: *mut [f64; 3],
        answers_len: usize,
        links: *mut u32,
        links_len: usize,
    ) -> ChainReport;

    fn fontcrunch_check(
        xs: *const i16,
        xs_len: usize,
        ys: *const i16,
        ys_len: usize,
        flags: *const u8,
        flags_len: usize,
        k: usize,
        penalty: u32,
        whole_units: u32,
        closed: u32,
        starts: *const u32,
        starts_len: usize,
        ends: *const u32,
        ends_len: usize,
        cxs: *const f64,
        cxs_len: usize,
        cys: *const f64,
        cys_len: usize,
        score: f64,
        samples: *mut [f64; 4],
        samples_len: usize,
        breaks: *mut [f64; 6],
        breaks_len: usize,
        answers: *mut [f64; 3],
        answers_len: usize,
        links: *mut u32,
        links_len: usize,
    ) -> CheckReport;
}

#[rustfmt::skip] // a row to a line
pub(crate) fn crunch(
    contour: &Contour,
    settings: Settings,
    out: &mut Output,
    scratch: &mut Scratch,
) -> CrunchReport {
    // SAFETY: each pointer is a slice's own, with its length; see the head of this file.
    unsafe {
        fontcrunch_crunch(
            contour.xs.as_ptr(), contour.xs.len(),
            contour.ys.as_ptr(), contour.ys.len(),
            contour.flags.as_ptr(), contour.flags.len(),
            settings.penalty,
            u32::from(settings.whole_units),
            u32::from(settings.closed),
            out.xs.as_mut_ptr(), out.xs.len(),
            out.ys.as_mut_ptr(), out.ys.len(),
            out.flags.as_mut_ptr(), out.flags.len(),
            scratch.samples.as_mut_ptr(), scratch.samples.len(),
            scratch.breaks.as_mut_ptr(), scratch.breaks.len(),
            scratch.answers.as_mut_ptr(), scratch.answers.len(),
            scratch.links.as_mut_ptr(), scratch.links.len(),
            out.points.as_mut_ptr(), out.points.len(),
        )
    }
}

#[rustfmt::skip] // a row to a line
pub(crate) fn chain(
    contour: &Contour,
    run: usize,
    settings: Settings,
    chain: &mut ChainRows,
    scratch: &mut Scratch,
) -> ChainReport {
    // SAFETY: each pointer is a slice's own, with its length; see the head of this file.
    unsafe {
        fontcrunch_chain(
            contour.xs.as_ptr(), contour.xs.len(),
            contour.ys.as_ptr(), contour.ys.len(),
            contour.flags.as_ptr(), contour.flags.len(),
            run,
            settings.penalty,
            u32::from(settings.whole_units),
            u32::from(settings.closed),
            chain.starts.as_mut_ptr(), chain.starts.len(),
            chain.ends.as_mut_ptr(), chain.ends.len(),
            chain.xs.as_mut_ptr(), chain.xs.len(),
            chain.ys.as_mut_ptr(), chain.ys.len(),
            chain.spans.as_mut_ptr(), chain.spans.len(),
            scratch.samples.as_mut_ptr(), scratch.samples.len(),
            scratch.breaks.as_mut_ptr(), scratch.breaks.len(),
            scratch.answers.as_mut_ptr(), scratch.answers.len(),
            scratch.links.as_mut_ptr(), scratch.links.len(),
        )
    }
}

#[rustfmt::skip] // a row to a line
pub(crate) fn check(
    contour: &Contour,
    run: usize,
    settings: Settings,
    chain: &ChainRows,
    score: f64,
    scratch: &mut Scratch,
) -> CheckReport {
    // SAFETY: each pointer is a slice's own, with its length; see the head of this file.
    unsafe {
        fontcrunch_check(
            contour.xs.as_ptr(), contour.xs.len(),
            contour.ys.as_ptr(), contour.ys.len(),
            contour.flags.as_ptr(), contour.flags.len(),
            run,
            settings.penalty,
            u32::from(settings.whole_units),
            u32::from(settings.closed),
            chain.starts.as_ptr(), chain.starts.len(),
            chain.ends.as_ptr(), chain.ends.len(),
            chain.xs.as_ptr(), chain.xs.len(),
            chain.ys.as_ptr(), chain.ys.len(),
            score,
            scratch.samples.as_mut_ptr(), scratch.samples.len(),
            scratch.breaks.as_mut_ptr(), scratch.breaks.len(),
            scratch.answers.as_mut_ptr(), scratch.answers.len(),
            scratch.links.as_mut_ptr(), scratch.links.len(),
        )
    }
}

#[cfg(test)]
mod tests;
