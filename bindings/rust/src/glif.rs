//! UFO's GLIF: the outline of a file, read into contours, and other contours written into the file. `docs/GLIF.md`
//! says what is read.
//!
//! ```
//! use fontcrunch::{glif, Point};
//!
//! let file = br#"<glyph name="a"><outline><contour>
//!     <point x="0" y="0"/><point x="5" y="0"/><point x="5" y="9" type="qcurve"/>
//! </contour></outline></glyph>"#;
//! // from the first on-curve point on, with the middle of two off-curve ones, halves away from zero
//! let contour = [Point::on(5, 9), Point::off(0, 0), Point::on(3, 0), Point::off(5, 0)];
//! assert_eq!(glif::read(file)?, [contour]);
//!
//! // everything but the insides of the contours is kept byte for byte
//! let written = glif::write(file, &[vec![Point::on(1, 2)]])?;
//! let text = br#"<glyph name="a"><outline><contour><point x="1" y="2" type="line"/></contour></outline></glyph>"#;
//! assert_eq!(written, text);
//! # Ok::<(), fontcrunch::Refusal>(())
//! ```

use crate::cruncher::{Cruncher, Point};
use crate::entries;
use crate::entries::glif::GlifWriteReport;
use crate::refusal::Refusal;
use crate::rows::{GlifRows, Output};

#[repr(C)]
struct GlifReadReport {
    number: u32,
    contours: usize,
    points: usize,
}

extern "C" {
    fn fontcrunch_read_glif(
        bytes: *const u8,
        bytes_len: usize,
        ends: *mut u16,
        ends_len: usize,
        xs: *mut i16,
        xs_len: usize,
        ys: *mut i16,
        ys_len: usize,
        flags: *mut u8,
        flags_len: usize,
        points: *mut [usize; 3],
        points_len: usize,
    ) -> GlifReadReport;

    fn fontcrunch_write_glif(
        bytes: *const u8,
        bytes_len: usize,
        ends: *const u16,
        ends_len: usize,
        xs: *const i16,
        xs_len: usize,
        ys: *const i16,
        ys_len: usize,
        flags: *const u8,
        flags_len: usize,
        out: *mut u8,
        out_len: usize,
    ) -> GlifWriteReport;
}

/// The shortest text of a contour with a point is longer than this, and so is that of a point.
const LEAST_TEXT: usize = 16;

/// More points than ends of 16 bits can tell are refused by 14, before any row is looked at.
const MOST_POINTS: usize = 65_536;

/// Reads the contours of a file.
///
/// Refused, each over the whole file before the next: [`Malformed`](Refusal::Malformed),
/// [`CubicOrOpen`](Refusal::CubicOrOpen), [`TooLarge`](Refusal::TooLarge) (a coordinate outside 16 bits, or more
/// than 65,536 points), [`NoOnCurve`](Refusal::NoOnCurve).
pub fn read(bytes: &[u8]) -> Result<Vec<Vec<Point>>, Refusal> {
    // a point in the file makes at most two in the rows, so that 9 is never given
    let places = (bytes.len() / LEAST_TEXT + 1).min(MOST_POINTS);
    let mut ends = vec![0; places];
    let (mut xs, mut ys, mut flags) = (vec![0; 2 * places], vec![0; 2 * places], vec![0; 2 * places]);
    let mut points = vec![[0; 3]; places];
    // SAFETY: each pointer is a slice's own, with its length; the rows that are written are apart.
    let report = unsafe {
        fontcrunch_read_glif(
            bytes.as_ptr(),
            bytes.len(),
            ends.as_mut_ptr(),
            ends.len(),
            xs.as_mut_ptr(),
            xs.len(),
            ys.as_mut_ptr(),
            ys.len(),
            flags.as_mut_ptr(),
            flags.len(),
            points.as_mut_ptr(),
            points.len(),
        )
    };
    if let Some(refusal) = Refusal::from_number(report.number) {
        return Err(refusal);
    }
    let point = |i: usize| Point { x: xs[i], y: ys[i], on_curve: flags[i] == 1 };
    let mut from = 0;
    let contour = |end: &u16| {
        let to = usize::from(*end) + 1;
        let points = (from..to).map(point).collect();
        from = to;
        points
    };
    Ok(ends[..report.contours].iter().map(contour).collect())
}

/// The longest text of a point: two numbers of six bytes, and a type.
const MOST_TEXT: usize = 48;

/// Writes contours into a file, in place of its own, one for each.
///
/// Refused, in this order: [`TooLarge`](Refusal::TooLarge), which this function gives itself, where there are more
/// than 65,536 points; what [`read`] refuses; [`UnevenRows`](Refusal::UnevenRows), where the file has another number of
/// contours; [`NoPoint`](Refusal::NoPoint), where a contour has none.
pub fn write(bytes: &[u8], contours: &[Vec<Point>]) -> Result<Vec<u8>, Refusal> {
    let points: Vec<Point> = contours.concat();
    let xs: Vec<i16> = points.iter().map(|p| p.x).collect();
    let ys: Vec<i16> = points.iter().map(|p| p.y).collect();
    let flags: Vec<u8> = points.iter().map(|p| u8::from(p.on_curve)).collect();
    let ends = ends_of(contours).ok_or(Refusal::TooLarge)?;
    let mut out = vec![0; bytes.len() + MOST_TEXT * points.len()];
    // SAFETY: each pointer is a slice's own, with its length; the row that is written is apart from the others.
    let report = unsafe {
        fontcrunch_write_glif(
            bytes.as_ptr(),
            bytes.len(),
            ends.as_ptr(),
            ends.len(),
            xs.as_ptr(),
            xs.len(),
            ys.as_ptr(),
            ys.len(),
            flags.as_ptr(),
            flags.len(),
            out.as_mut_ptr(),
            out.len(),
        )
    };
    if let Some(refusal) = Refusal::from_number(report.number) {
        return Err(refusal);
    }
    out.truncate(report.bytes);
    Ok(out)
}

/// The number of each contour's last point. One without a point has the end of the one before it, or, where it
/// is the first, an end that no row has.
fn ends_of(contours: &[Vec<Point>]) -> Option<Vec<u16>> {
    let mut next = 0;
    contours
        .iter()
        .map(|contour| {
            next += contour.len();
            u16::try_from(next.max(1) - 1).ok()
        })
        .collect()
}

impl Cruncher {
    /// Crunches each contour of a file of UFO's GLIF as [`Cruncher::crunch`] does, in order, and writes the file
    /// with what they became; every byte outside the insides of its contours is as it stood.
    ///
    /// Refused, in this order: as [`read`]; then by the first contour that is refused, whatever its number; then
    /// by 16 where the penalty is out of range and there is no contour. The contours share the cruncher's room for
    /// points, or as many places as the file's points may need where these are more:
    /// [`OutputTooShort`](Refusal::OutputTooShort) where it does not suffice.
    ///
    /// ```
    /// use fontcrunch::{glif, Cruncher, Point, Settings};
    ///
    /// let file = br#"<glyph name="a"><outline><contour>
    ///     <point x="0" y="0" type="line"/><point x="9" y="0" type="line"/><point x="0" y="9" type="line"/>
    /// </contour></outline></glyph>"#;
    /// let crunched = Cruncher::new(Settings::default()).crunch_glif(file)?;
    /// // points come out in reverse order
    /// assert_eq!(glif::read(&crunched)?, [[Point::on(0, 9), Point::on(9, 0), Point::on(0, 0)]]);
    /// # Ok::<(), fontcrunch::Refusal>(())
    /// ```
    pub fn crunch_glif(&mut self, bytes: &[u8]) -> Result<Vec<u8>, Refusal> {
        let settings = self.settings();
        let places = (bytes.len() / LEAST_TEXT + 1).min(MOST_POINTS);
        let mut file = GlifRows::of_room(places, places);
        let needed = (2 * places).min(MOST_POINTS);
        let mut larger;
        let rows = if needed <= self.output.points.len() {
            &mut self.output
        } else {
            larger = Output::of_room(needed);
            &mut larger
        };
        let mut out = vec![0; bytes.len() + MOST_TEXT * rows.points.len()];
        let report =
            entries::glif::crunch_glif(bytes, settings, &mut out, &mut file, rows, &mut self.scratch);
        if let Some(refusal) = Refusal::from_number(report.number) {
            return Err(refusal);
        }
        out.truncate(report.bytes);
        Ok(out)
    }
}

#[cfg(test)]
mod tests;
