//! Simple glyph descriptions, as OpenType's glyf table holds them: read into contours, and written.
//!
//! ```
//! use fontcrunch::{glyph, Point};
//!
//! let triangle = glyph::Glyph {
//!     ends: vec![2],
//!     points: vec![Point::on(0, 0), Point::on(100, 0), Point::on(0, 100)],
//!     instructions: vec![],
//! };
//! let bytes = triangle.to_bytes()?;
//! assert_eq!(glyph::read(&bytes)?, triangle);
//! # Ok::<(), fontcrunch::Refusal>(())
//! ```
//!
//! [`Cruncher::crunch_glyph`] crunches a description, bytes in and bytes out;
//! [`Cruncher::crunch_glyph_explicit`] writes out implied points before.
//!
//! Whatever is written reads back the same, and whatever is read can be written again: both are proved. The
//! bytes may differ from those that were read, since every difference gets its shortest coding, and bits 6
//! and 7 of the flags are not kept.

use crate::cruncher::{Cruncher, Point};
use crate::entries;
use crate::refusal::Refusal;
use crate::rows::{GlyphRows, Output};

/// A simple glyph: its contours one after the other, and its instructions.
#[derive(Clone, Debug, Default, PartialEq, Eq, Hash)]
pub struct Glyph {
    /// The number of each contour's last point; each is above the one before it.
    pub ends: Vec<u16>,
    /// The points of all contours. Those after the last end are not written.
    pub points: Vec<Point>,
    /// The instruction bytes, as they stand.
    pub instructions: Vec<u8>,
}

#[repr(C)]
struct GlyphReadReport {
    number: u32,
    contours: usize,
    points: usize,
    instructions: usize,
}

#[repr(C)]
struct GlyphWriteReport {
    number: u32,
    bytes: usize,
}

extern "C" {
    fn fontcrunch_read_glyph(
        bytes: *const u8,
        bytes_len: usize,
        ends: *mut u16,
        ends_len: usize,
        xs: *mut i16,
        xs_len: usize,
        ys: *mut i16,
        ys_len: usize,
        flags: *mut u8,
        flags_len: usize,
        instructions: *mut u8,
        instructions_len: usize,
    ) -> GlyphReadReport;

    fn fontcrunch_write_glyph(
        ends: *const u16,
        ends_len: usize,
        xs: *const i16,
        xs_len: usize,
        ys: *const i16,
        ys_len: usize,
        flags: *const u8,
        flags_len: usize,
        instructions: *const u8,
        instructions_len: usize,
        out: *mut u8,
        out_len: usize,
    ) -> GlyphWriteReport;
}

/// Reads a description.
///
/// Refused, in this order: [`Composite`](Refusal::Composite), [`CutShort`](Refusal::CutShort),
/// [`EndsNotRising`](Refusal::EndsNotRising), [`TooLarge`](Refusal::TooLarge) (a coordinate outside 16
/// bits). Bytes after the last coordinate are not looked at.
pub fn read(bytes: &[u8]) -> Result<Glyph, Refusal> {
    let room = Room::for_bytes(bytes);
    let mut ends = vec![0; room.ends];
    let (mut xs, mut ys, mut flags) = (vec![0; room.points], vec![0; room.points], vec![0; room.points]);
    let mut instructions = vec![0; room.instructions];
    // SAFETY: each pointer is a slice's own, with its length; the rows that are written are apart.
    let report = unsafe {
        fontcrunch_read_glyph(
            bytes.as_ptr(),
            bytes.len(),
            ends.as_mut_ptr(),
            ends.len(),
            xs.as_mut_ptr(),
            xs.len(),
            ys.as_mut_ptr(),
            ys.len(),
            flags.as_mut_ptr(),
            flags.len(),
            instructions.as_mut_ptr(),
            instructions.len(),
        )
    };
    if let Some(refusal) = Refusal::from_number(report.number) {
        return Err(refusal);
    }
    ends.truncate(report.contours);
    instructions.truncate(report.instructions);
    let point = |i: usize| Point { x: xs[i], y: ys[i], on_curve: flags[i] == 1 };
    Ok(Glyph { ends, points: (0..report.points).map(point).collect(), instructions })
}

/// Places that suffice for what the bytes can hold, so that 9 is never given: the counts stand in the bytes.
struct Room {
    ends: usize,
    points: usize,
    instructions: usize,
}

impl Room {
    fn for_bytes(bytes: &[u8]) -> Room {
        let word = |at: usize| match bytes.get(at..at + 2) {
            Some(&[high, low]) => usize::from(high) << 8 | usize::from(low),
            _ => 0,
        };
        let ends = word(0);
        let none = Room { ends: 0, points: 0, instructions: 0 };
        // such a description is refused by 15 or 12, before rows are looked at
        if ends > 32_767 || bytes.len() < 12 + 2 * ends {
            return none;
        }
        let instructions = word(10 + 2 * ends);
        if bytes.len() < 12 + 2 * ends + instructions {
            return none;
        }
        Room { ends, points: if ends == 0 { 0 } else { word(8 + 2 * ends) + 1 }, instructions }
    }
}

impl Glyph {
    /// The glyph's description: each difference in its shortest coding, a repeat where a flag stands three
    /// times or more, the box that of the points.
    ///
    /// Refused, in this order: [`CutShort`](Refusal::CutShort) (fewer points than the last end says),
    /// [`EndsNotRising`](Refusal::EndsNotRising), [`TooLarge`](Refusal::TooLarge) (a difference outside 16
    /// bits, more than 32,767 contours, more than 65,535 instruction bytes).
    pub fn to_bytes(&self) -> Result<Vec<u8>, Refusal> {
        let xs: Vec<i16> = self.points.iter().map(|p| p.x).collect();
        let ys: Vec<i16> = self.points.iter().map(|p| p.y).collect();
        let flags: Vec<u8> = self.points.iter().map(|p| u8::from(p.on_curve)).collect();
        // a flag byte and two words a point, and the header
        let mut out = vec![0; 12 + 2 * self.ends.len() + self.instructions.len() + 5 * self.points.len()];
        // SAFETY: each pointer is a slice's own, with its length; the row that is written is apart.
        let report = unsafe {
            fontcrunch_write_glyph(
                self.ends.as_ptr(),
                self.ends.len(),
                xs.as_ptr(),
                xs.len(),
                ys.as_ptr(),
                ys.len(),
                flags.as_ptr(),
                flags.len(),
                self.instructions.as_ptr(),
                self.instructions.len(),
                out.as_mut_ptr(),
                out.len(),
            )
        };
        if let Some(refusal) = Refusal::from_number(report.number) {
            return Err(refusal);
        }
        out.truncate(report.bytes);
        Ok(out)
    }

    /// The glyph with each contour made another, in order. The first contour that is refused decides.
    pub(crate) fn with_contours(
        &self,
        made: impl Fn(&[Point]) -> Result<Vec<Point>, Refusal>,
    ) -> Result<Glyph, Refusal> {
        let mut glyph = Glyph { instructions: self.instructions.clone(), ..Glyph::default() };
        let contours = self.contours().map(made).collect::<Result<Vec<_>, _>>()?;
        for contour in contours {
            glyph.points.extend(contour);
            glyph.ends.push(u16::try_from(glyph.points.len() - 1).map_err(|_| Refusal::TooLarge)?);
        }
        Ok(glyph)
    }

    /// The points of each contour.
    pub fn contours(&self) -> impl Iterator<Item = &[Point]> {
        let starts = std::iter::once(0).chain(self.ends.iter().map(|&end| usize::from(end) + 1));
        starts.zip(&self.ends).map(|(start, &end)| &self.points[start..usize::from(end) + 1])
    }
}

impl Cruncher {
    /// Crunches a simple glyph description, each contour as [`Cruncher::crunch`] does, and writes the new one.
    /// Instructions stay as they stand, though the points that they name are others now.
    ///
    /// Refused, in this order: as [`read`]; then by the first contour that is refused, whatever its number;
    /// then by 16 where the penalty is out of range and there is no contour;
    /// [`TooLarge`](Refusal::TooLarge), where contours lie too far apart to be written, or there are more than
    /// 65,536 points. The contours share the cruncher's room for points, or as many places as the glyph has
    /// points where these are more: [`OutputTooShort`](Refusal::OutputTooShort) where it does not suffice.
    ///
    /// ```
    /// use fontcrunch::{glyph::Glyph, glyph, Cruncher, Point, Settings};
    ///
    /// let triangle = Glyph {
    ///     ends: vec![2],
    ///     points: vec![Point::on(0, 0), Point::on(100, 0), Point::on(0, 100)],
    ///     instructions: vec![],
    /// };
    /// let crunched = Cruncher::new(Settings::default()).crunch_glyph(&triangle.to_bytes()?)?;
    /// // points come out in reverse order
    /// assert_eq!(glyph::read(&crunched)?.points, [Point::on(0, 100), Point::on(100, 0), Point::on(0, 0)]);
    /// # Ok::<(), fontcrunch::Refusal>(())
    /// ```
    pub fn crunch_glyph(&mut self, bytes: &[u8]) -> Result<Vec<u8>, Refusal> {
        let settings = self.settings();
        let room = Room::for_bytes(bytes);
        let mut glyph = GlyphRows::of_room(room.ends, room.instructions);
        let mut larger;
        let rows = if room.points <= self.output.points.len() {
            &mut self.output
        } else {
            larger = Output::of_room(room.points);
            &mut larger
        };
        // a flag byte and two words a point, and the header
        let mut out = vec![0; 12 + 2 * room.ends + room.instructions + 5 * rows.points.len()];
        let report =
            entries::glyph::crunch_glyph(bytes, settings, &mut out, &mut glyph, rows, &mut self.scratch);
        if let Some(refusal) = Refusal::from_number(report.number) {
            return Err(refusal);
        }
        out.truncate(report.bytes);
        Ok(out)
    }

    /// Crunches a description as fonts hold it, which [`Cruncher::crunch_glyph`] may refuse by 4 or 5: it is read,
    /// each contour goes through [`explicit`](crate::explicit()) in order, and what they became is written and
    /// crunched.
    ///
    /// Refused, in this order: as [`read`]; by the first contour that is refused there, by 21 or 3;
    /// [`TooLarge`](Refusal::TooLarge), where the glyph with its implied points cannot be written: a difference is
    /// outside 16 bits, or there are more than 65,536 points; then as [`Cruncher::crunch_glyph`].
    pub fn crunch_glyph_explicit(&mut self, bytes: &[u8]) -> Result<Vec<u8>, Refusal> {
        self.crunch_glyph(&read(bytes)?.with_contours(crate::explicit)?.to_bytes()?)
    }
}
