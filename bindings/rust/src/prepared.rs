//! Contours made ready, as fonts and old uploads need it, and then crunched.
//!
//! Every step is an entry of the library. That the steps follow each other in this order is what is written here, and
//! no theorem.

use crate::cleaning::clean;
use crate::cruncher::{Crunched, Cruncher, Point};
use crate::editions::Editions;
use crate::explicit::explicit;
use crate::idle::drop_idle;
use crate::refusal::Refusal;
use crate::{glif, glyph};

/// A contour made ready: its implied points are written out ([`explicit`]), repeated points dropped ([`clean`]), and
/// then controls that stand on an end of their curve ([`drop_idle`]). None of refusals 1 to 5 is given for what comes
/// out, and a second time changes nothing.
///
/// Refused by 2; by 21 where no point is on-curve; by 3 where there are too many points with the implied ones.
pub fn prepared(points: &[Point]) -> Result<Vec<Point>, Refusal> {
    let cleaned = clean(&explicit(points)?)?;
    Ok(drop_idle(&cleaned.points)?.points)
}

impl Cruncher {
    /// Crunches what [`prepared`] makes of a contour.
    ///
    /// ```
    /// use fontcrunch::{Cruncher, Point, Settings};
    ///
    /// let mut closed = Cruncher::new(Settings::default().with_closed(true));
    /// // starts off-curve, and has a repeated point
    /// let contour = [Point::off(50, 100), Point::on(0, 0), Point::on(0, 0), Point::on(100, 0)];
    /// let crunched = closed.prepared(&contour)?;
    /// assert_eq!(crunched.points, [Point::on(0, 0), Point::on(100, 0), Point::off(50, 100)]);
    /// # Ok::<(), fontcrunch::Refusal>(())
    /// ```
    pub fn prepared(&mut self, points: &[Point]) -> Result<Crunched, Refusal> {
        self.crunch(&prepared(points)?)
    }

    /// Two editions, as [`Cruncher::editions`] has them, of what [`prepared`] makes of a contour. What is refused
    /// there is refused for both.
    pub fn prepared_editions(&mut self, points: &[Point], a: u32, b: u32) -> Editions {
        match prepared(points) {
            Ok(points) => self.editions(&points, a, b),
            Err(refusal) => Editions { a: Err(refusal), b: Err(refusal) },
        }
    }

    /// Crunches a simple glyph description: it is read, each contour goes through [`prepared`] in order, and what
    /// they became is written and crunched.
    ///
    /// Refused, in this order: as [`glyph::read`]; by the first contour that is refused by [`prepared`]; by 14 where
    /// the glyph with its implied points cannot be written; then as [`Cruncher::crunch_glyph`].
    pub fn prepared_glyph(&mut self, bytes: &[u8]) -> Result<Vec<u8>, Refusal> {
        self.crunch_glyph(&glyph::read(bytes)?.with_contours(prepared)?.to_bytes()?)
    }

    /// Crunches a file of UFO's GLIF: it is read, each contour goes through [`prepared`] in order, and what they
    /// became is written into the file, which is crunched.
    ///
    /// Refused, in this order: as [`glif::read`]; by the first contour that is refused by [`prepared`]; then as
    /// [`Cruncher::crunch_glif`].
    pub fn prepared_glif(&mut self, bytes: &[u8]) -> Result<Vec<u8>, Refusal> {
        let contours = glif::read(bytes)?;
        let ready = contours.iter().map(|points| prepared(points)).collect::<Result<Vec<_>, _>>()?;
        self.crunch_glif(&glif::write(bytes, &ready)?)
    }
}
