//! How far a piece is from what it replaces: beside the library's entries, by nearest places.

use crate::outline::Place;

use super::sampling::Quad;

/// A piece is looked at in so many steps, both ends included.
const STEPS: u32 = 32;
/// How often an interval is halved to find a nearest place.
const HALVINGS: u32 = 36;

/// The place of a piece that is farthest from the segments, of those looked at, and how far it is. None where a
/// coordinate is no number.
pub(crate) fn farthest(piece: &Quad, segments: &[Quad]) -> Option<(f64, Place)> {
    let mut most: Option<(f64, Place)> = None;
    for i in 0..=STEPS {
        let place = piece.at(f64::from(i) / f64::from(STEPS));
        let square = segments.iter().map(|segment| nearest(segment, place)).fold(f64::INFINITY, f64::min);
        if square < f64::INFINITY && most.is_none_or(|(largest, _)| square > largest) {
            most = Some((square, place));
        }
    }
    most.map(|(square, place)| (square.sqrt(), place))
}

/// The square of the distance to the nearest place of a quad: one of its ends, or where the distance stops falling.
fn nearest(quad: &Quad, place: Place) -> f64 {
    let slope = Slope::of(quad, place);
    let turns = slope.turns();
    let parts = [(0.0, turns.0), (turns.0, turns.1), (turns.1, 1.0)];
    let lowest = parts.iter().filter_map(|&(low, high)| slope.rises_between(low, high));
    let ends = square_to(quad, 0.0, place).min(square_to(quad, 1.0, place));
    lowest.fold(ends, |best, t| best.min(square_to(quad, t, place)))
}

fn square_to(quad: &Quad, t: f64, place: Place) -> f64 {
    let here = quad.at(t);
    let (x, y) = (here.x - place.x, here.y - place.y);
    x * x + y * y
}

/// How the square of the distance from a place falls or grows along a quad, but for a factor: a cubic in t.
struct Slope([f64; 4]);

impl Slope {
    fn of(quad: &Quad, place: Place) -> Slope {
        let bend = (
            quad.start.x - 2.0 * quad.control.x + quad.end.x,
            quad.start.y - 2.0 * quad.control.y + quad.end.y,
        );
        let moves = (quad.control.x - quad.start.x, quad.control.y - quad.start.y);
        let from = (quad.start.x - place.x, quad.start.y - place.y);
        let product = |a: (f64, f64), b: (f64, f64)| a.0 * b.0 + a.1 * b.1;
        Slope([
            product(bend, bend),
            3.0 * product(bend, moves),
            2.0 * product(moves, moves) + product(bend, from),
            product(moves, from),
        ])
    }

    fn at(&self, t: f64) -> f64 {
        let [a, b, c, d] = self.0;
        ((a * t + b) * t + c) * t + d
    }

    /// Where it stops growing and where it grows again, within 0 and 1; twice 0 where it does not.
    fn turns(&self) -> (f64, f64) {
        let [a, b, c, _] = self.0;
        let root = b * b - 3.0 * a * c;
        if !(a > 0.0 && root > 0.0) {
            return (0.0, 0.0);
        }
        let turn = |sign: f64| ((sign * root.sqrt() - b) / (3.0 * a)).clamp(0.0, 1.0);
        (turn(-1.0), turn(1.0))
    }

    /// Where it gets above 0, if it does between two places between which it goes one way.
    fn rises_between(&self, low: f64, high: f64) -> Option<f64> {
        if !(self.at(low) < 0.0 && self.at(high) > 0.0) {
            return None;
        }
        let (mut low, mut high) = (low, high);
        for _ in 0..HALVINGS {
            let middle = 0.5 * (low + high);
            if self.at(middle) < 0.0 {
                low = middle;
            } else {
                high = middle;
            }
        }
        Some(low)
    }
}

#[cfg(test)]
mod tests {
    use super::*;

    fn quad(a: (f64, f64), b: (f64, f64), c: (f64, f64)) -> Quad {
        let place = |(x, y)| Place { x, y };
        Quad { start: place(a), control: place(b), end: place(c) }
    }

    #[test]
    fn a_line_above_a_line() {
        let line = quad((0.0, 0.0), (50.0, 0.0), (100.0, 0.0));
        let above = quad((10.0, 3.0), (50.0, 3.0), (90.0, 3.0));
        let (far, _) = farthest(&above, &[line]).unwrap();
        assert!((far - 3.0).abs() < 1e-12, "{far}");
        assert!(farthest(&line, &[line]).unwrap().0 < 1e-6);
    }

    #[test]
    fn a_bow_above_a_line() {
        let line = quad((0.0, 0.0), (50.0, 0.0), (100.0, 0.0));
        let bow = quad((0.0, 0.0), (50.0, 20.0), (100.0, 0.0));
        let (far, at) = farthest(&bow, &[line]).unwrap();
        assert!((far - 10.0).abs() < 1e-9 && at.x == 50.0, "{far} {at:?}");
        // and its halves have nothing between them and it
        let halves =
            [quad((0.0, 0.0), (25.0, 10.0), (50.0, 10.0)), quad((50.0, 10.0), (75.0, 10.0), (100.0, 0.0))];
        assert!(farthest(&bow, &halves).unwrap().0 < 1e-6);
    }

    #[test]
    fn the_tip_of_a_sharp_bend_is_seen() {
        // it goes out and back nearly on itself
        let sharp = quad((0.0, 0.0), (101.0, 0.1), (0.0, 0.0));
        let tip = quad((50.0, 0.0), (50.2, 0.0), (50.4, 0.0));
        let (far, _) = farthest(&tip, &[sharp]).unwrap();
        assert!(far < 0.06, "{far}");
    }

    #[test]
    fn no_number_no_distance() {
        let line = quad((0.0, 0.0), (50.0, 0.0), (100.0, 0.0));
        let none = quad((f64::NAN, 0.0), (0.0, 0.0), (0.0, 0.0));
        assert_eq!(farthest(&none, &[line]), None);
        assert_eq!(farthest(&line, &[]), None);
    }
}
