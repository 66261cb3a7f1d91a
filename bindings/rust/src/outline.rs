//! A contour as its rasteriser sees it: a closed line of curves, implied points put in.

use std::ops::Range;

use crate::cruncher::Point;

/// A place in the plane of a contour, not of whole units alone.
#[derive(Clone, Copy, Debug, PartialEq)]
pub struct Place {
    /// To the right.
    pub x: f64,
    /// Upward.
    pub y: f64,
}

impl Place {
    /// (0, 0).
    pub const ORIGIN: Place = Place { x: 0.0, y: 0.0 };

    /// A place by its coordinates.
    pub const fn at(x: f64, y: f64) -> Place {
        Place { x, y }
    }

    /// The middle of two places.
    pub fn midway(self, other: Place) -> Place {
        Place { x: (self.x + other.x) / 2.0, y: (self.y + other.y) / 2.0 }
    }
}

impl From<Point> for Place {
    fn from(point: Point) -> Place {
        Place { x: point.x.into(), y: point.y.into() }
    }
}

/// A place that the outline goes through, between two curves.
#[derive(Clone, Copy, Debug, PartialEq)]
pub struct Node {
    /// Where it is.
    pub place: Place,
    /// Whether it is a point of the contour; if not, it is implied.
    pub written: bool,
}

/// A line, or a curve with a control, that leads to a node.
#[derive(Clone, Copy, Debug, PartialEq)]
pub struct Curve {
    /// Of a line, none.
    pub control: Option<Place>,
    /// The node that it leads to.
    pub end: Place,
}

/// Nodes in the order of the contour's points. Curve i leads from node i to the next, the last one back to
/// the first.
#[derive(Clone, Debug, Default, PartialEq)]
pub struct Outline {
    /// The places that it goes through.
    pub nodes: Vec<Node>,
    /// As many as there are nodes.
    pub curves: Vec<Curve>,
}

impl Outline {
    /// Any points make an outline, also those that are refused: where the first is off-curve, it starts at
    /// the last one, or midway between the two if that is off-curve too.
    pub fn of(points: &[Point]) -> Outline {
        let mut outline = Outline::default();
        let (Some(&first), Some(&last)) = (points.first(), points.last()) else {
            return outline;
        };
        if first.on_curve {
            outline.go_round(node(first), &points[1..]);
        } else if last.on_curve {
            outline.go_round(node(last), &points[..points.len() - 1]);
        } else {
            outline.go_round(implied(last.into(), first.into()), points);
        }
        outline
    }

    fn go_round(&mut self, start: Node, points: &[Point]) {
        self.nodes.push(start);
        let mut control: Option<Place> = None;
        for &point in points {
            if point.on_curve {
                self.lead_to(control.take(), node(point));
            } else if let Some(before) = control.replace(point.into()) {
                self.lead_to(Some(before), implied(before, point.into()));
            }
        }
        self.curves.push(Curve { control, end: start.place });
    }

    fn lead_to(&mut self, control: Option<Place>, node: Node) {
        self.curves.push(Curve { control, end: node.place });
        self.nodes.push(node);
    }

    /// Where the outline comes from and goes to at a node: the neighbouring controls, or nodes.
    pub fn around(&self, node: usize) -> (Place, Place) {
        let count = self.nodes.len();
        let before = (node + count - 1) % count;
        let came_from = self.curves[before].control.unwrap_or(self.nodes[before].place);
        let goes_to = self.curves[node].control.unwrap_or(self.curves[node].end);
        (came_from, goes_to)
    }
}

/// The segments of each run: from corner to corner, and in closed mode a last one from the last corner round to the
/// first.
pub fn runs(corners: &[usize], segments: usize, closed: bool) -> Vec<Range<usize>> {
    let between = corners.windows(2).map(|ends| ends[0]..ends[1]);
    let closing = corners.first().zip(corners.last()).map(|(first, last)| *last..segments + first);
    between.chain(closing.filter(|_| closed)).collect()
}

/// The segments before the first corner and after the last, which the crate's mode does not write. One line from the
/// last corner to the first is no loss: the contour closes by it.
pub fn outside(corners: Option<(usize, usize)>, lines: &[bool]) -> Vec<usize> {
    match corners {
        None => (0..lines.len()).collect(),
        Some((0, last)) if last + 1 == lines.len() && lines[last] => Vec::new(),
        Some((first, last)) => (0..first).chain(last..lines.len()).collect(),
    }
}

fn node(point: Point) -> Node {
    Node { place: point.into(), written: true }
}

fn implied(before: Place, after: Place) -> Node {
    Node { place: before.midway(after), written: false }
}

#[cfg(test)]
mod tests {
    use super::*;

    fn places(points: &[Point]) -> Vec<(f64, f64, bool)> {
        Outline::of(points).nodes.iter().map(|n| (n.place.x, n.place.y, n.written)).collect()
    }

    #[test]
    fn a_closing_line_and_a_closing_curve() {
        let line = Outline::of(&[Point::on(0, 0), Point::on(4, 0)]);
        assert_eq!(line.curves[1], Curve { control: None, end: Place { x: 0.0, y: 0.0 } });
        let curve = Outline::of(&[Point::on(0, 0), Point::on(4, 0), Point::off(2, 3)]);
        assert_eq!(curve.nodes.len(), 2);
        assert_eq!(curve.curves[1].control, Some(Place { x: 2.0, y: 3.0 }));
    }

    #[test]
    fn implied_points_are_nodes_that_are_not_written() {
        let points = [Point::on(0, 0), Point::off(1, 0), Point::off(2, 1), Point::on(3, 3)];
        assert_eq!(places(&points), [(0.0, 0.0, true), (1.5, 0.5, false), (3.0, 3.0, true)]);
    }

    #[test]
    fn a_start_off_the_curve() {
        let to_last = [Point::off(1, 1), Point::on(2, 0), Point::on(0, 0)];
        assert_eq!(places(&to_last), [(0.0, 0.0, true), (2.0, 0.0, true)]);
        let off_alone = [Point::off(0, 0), Point::off(2, 0)];
        assert_eq!(places(&off_alone), [(1.0, 0.0, false), (1.0, 0.0, false)]);
    }

    #[test]
    fn few_points() {
        assert_eq!(Outline::of(&[]), Outline::default());
        assert_eq!(places(&[Point::on(7, 9)]), [(7.0, 9.0, true)]);
        assert_eq!(places(&[Point::off(7, 9)]), [(7.0, 9.0, false)]);
    }
}
