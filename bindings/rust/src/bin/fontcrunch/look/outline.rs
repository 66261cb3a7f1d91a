//! The contours of a file of GLIF as they stand in it, by docs/GLIF.md, "The outline". Outside the proofs, as all of `look`.

use std::ops::Range;

use super::xml::{word, Fault, Kind, Scanner, Token};

#[derive(Clone, Copy, Debug, PartialEq, Eq)]
pub enum PointKind {
    Move,
    Line,
    Curve,
    Qcurve,
    Off,
}

/// A coordinate by its value: None where it is not whole. One that is farther from 0 than 10^9 counts as that.
pub type Coordinate = Option<i64>;

#[derive(Clone, Debug, PartialEq, Eq)]
pub struct PointElement {
    pub at: usize,
    pub x: Coordinate,
    pub y: Coordinate,
    pub kind: PointKind,
}

#[derive(Clone, Debug, Default, PartialEq, Eq)]
pub struct ContourElement {
    /// From its start tag to its end tag.
    pub whole: Range<usize>,
    /// What stands between its tags; None where it is one empty tag.
    pub inside: Option<Range<usize>>,
    pub points: Vec<PointElement>,
}

impl ContourElement {
    /// A contour of one `move` point: what an anchor is in format 1.
    pub fn is_anchor(&self) -> bool {
        matches!(self.points[..], [PointElement { kind: PointKind::Move, .. }])
    }

    pub fn has(&self, kind: PointKind) -> bool {
        self.points.iter().any(|point| point.kind == kind)
    }
}

/// Where an element stands that is looked at.
#[derive(Clone, Copy, PartialEq, Eq)]
enum Place {
    Root,
    Outline,
    Contour,
    Point,
    Other,
}

/// The contours of a file, or the first thing for which it is none.
pub fn contours(bytes: &[u8]) -> Result<Vec<ContourElement>, Fault> {
    let mut scanner = Scanner::new(bytes, false)?;
    let mut reader = Reader::default();
    while let Some(token) = scanner.next()? {
        reader.take(token)?;
    }
    Ok(reader.contours)
}

#[derive(Default)]
struct Reader {
    open: Vec<Place>,
    has_outline: bool,
    contours: Vec<ContourElement>,
}

impl Reader {
    fn take(&mut self, token: Token) -> Result<(), Fault> {
        let Token { span, kind } = token;
        match kind {
            Kind::Start { name, attributes, empty } => {
                let place = self.place_of(name, span.start)?;
                match place {
                    Place::Contour => {
                        let inside = (!empty).then_some(span.end..span.end);
                        self.contours.push(ContourElement { whole: span, inside, points: Vec::new() });
                    }
                    Place::Point => self.take_point(span.start, &attributes)?,
                    _ => {}
                }
                if !empty {
                    self.open.push(place);
                } else if place == Place::Contour {
                    self.contour_ends()?;
                }
            }
            Kind::End { .. } => {
                if self.open.pop() == Some(Place::Contour) {
                    if let Some(contour) = self.contours.last_mut() {
                        contour.whole.end = span.end;
                        contour.inside = contour.inside.take().map(|inside| inside.start..span.start);
                    }
                    self.contour_ends()?;
                }
            }
            Kind::Text { said, marked } => {
                let plain = !marked && said.chars().all(|c| matches!(c, ' ' | '\t' | '\n' | '\r'));
                if matches!(self.open.last(), Some(Place::Contour | Place::Point)) && !plain {
                    return Err(Fault { at: span.start, what: "text stands in a contour".to_owned() });
                }
            }
        }
        Ok(())
    }

    fn place_of(&mut self, name: &str, at: usize) -> Result<Place, Fault> {
        let wrong = |what: String| Err(Fault { at, what });
        match (self.open.last(), name) {
            (None, "glyph") => Ok(Place::Root),
            (None, _) => wrong(format!("the root element is {}, not glyph", word(name))),
            (Some(Place::Root), "outline") if self.has_outline => wrong("a second outline".to_owned()),
            (Some(Place::Root), "outline") => {
                self.has_outline = true;
                Ok(Place::Outline)
            }
            (Some(Place::Outline), "contour") => Ok(Place::Contour),
            (Some(Place::Contour), "point") => Ok(Place::Point),
            (Some(Place::Contour), _) => wrong(format!("an element {} stands in a contour", word(name))),
            (Some(Place::Point), _) => wrong(format!("an element {} stands in a point", word(name))),
            _ => Ok(Place::Other),
        }
    }

    fn take_point(&mut self, at: usize, attributes: &[(&str, String)]) -> Result<(), Fault> {
        let number = self.contours.len() - 1;
        let Some(contour) = self.contours.last_mut() else {
            return Ok(());
        };
        let wrong = |what: String| {
            let point = contour.points.len();
            Err(Fault { at, what: format!("contour {number}, point {point}: {what}") })
        };
        let value = |name: &str| attributes.iter().find(|(key, _)| *key == name).map(|(_, value)| value);
        let (Some(x), Some(y)) = (value("x"), value("y")) else {
            return wrong("x or y is missing".to_owned());
        };
        let (Some(across), Some(up)) = (coordinate(x), coordinate(y)) else {
            return wrong(format!("'{}', '{}' are no two numbers", word(x), word(y)));
        };
        let kind = match value("type").map(String::as_str) {
            None | Some("offcurve") => PointKind::Off,
            Some("move") => PointKind::Move,
            Some("line") => PointKind::Line,
            Some("curve") => PointKind::Curve,
            Some("qcurve") => PointKind::Qcurve,
            Some(other) => return wrong(format!("there is no type {}", word(other))),
        };
        if kind == PointKind::Move && !contour.points.is_empty() {
            return wrong("a move is first in its contour".to_owned());
        }
        contour.points.push(PointElement { at, x: across, y: up, kind });
        Ok(())
    }

    /// A line follows no off-curve point, going round.
    fn contour_ends(&self) -> Result<(), Fault> {
        let Some(contour) = self.contours.last() else {
            return Ok(());
        };
        let points = &contour.points;
        for (i, point) in points.iter().enumerate() {
            let before = &points[(i + points.len() - 1) % points.len()];
            if point.kind == PointKind::Line && before.kind == PointKind::Off {
                let what = format!(
                    "contour {}, point {i}: a line after an off-curve point",
                    self.contours.len() - 1
                );
                return Err(Fault { at: point.at, what });
            }
        }
        Ok(())
    }
}

/// An optional sign, digits, and perhaps a point and digits; None where it is no number.
fn coordinate(text: &str) -> Option<Coordinate> {
    let (sign, digits) = match text.strip_prefix('-') {
        Some(digits) => (-1, digits),
        None => (1, text.strip_prefix('+').unwrap_or(text)),
    };
    let (whole, part) = match digits.split_once('.') {
        Some((whole, part)) if !part.is_empty() => (whole, part),
        Some(_) => return None,
        None => (digits, ""),
    };
    let all_digits = |text: &str| text.bytes().all(|d| d.is_ascii_digit());
    if whole.is_empty() || !all_digits(whole) || !all_digits(part) {
        return None;
    }
    if part.bytes().any(|d| d != b'0') {
        return Some(None);
    }
    let size = whole.bytes().fold(0, |n: i64, d| (10 * n + i64::from(d - b'0')).min(1_000_000_000));
    Some(Some(sign * size))
}

#[cfg(test)]
mod tests {
    use super::*;

    #[test]
    fn numbers_go_by_value() {
        assert_eq!(coordinate("1.0"), Some(Some(1)));
        assert_eq!(coordinate("-0007"), Some(Some(-7)));
        assert_eq!(coordinate("+3"), Some(Some(3)));
        assert_eq!(coordinate("1.50"), Some(None));
        assert_eq!(coordinate("99999999999999999999"), Some(Some(1_000_000_000)));
        for text in ["", "-", ".5", "1.", "1e3", " 1", "--1"] {
            assert_eq!(coordinate(text), None, "{text}");
        }
    }

    #[test]
    fn contours_stand_where_they_stand() {
        let text = b"<glyph><lib><outline><contour/></outline></lib><outline><contour a='1'> <point x='1' y='2' type='move'/>\n</contour><contour/></outline></glyph>";
        let found = contours(text).unwrap();
        assert_eq!(found.len(), 2);
        assert!(found[0].is_anchor() && !found[1].is_anchor());
        assert!(text[found[0].whole.clone()].starts_with(b"<contour a"));
        assert_eq!(&text[found[0].inside.clone().unwrap()], b" <point x='1' y='2' type='move'/>\n");
        assert_eq!((found[1].inside.clone(), &text[found[1].whole.clone()]), (None, &b"<contour/>"[..]));
    }

    #[test]
    fn what_is_none_is_told() {
        let of = |inside: &str| {
            let text = format!("<glyph><outline><contour>{inside}</contour></outline></glyph>");
            contours(text.as_bytes()).unwrap_err().what
        };
        for (inside, told) in [
            ("<point x='1'/>", "contour 0, point 0: x or y is missing"),
            ("<point x='1' y='a'/>", "contour 0, point 0: '1', 'a' are no two numbers"),
            ("<point x='1' y='1' type='cubic'/>", "contour 0, point 0: there is no type cubic"),
            (
                "<point x='1' y='1'/><point x='1' y='1' type='move'/>",
                "contour 0, point 1: a move is first in its contour",
            ),
            (
                "<point x='1' y='1'/><point x='1' y='1' type='line'/>",
                "contour 0, point 1: a line after an off-curve point",
            ),
            ("<b/>", "an element b stands in a contour"),
            ("<point x='1' y='1'><b/></point>", "an element b stands in a point"),
            ("text", "text stands in a contour"),
            ("&#32;", "text stands in a contour"),
        ] {
            assert_eq!(of(inside), told);
        }
        assert_eq!(contours(b"<a/>").unwrap_err().what, "the root element is a, not glyph");
        assert_eq!(contours(b"<glyph><outline/><outline/></glyph>").unwrap_err().what, "a second outline");
    }
}
