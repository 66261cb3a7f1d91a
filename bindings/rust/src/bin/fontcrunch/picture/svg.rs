//! Marks and text in SVG.

use fontcrunch::outline::{Outline, Place};
use fontcrunch::Reasons;

use super::view::View;

/// The colours of one outline.
#[derive(Clone, Copy)]
pub struct Ink {
    pub line: &'static str,
    pub fill: &'static str,
}

pub const BEFORE: Ink = Ink { line: "#46525c", fill: "#eceff2" };
pub const AFTER: Ink = Ink { line: "#14508f", fill: "#dfeaf7" };
pub const CORNER: &str = "#d1342f";
pub const BREAK: &str = "#00875f";
pub const LOST: &str = "#e07b00";
pub const FELL: &str = "#8a3ffc";
pub const GHOST: &str = "#9aa4ad";
/// The radius of a corner's ring.
pub const RING: f64 = 7.0;
pub const TEXT: &str = "#20262b";
pub const QUIET: &str = "#6b7680";

pub const OUTLINE: &str = "stroke-width=\"1.3\" stroke-linejoin=\"round\"";
pub const HANDLE: &str = "stroke-width=\"0.6\"";
pub const GHOST_DASHES: &str = "stroke-width=\"0.9\" stroke-dasharray=\"3 3\"";
pub const LOST_DASHES: &str = "stroke-width=\"1.8\" stroke-dasharray=\"6 3\"";
/// Under the outline, so that a run is told from its neighbours.
pub const HALO: &str = "stroke-width=\"5\" stroke-opacity=\"0.35\"";

/// Two decimals are finer than any screen, and trailing zeros say nothing.
pub fn number(value: f64) -> String {
    let text = format!("{value:.2}");
    let text = text.trim_end_matches('0').trim_end_matches('.');
    if text == "-0" { "0" } else { text }.to_owned()
}

/// How wide words are, at most, in the fonts that stand in for Helvetica: these are wider.
pub fn width(words: &str, size: f64) -> f64 {
    0.64 * size * words.chars().count() as f64
}

/// Words in lines of at most that width.
pub fn wrapped(words: &str, size: f64, most: f64) -> Vec<String> {
    let mut lines: Vec<String> = vec![];
    for word in words.split(' ') {
        match lines.last_mut() {
            Some(line) if width(line, size) + width(word, size) + size <= most => {
                line.push(' ');
                line.push_str(word);
            }
            _ => lines.push(clipped(word, size, most)),
        }
    }
    lines
}

/// Words that fit a width: what is too long loses its middle.
pub fn clipped(words: &str, size: f64, most: f64) -> String {
    if width(words, size) <= most {
        return words.to_owned();
    }
    let all: Vec<char> = words.chars().collect();
    let kept = ((most / (0.64 * size)) as usize).saturating_sub(1) / 2;
    let (start, end) = (&all[..kept.min(all.len())], &all[all.len() - kept.min(all.len())..]);
    start.iter().chain(&['\u{2026}']).chain(end).collect()
}

/// Thousands set apart: 1,234,567.
pub fn grouped(count: usize) -> String {
    let digits = count.to_string();
    let groups: Vec<&str> = digits
        .as_bytes()
        .rchunks(3)
        .rev()
        .map(|group| std::str::from_utf8(group).unwrap_or_default())
        .collect();
    groups.join(",")
}

/// `1 point`, `2 points`.
pub fn counted(count: usize, what: &str) -> String {
    format!("{} {what}{}", grouped(count), if count == 1 { "" } else { "s" })
}

/// Text for an element; what XML does not allow is left out.
pub fn escaped(text: &str) -> String {
    text.chars()
        .filter(|c| !c.is_control())
        .map(|c| match c {
            '&' => "&amp;".to_owned(),
            '<' => "&lt;".to_owned(),
            '>' => "&gt;".to_owned(),
            other => other.to_string(),
        })
        .collect()
}

pub fn text(at: Place, size: f64, colour: &str, more: &str, words: &str) -> String {
    format!(
        "<text x=\"{}\" y=\"{}\" font-size=\"{size}\" fill=\"{colour}\" {more}>{}</text>\n",
        number(at.x),
        number(at.y),
        escaped(words)
    )
}

/// The whole outline as the data of a path; empty where there is no node.
pub fn closed_path(outline: &Outline, view: &View) -> String {
    if outline.nodes.is_empty() {
        return String::new();
    }
    format!("{}Z", path(outline, view, 0..outline.curves.len()))
}

/// Some curves of an outline, each after the one before it, going round: past the last the first ones follow.
pub fn path(outline: &Outline, view: &View, curves: std::ops::Range<usize>) -> String {
    let count = outline.curves.len();
    let mut data = format!("M{}", view.text(outline.nodes[curves.start % count].place));
    for curve in curves.map(|i| &outline.curves[i % count]) {
        match curve.control {
            None => data.push_str(&format!("L{}", view.text(curve.end))),
            Some(control) => {
                data.push_str(&format!("Q{} {}", view.text(control), view.text(curve.end)));
            }
        }
    }
    data
}

pub fn stroked(data: &str, colour: &str, more: &str) -> String {
    format!("<path d=\"{data}\" fill=\"none\" stroke=\"{colour}\" {more}/>\n")
}

/// Nothing is drawn; where the path is pointed at, the title is shown.
pub fn titled(data: &str, title: &str) -> String {
    format!(
        "<path d=\"{data}\" fill=\"none\" stroke=\"none\" stroke-width=\"9\" pointer-events=\"stroke\"><title>{}</title></path>\n",
        escaped(title)
    )
}

pub fn filled(data: &str, ink: Ink) -> String {
    format!("<path d=\"{data}\" fill=\"{}\"/>\n", ink.fill)
}

pub fn on_curve_mark(at: Place, ink: Ink) -> String {
    format!(
        "<rect x=\"{}\" y=\"{}\" width=\"5.6\" height=\"5.6\" fill=\"{}\"/>\n",
        number(at.x - 2.8),
        number(at.y - 2.8),
        ink.line
    )
}

pub fn off_curve_mark(at: Place, ink: Ink) -> String {
    circle(at, 2.6, "white", ink.line, 1.1)
}

pub fn corner_mark(at: Place) -> String {
    circle(at, RING, "none", CORNER, 1.5)
}

/// A ring with a title, which viewers show where it is pointed at.
pub fn corner_titled(at: Place, title: &str) -> String {
    format!(
        "<circle cx=\"{}\" cy=\"{}\" r=\"{RING}\" fill=\"none\" stroke=\"{CORNER}\" stroke-width=\"1.5\" \
         pointer-events=\"all\"><title>{}</title></circle>\n",
        number(at.x),
        number(at.y),
        escaped(title)
    )
}

/// The reasons of a corner, a letter each; the legend tells them.
pub fn reason_letters(reasons: Reasons) -> String {
    let letters = [
        (reasons.x, 'x'),
        (reasons.y, 'y'),
        (reasons.before, 'b'),
        (reasons.after, 'a'),
        (reasons.angle, '\u{2220}'),
    ];
    letters.iter().filter(|(holds, _)| *holds).map(|(_, letter)| *letter).collect()
}

fn circle(at: Place, radius: f64, fill: &str, line: &str, width: f64) -> String {
    format!(
        "<circle cx=\"{}\" cy=\"{}\" r=\"{radius}\" fill=\"{fill}\" stroke=\"{line}\" stroke-width=\"{width}\"/>\n",
        number(at.x),
        number(at.y)
    )
}

/// A tick across the outline.
pub fn break_mark(at: Place, along: (f64, f64)) -> String {
    const REACH: f64 = 7.0;
    let (x, y) = (-along.1 * REACH, along.0 * REACH);
    segment(
        Place { x: at.x - x, y: at.y - y },
        Place { x: at.x + x, y: at.y + y },
        BREAK,
        "stroke-width=\"1.8\"",
    )
}

pub fn segment(from: Place, to: Place, colour: &str, more: &str) -> String {
    format!(
        "<line x1=\"{}\" y1=\"{}\" x2=\"{}\" y2=\"{}\" stroke=\"{colour}\" {more}/>\n",
        number(from.x),
        number(from.y),
        number(to.x),
        number(to.y)
    )
}

/// A small arrow beside the start, pointing along the outline.
pub fn start_mark(at: Place, along: (f64, f64), ink: Ink) -> String {
    let point = |ahead: f64, aside: f64| {
        format!(
            "{},{}",
            number(at.x + along.0 * ahead - along.1 * aside),
            number(at.y + along.1 * ahead + along.0 * aside)
        )
    };
    format!(
        "<polygon points=\"{} {} {}\" fill=\"{}\"/>\n",
        point(20.0, 0.0),
        point(11.0, -4.2),
        point(11.0, 4.2),
        ink.line
    )
}

/// The direction from one place to another, of length 1; to the right where they are the same.
pub fn direction(from: Place, to: Place) -> (f64, f64) {
    let (x, y) = (to.x - from.x, to.y - from.y);
    let length = x.hypot(y);
    if length > 0.0 {
        (x / length, y / length)
    } else {
        (1.0, 0.0)
    }
}

#[cfg(test)]
mod tests {
    use super::super::view::Extent;
    use super::*;
    use fontcrunch::Point;

    #[test]
    fn numbers_are_short() {
        assert_eq!(number(1.0), "1");
        assert_eq!(number(-0.001), "0");
        assert_eq!(number(10.504), "10.5");
        assert_eq!(number(100.0), "100");
        assert_eq!(grouped(0), "0");
        assert_eq!(grouped(999), "999");
        assert_eq!(grouped(1_234_567), "1,234,567");
        assert_eq!(counted(1, "point"), "1 point");
        assert_eq!(counted(1000, "pair"), "1,000 pairs");
    }

    #[test]
    fn a_path_goes_round() {
        let places = [Place::ORIGIN, Place { x: 4.0, y: 0.0 }, Place { x: 0.0, y: 4.0 }];
        let corners = [Point::on(0, 0), Point::on(4, 0), Point::on(0, 4)];
        let outline = Outline::of(&corners);
        let view = View::new(&Extent::of(places), 1.0, 0.0, 0.0, 4.0);
        assert_eq!(path(&outline, &view, 0..2), "M0 4L4 4L0 0");
        assert_eq!(path(&outline, &view, 2..4), "M0 0L0 4L4 4");
    }

    #[test]
    fn words_stay_within_a_width() {
        let reason = "a run between two corners is too long: it has more than 2,048 breaks, half a unit or a whole one apart";
        let lines = wrapped(reason, 12.0, 300.0);
        assert_eq!(lines.join(" "), reason);
        assert!(lines.len() > 2 && lines.iter().all(|line| width(line, 12.0) <= 300.0), "{lines:?}");
        assert_eq!(clipped("short", 12.0, 300.0), "short");
        let cut = clipped(&"long".repeat(50), 12.0, 100.0);
        assert!(width(&cut, 12.0) <= 100.0 && cut.starts_with("long") && cut.ends_with("long"), "{cut}");
    }

    #[test]
    fn text_is_escaped() {
        assert_eq!(escaped("a<b>&\u{0}c\n"), "a&lt;b&gt;&amp;c");
    }
}
