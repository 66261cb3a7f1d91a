//! The head of the picture: what was crunched at, and what its marks mean.

use fontcrunch::outline::Place;
use fontcrunch::{Settings, DEFAULT_PENALTY};

use super::svg;
use super::{MARGIN, WIDTH};

pub const HEIGHT: f64 = 166.0;

/// A mark at a place, and the words beside it.
type Entry = (fn(Place) -> String, &'static str);

/// The last is left out in closed mode, in which nothing is lost.
const ENTRIES: [Entry; 8] = [
    (on_curve, "on-curve point"),
    (off_curve, "off-curve point and its handles"),
    (corner, "corner: a run ends"),
    (a_break, "break: two pieces join"),
    (start, "start and direction"),
    (ghost, "outline before"),
    (refused, "a run that is refused"),
    (lost, "not written: outside the corners"),
];

/// Columns have room for the longest words in any font.
const COLUMNS: usize = 4;
const COLUMN: f64 = (WIDTH - 2.0 * MARGIN) / COLUMNS as f64;
const ROW: f64 = 22.0;

const NOTES: [&str; 2] = [
    "beside a corner: x, y a sign turn; b, a a zero tangent before, after; \u{2220} an angle. Small numbers are those of segments",
    "a ring or a tick with no square: the point is implied and not written. Pieces, segments and corners tell more where they are pointed at",
];

pub fn drawn(settings: Settings, penalty_given: bool) -> String {
    let line = |y: f64, colour: &str, words: &str| svg::text(Place { x: MARGIN, y }, 12.0, colour, "", words);
    let mut svg = svg::text(
        Place { x: MARGIN, y: 32.0 },
        20.0,
        svg::TEXT,
        "font-weight=\"bold\"",
        "Contours before and after crunching",
    );
    svg.push_str(&line(53.0, svg::TEXT, &penalty_words(settings, penalty_given)));
    svg.push_str(&line(69.0, svg::TEXT, &settings_words(settings)));
    svg.push_str(&line(88.0, svg::QUIET, NOTES[0]));
    svg.push_str(&line(104.0, svg::QUIET, NOTES[1]));
    svg.push_str(&entries(if settings.closed { &ENTRIES[..ENTRIES.len() - 1] } else { &ENTRIES }));
    svg.push_str(&svg::segment(
        Place { x: MARGIN, y: HEIGHT - 4.0 },
        Place { x: WIDTH - MARGIN, y: HEIGHT - 4.0 },
        svg::GHOST,
        "stroke-width=\"0.6\"",
    ));
    svg
}

/// Which it is, and that an order's default is another where it is.
fn penalty_words(settings: Settings, given: bool) -> String {
    let told = |penalty: u32| {
        format!("{:?} ({})", f64::from(penalty) / 16.0, svg::counted(penalty as usize, "sixteenth"))
    };
    let why = if given { "" } else { ", that of the crate, since none was given" };
    let other = match settings.penalty {
        DEFAULT_PENALTY => String::new(),
        _ => format!("; an order\u{2019}s default is another, {}", told(DEFAULT_PENALTY)),
    };
    format!("at the penalty {}{why}{other}", told(settings.penalty))
}

fn settings_words(settings: Settings) -> String {
    let units = if settings.whole_units { "whole units" } else { "half units" };
    let mode = if settings.closed { "closed mode" } else { "the crate's mode" };
    format!("breaks on {units}, the light lines where there is room for them; {mode}")
}

fn entries(entries: &[Entry]) -> String {
    let mut svg = String::new();
    for (i, (mark, words)) in entries.iter().enumerate() {
        let x = MARGIN + 12.0 + COLUMN * (i % COLUMNS) as f64;
        let y = 124.0 + ROW * (i / COLUMNS) as f64;
        svg.push_str(&mark(Place { x, y }));
        svg.push_str(&svg::text(Place { x: x + 18.0, y: y + 4.0 }, 12.0, svg::TEXT, "", words));
    }
    svg
}

fn on_curve(at: Place) -> String {
    svg::on_curve_mark(at, svg::AFTER)
}

fn off_curve(at: Place) -> String {
    let handle = svg::segment(Place { x: at.x - 9.0, y: at.y + 5.0 }, at, svg::AFTER.line, svg::HANDLE);
    handle + &svg::off_curve_mark(at, svg::AFTER)
}

fn corner(at: Place) -> String {
    svg::corner_mark(at) + &on_curve(at)
}

fn a_break(at: Place) -> String {
    let outline = svg::segment(
        Place { x: at.x - 10.0, y: at.y },
        Place { x: at.x + 10.0, y: at.y },
        svg::AFTER.line,
        "stroke-width=\"1.3\"",
    );
    outline + &svg::break_mark(at, (1.0, 0.0))
}

fn start(at: Place) -> String {
    svg::start_mark(Place { x: at.x - 15.0, y: at.y }, (1.0, 0.0), svg::AFTER)
}

fn ghost(at: Place) -> String {
    dashed(at, svg::GHOST, svg::GHOST_DASHES)
}

fn refused(at: Place) -> String {
    dashed(at, svg::CORNER, svg::HALO)
}

fn lost(at: Place) -> String {
    dashed(at, svg::LOST, svg::LOST_DASHES)
}

fn dashed(at: Place, colour: &str, dashes: &str) -> String {
    svg::segment(Place { x: at.x - 10.0, y: at.y }, Place { x: at.x + 11.0, y: at.y }, colour, dashes)
}

#[cfg(test)]
mod tests {
    use super::*;

    #[test]
    fn no_entry_reaches_the_next() {
        for (_, words) in ENTRIES {
            assert!(30.0 + svg::width(words, 12.0) < COLUMN, "{words}");
        }
        let longest = Settings::default().with_penalty(255).with_whole_units(true);
        for words in [&penalty_words(longest, false), &settings_words(longest), NOTES[0], NOTES[1]] {
            assert!(svg::width(words, 12.0) < WIDTH - 2.0 * MARGIN, "{words}");
        }
    }

    #[test]
    fn the_default_of_an_order_is_told() {
        let words = penalty_words(Settings::of_crate(), false);
        assert!(words.contains("1.0 (16 sixteenths)") && words.contains("2.0 (32 sixteenths)"), "{words}");
        assert!(!penalty_words(Settings::default(), true).contains("order"));
    }
}
