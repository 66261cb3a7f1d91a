//! The grid that breaks are rounded to, drawn where its lines would stand apart.

use fontcrunch::outline::Place;
use fontcrunch::Settings;

use super::svg;
use super::view::{Extent, View};

/// Lines nearer to each other would be a grey field.
const NARROWEST: f64 = 5.0;
const COLOUR: &str = "#c6d3e0";

/// How far apart places of the grid are.
pub fn step(settings: Settings) -> f64 {
    if settings.whole_units {
        1.0
    } else {
        0.5
    }
}

/// Over the box of the outlines; empty where the scale does not allow it.
pub fn drawn(view: &View, extent: &Extent, step: f64) -> String {
    if step * view.scale < NARROWEST {
        return String::new();
    }
    let mut data = String::new();
    for x in between(extent.low.x, extent.high.x, step) {
        let low = view.at(Place { x, y: extent.low.y });
        data.push_str(&format!("M{}V{}", view.text(Place { x, y: extent.high.y }), svg::number(low.y)));
    }
    for y in between(extent.low.y, extent.high.y, step) {
        let right = view.at(Place { x: extent.high.x, y });
        data.push_str(&format!("M{}H{}", view.text(Place { x: extent.low.x, y }), svg::number(right.x)));
    }
    svg::stroked(&data, COLOUR, "class=\"grid\" stroke-width=\"0.4\"")
}

/// From low to high; both are points of a contour, so whole numbers.
fn between(low: f64, high: f64, step: f64) -> impl Iterator<Item = f64> {
    let count = ((high - low) / step) as u32;
    (0..=count).map(move |i| low + f64::from(i) * step)
}

#[cfg(test)]
mod tests {
    use super::*;

    fn lines(width: f64, scale: f64, step: f64) -> usize {
        let extent = Extent::of([Place::ORIGIN, Place { x: width, y: 1.0 }]);
        drawn(&View::new(&extent, scale, 0.0, 0.0, 100.0), &extent, step).matches('M').count()
    }

    #[test]
    fn a_line_for_each_place_where_there_is_room() {
        assert_eq!(lines(3.0, 24.0, 1.0), 4 + 2);
        assert_eq!(lines(3.0, 24.0, 0.5), 7 + 3);
        assert_eq!(lines(3.0, 5.0, 1.0), 4 + 2);
        assert_eq!(lines(3.0, 5.0, 0.5), 0);
    }
}
