use super::*;
use fontcrunch::{Cruncher, Point};

fn traced(numbers: &[i16]) -> Trace {
    let points: Vec<Point> =
        numbers.chunks(3).map(|p| Point { x: p[0], y: p[1], on_curve: p[2] == 1 }).collect();
    Cruncher::new(Settings::of_crate()).trace(&points)
}

fn block(traces: &[Trace], malformed: &[String]) -> Block {
    let stood = traces.iter().map(|trace| trace.points.len()).sum();
    block::drawn(&Subject { title: "a", traces, stood, malformed, settings: Settings::of_crate() }, 0.0)
}

#[test]
fn every_height_has_a_head_of_one_length() {
    let lengths = [0.0, 84.0, 1234.56, 9_999_999_999.9].map(|height| head(height).len());
    assert!(lengths.iter().all(|&length| length == lengths[0]), "{lengths:?}");
}

/// The x and the words of each text that starts at its place.
fn texts(svg: &str) -> Vec<(f64, String)> {
    svg.split("<text x=\"")
        .skip(1)
        .filter(|text| !text.contains("text-anchor"))
        .map(|text| {
            let x = text.split('"').next().unwrap().parse().unwrap();
            (x, text.split_once('>').unwrap().1.split("</text>").next().unwrap().to_owned())
        })
        .collect()
}

#[test]
fn the_words_of_a_refusal_stay_inside() {
    let long = block(&[traced(&[0, 0, 1, 100, 0, 1, 800, 0, 0, 800, 700, 1, 0, 700, 1])], &[]);
    let words = texts(&long.svg);
    assert!(words.iter().any(|(_, text)| text.contains("is too long")), "{words:?}");
    assert!(words.iter().any(|(_, text)| text.contains("run 0 is 1236.3 units long")), "{words:?}");
    for (x, text) in words {
        assert!(x + svg::width(&text, 12.0) < WIDTH, "{text}");
    }
    // a contour of no extent gets a panel as high as its words
    let none = block(&[traced(&[])], &[]);
    let lowest = none
        .svg
        .split("<text x=")
        .filter_map(|text| text.split(" y=\"").nth(1)?.split('"').next()?.parse().ok());
    assert!(lowest.fold(0.0, f64::max) < none.height, "{}", none.height);
}

#[test]
fn a_malformed_line_is_shown_as_such() {
    let wrong = block(&[], &["number 1, 'x', is not a whole number".to_owned()]).svg;
    assert!(wrong.contains(">malformed</text>") && wrong.contains("is not a whole number"), "{wrong}");
}

#[test]
fn contours_together_are_one_path() {
    let outer = traced(&[0, 0, 1, 0, 100, 1, 100, 100, 1, 100, 0, 1]);
    let inner = traced(&[20, 20, 1, 80, 20, 1, 80, 80, 1, 20, 80, 1]);
    let together = block(&[outer, inner], &[]).svg;
    let filled = together.lines().find(|line| line.contains("fill=\"#eceff2\"")).unwrap();
    assert_eq!(filled.matches('Z').count(), 2, "{filled}");
    assert!(together.contains("2 contours, 8 \u{2192} 8 points"));
}

#[test]
fn corners_and_segments_have_titles() {
    let hill =
        block(&[traced(&[0, 0, 1, 0, 60, 0, 40, 90, 1, 80, 120, 0, 130, 120, 1, 200, -40, 1])], &[]).svg;
    let title = "<title>segment 2 at (130, 120): turns back in y; bend of 66.4 degrees, limit 1.15</title>";
    // before and after
    assert_eq!(hill.matches(title).count(), 2, "{hill}");
    assert_eq!(hill.matches("<title>segment 1</title>").count(), 1);
    assert_eq!(hill.matches("<title>replaces segments 0 to 1, at most ").count(), 1);
    for number in 0..4 {
        assert!(hill.contains(&format!("text-anchor=\"middle\">{number}</text>")), "{number}");
    }
}
