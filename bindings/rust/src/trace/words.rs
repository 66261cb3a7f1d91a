//! What is told in words.

use crate::reasons::Reasons;

use super::{Segment, BEND_LIMIT};

/// Two decimals at most.
pub(super) fn short(value: f64, decimals: usize) -> String {
    let text = format!("{value:.decimals$}");
    if !text.contains('.') {
        return text;
    }
    text.trim_end_matches('0').trim_end_matches('.').to_owned()
}

pub(super) fn limit_degrees() -> f64 {
    BEND_LIMIT.asin().to_degrees()
}

pub(super) fn corner(index: usize, segment: &Segment) -> String {
    let place = format!("segment {index} at ({}, {})", segment.start.x, segment.start.y);
    let mut told: Vec<String> = turns(segment.why).into_iter().map(str::to_owned).collect();
    if let Some(bend) = segment.beside {
        told.push(bend_words(segment.why.angle, bend.degrees));
    }
    format!("{place}: {}", told.join("; "))
}

fn turns(why: Reasons) -> Vec<&'static str> {
    let mut told = vec![];
    match (why.x, why.y) {
        (true, true) => told.push("turns back in x and in y"),
        (true, false) => told.push("turns back in x"),
        (false, true) => told.push("turns back in y"),
        (false, false) => {}
    }
    match (why.before, why.after) {
        (true, true) => told.push("zero tangents before and after"),
        (true, false) => told.push("zero tangent before"),
        (false, true) => told.push("zero tangent after"),
        (false, false) => {}
    }
    told
}

/// A half turn has no sine to speak of, and so is no corner by angle.
fn bend_words(angle: bool, degrees: f64) -> String {
    let limit = short(limit_degrees(), 2);
    let bend = short(degrees, if degrees < 2.0 { 2 } else { 1 });
    if angle {
        format!("bend of {bend} degrees, limit {limit}")
    } else if degrees > 90.0 {
        format!("turns round by {bend} degrees, within {limit} of a half turn, which is no corner by angle")
    } else {
        format!("bend of {bend} degrees, within the limit of {limit}")
    }
}
