//! The tool trace: a line of JSON for each contour, also for one that is refused and for a line that is malformed.

use fontcrunch::trace::quoted;
use fontcrunch::{Cruncher, Point};

use crate::contour_line::Malformed;
use crate::service::Status;
use crate::worker::{Answer, Reply};

/// The line; a refusal goes to standard error too.
pub fn answer(cruncher: &mut Cruncher, points: &[Point], seen: &mut Vec<String>) -> Reply {
    let trace = cruncher.trace(points);
    let refusal = trace.result.as_ref().err();
    let status = if refusal.is_some() { Status::SomeRefused } else { Status::AllCrunched };
    seen.extend(refusal.map(ToString::to_string));
    Reply { text: Some(trace.to_json()), status }
}

pub fn malformed(fault: &Malformed) -> Answer {
    Answer {
        text: Some(format!("{{\"malformed\":{}}}", quoted(&fault.to_string()))),
        status: Status::Wrong,
        messages: vec![format!("malformed: {fault}")],
        sketch: None,
    }
}
