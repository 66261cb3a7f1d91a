//! What may help where a contour is refused.

use crate::refusal::Refusal;
use crate::rows::{BREAK_ROOM, SAMPLE_ROOM};

use super::words::short;
use super::{Came, Extent, Run, Trace};

/// Of the contour; where a run is refused, of that run.
pub(super) fn of(trace: &Trace) -> Option<String> {
    let refusal = trace.result.as_ref().err()?;
    Some(match trace.refused_run() {
        Some(k) => format!("run {k} {}", of_run(&trace.runs[k])?),
        None => of_contour(*refusal)?.to_owned(),
    })
}

fn of_contour(refusal: Refusal) -> Option<&'static str> {
    Some(match refusal {
        Refusal::NoPoint => "leave the contour out",
        Refusal::TooManyPoints => {
            "`fontcrunch clean` drops repeated points; else cut the outline into several contours"
        }
        Refusal::StartsOffCurve | Refusal::OffCurveNeighbours => {
            "`fontcrunch explicit` turns the contour to an on-curve point and writes out implied points"
        }
        Refusal::OutputTooShort => "give the cruncher more room for points",
        Refusal::NoSuchPenalty => "give a penalty from 1 to 256",
        Refusal::NoOnCurve => "put an on-curve point into the contour",
        _ => return None,
    })
}

fn of_run(run: &Run) -> Option<String> {
    let Came::Refused(refusal) = run.came else {
        return None;
    };
    let Extent { length, samples, breaks, on_whole_units } = run.beside;
    let long = format!("is {} units long", short(length, 1));
    let cut = "a corner within it makes two runs of it";
    Some(match refusal {
        Refusal::TooManySamples => format!("{long} and needs {samples} samples, room {SAMPLE_ROOM}; {cut}"),
        Refusal::TooManyBreaks => {
            let count = breaks.unwrap_or(0);
            let grid = match on_whole_units {
                Some(fewer) if fewer <= BREAK_ROOM => {
                    format!("on whole units it has {fewer}, for which there is room; ")
                }
                Some(fewer) => format!("on whole units it still has {fewer}; "),
                None => String::new(),
            };
            format!("{long} and has {count} breaks, room {BREAK_ROOM}; {grid}{cut}")
        }
        _ => format!("{long}; another penalty or whole units may be worked, and {cut}"),
    })
}
