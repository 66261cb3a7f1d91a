//! A trace as one line of JSON. docs/trace.schema.json says what each name means.

use std::fmt::Write;

use crate::cruncher::Point;
use crate::outline::Place;
use crate::reasons::Reasons;
use crate::refusal::Refusal;

use super::words::limit_degrees;
use super::{Came, Piece, Run, Segment, Share, Trace, Worked, Written, BEND_LIMIT};

pub(super) fn text(trace: &Trace) -> String {
    let settings = trace.settings;
    let result = match &trace.result {
        Ok(crunched) => format!(
            "\"crunch\":{{\"points\":{},\"pairs\":{},\"fallen\":{}}}",
            points(&crunched.points),
            crunched.pairs,
            crunched.fallen
        ),
        Err(refusal) => format!("\"refused\":{}", refused(*refusal)),
    };
    format!(
        "{{\"settings\":{{\"penalty\":{},\"whole_units\":{},\"closed\":{}}},\"points\":{},{result},\
         \"segments\":{},\"runs\":{},\"beside\":{}}}",
        settings.penalty,
        settings.whole_units,
        settings.closed,
        points(&trace.points),
        list(&trace.segments, segment),
        list(&trace.runs, run),
        beside(trace)
    )
}

fn beside(trace: &Trace) -> String {
    let told = &trace.beside;
    let optional = |name: &str, text: Option<&str>| {
        text.map(|text| format!(",\"{name}\":{}", quoted(text))).unwrap_or_default()
    };
    format!(
        "{{\"lost\":{},\"limit\":{{\"sine\":{},\"degrees\":{}}}{}{}}}",
        list(&told.lost, usize::to_string),
        number(BEND_LIMIT),
        number(limit_degrees()),
        optional("unchanged", told.unchanged),
        optional("hint", told.hint.as_deref())
    )
}

fn segment(segment: &Segment) -> String {
    let control = segment.control.map(|c| format!("\"control\":{},", place(c))).unwrap_or_default();
    let bend = segment
        .beside
        .map(|b| format!(",\"beside\":{{\"sine\":{},\"degrees\":{}}}", number(b.sine), number(b.degrees)))
        .unwrap_or_default();
    format!(
        "{{\"start\":{},{control}\"end\":{},\"why\":{}{bend}}}",
        place(segment.start),
        place(segment.end),
        why(segment.why)
    )
}

fn why(why: Reasons) -> String {
    let names = why.to_string();
    list(&names.split(',').filter(|name| !name.is_empty()).collect::<Vec<_>>(), |name| quoted(name))
}

fn run(run: &Run) -> String {
    let came = match &run.came {
        Came::Copied => "\"came\":\"copied\"".to_owned(),
        Came::Found(chain) => format!("\"came\":\"found\",\"chain\":{}", worked(chain)),
        Came::Unchanged(chain) => format!("\"came\":\"unchanged\",\"chain\":{}", worked(chain)),
        Came::Refused(refusal) => format!("\"came\":\"refused\",\"refused\":{}", refused(*refusal)),
    };
    let told =
        |name: &str, count: Option<usize>| count.map(|n| format!(",\"{name}\":{n}")).unwrap_or_default();
    let breaks = told("breaks", run.beside.breaks) + &told("on_whole_units", run.beside.on_whole_units);
    format!(
        "{{\"first\":{},\"count\":{},\"reached\":{},{came},\"pieces\":{},\
         \"beside\":{{\"length\":{},\"samples\":{}{breaks}}}}}",
        run.segments.start,
        run.segments.len(),
        run.reached,
        list(&run.pieces, piece),
        number(run.beside.length),
        run.beside.samples
    )
}

fn worked(chain: &Worked) -> String {
    format!(
        "{{\"score\":{},\"pairs\":{},\"fallen\":{},\"found_fallen\":{}}}",
        number(chain.score),
        chain.pairs,
        chain.fallen,
        chain.found_fallen
    )
}

fn piece(piece: &Piece) -> String {
    let (first, last) = piece.segments;
    let mut text = format!("{{\"segments\":[{first},{last}]");
    if let Some(found) = piece.piece {
        let control = Place { x: found.control.0, y: found.control.1 };
        let _ = write!(text, ",\"breaks\":[{},{}],\"control\":{}", found.start, found.end, place(control));
    }
    if let Some(Written { start, control, end }) = piece.written {
        let control = control.map(|c| format!("\"control\":{},", place(c))).unwrap_or_default();
        let _ = write!(text, ",\"written\":{{\"start\":{},{control}\"end\":{}}}", place(start), place(end));
    }
    if let Some(told) = piece.beside {
        let _ = write!(text, ",\"beside\":{}", share(&told));
    }
    text + "}"
}

fn share(told: &Share) -> String {
    let farthest = told
        .farthest
        .map(|(far, at)| format!(",\"distance\":{},\"at\":{}", number(far), place(at)))
        .unwrap_or_default();
    format!(
        "{{\"start\":{},\"end\":{},\"straight\":{},\"penalties\":{},\"measure\":{},\"share\":{}{farthest}}}",
        place(told.start),
        place(told.end),
        told.straight,
        told.penalties,
        number(told.measure),
        number(told.share)
    )
}

fn refused(refusal: Refusal) -> String {
    let said = refusal.to_string();
    let reason = said.split_once(": ").map_or("", |(_, reason)| reason);
    format!("{{\"number\":{},\"reason\":{}}}", refusal.number(), quoted(reason))
}

fn points(points: &[Point]) -> String {
    list(points, |point| format!("[{},{},{}]", point.x, point.y, u8::from(point.on_curve)))
}

fn place(place: Place) -> String {
    format!("[{},{}]", number(place.x), number(place.y))
}

fn list<T>(items: &[T], text: impl Fn(&T) -> String) -> String {
    format!("[{}]", items.iter().map(text).collect::<Vec<_>>().join(","))
}

/// The shortest that reads back the same. What JSON has no number for is a string.
fn number(value: f64) -> String {
    if value.is_nan() {
        "\"NaN\"".to_owned()
    } else if value.is_infinite() {
        format!("\"{}Infinity\"", if value < 0.0 { "-" } else { "" })
    } else if value == 0.0 {
        "0".to_owned()
    } else {
        value.to_string()
    }
}

/// A text as a string of JSON, which may stand in a page too: no `<` comes in it.
pub fn quoted(text: &str) -> String {
    let escaped = |c: char| match c {
        '"' => "\\\"".to_owned(),
        '\\' => "\\\\".to_owned(),
        c if c < ' ' || matches!(c, '<' | '>' | '&' | '\u{7f}'..='\u{9f}' | '\u{2028}' | '\u{2029}') => {
            format!("\\u{:04x}", u32::from(c))
        }
        c => c.to_string(),
    };
    format!("\"{}\"", text.chars().map(escaped).collect::<String>())
}

#[cfg(test)]
mod tests {
    use super::*;

    #[test]
    fn numbers_that_json_has_and_has_not() {
        assert_eq!(number(1.5), "1.5");
        assert_eq!(number(-0.0), "0");
        assert_eq!(number(438.0), "438");
        assert_eq!(number(f64::NAN), "\"NaN\"");
        assert_eq!(number(f64::NEG_INFINITY), "\"-Infinity\"");
        assert_eq!(number(0.1 + 0.2), "0.30000000000000004");
    }

    #[test]
    fn a_name_cannot_end_a_script() {
        assert_eq!(quoted("a\"b\\</script>&\n"), r#""a\"b\\\u003c/script\u003e\u0026\u000a""#);
        assert_eq!(quoted("\u{2028}\u{e9}"), "\"\\u2028\u{e9}\"");
    }
}
