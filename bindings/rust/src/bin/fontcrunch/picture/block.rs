//! One contour of the picture, or all contours of a letter: outlines before on the left, after on the right, at one scale
//! and in one place of their panels.

use fontcrunch::outline::{Outline, Place};
use fontcrunch::trace::{Came, Run, Worked};
use fontcrunch::{Point, Settings, Trace};

use super::grid;
use super::labels::Labels;
use super::svg::{self, Ink};
use super::view::{fitting, Extent, View};
use super::{MARGIN, WIDTH};

const GAP: f64 = 20.0;
const PANEL: f64 = (WIDTH - 2.0 * MARGIN - GAP) / 2.0;
/// From a panel's edge to the outline: marks reach beyond their places.
const INSET: f64 = 34.0;
const TALLEST: f64 = 640.0;
/// Above the panels, and within a panel above the outline.
const TITLE: f64 = 44.0;
const CAPTION: f64 = 30.0;
/// Within a panel, below the outline.
const FOOT: f64 = 22.0;
/// A line of text within a panel.
const LINE: f64 = 18.0;

/// Contours with their title, what is wrong with lines that are none, and what they were crunched at.
pub struct Subject<'a> {
    pub title: &'a str,
    pub traces: &'a [Trace],
    /// How many points stand in the file.
    pub stood: usize,
    pub malformed: &'a [String],
    pub settings: Settings,
}

pub struct Block {
    pub svg: String,
    pub height: f64,
}

/// A panel's place on the picture.
#[derive(Clone, Copy)]
struct Panel {
    left: f64,
    top: f64,
    height: f64,
}

pub fn drawn(subject: &Subject, top: f64) -> Block {
    let points = subject.traces.iter().flat_map(|trace| trace.points.iter().chain(after(trace)));
    let extent = Extent::of(points.map(|&point| Place::from(point)));
    let scale = fitting(&extent, PANEL - 2.0 * INSET, TALLEST);
    let faults = faults(subject);
    let room = (extent.height() * scale + 2.0 * INSET + CAPTION + FOOT).max(text_height(&faults));
    let left = Panel { left: MARGIN, top: top + TITLE, height: room };
    let right = Panel { left: MARGIN + PANEL + GAP, ..left };

    let mut svg = heading(subject, top);
    svg.push_str(&left_panel(left, left.view(&extent, scale), &extent, subject));
    svg.push_str(&right_panel(right, right.view(&extent, scale), &extent, subject, &faults));
    Block { svg, height: TITLE + room + GAP }
}

/// The points that came out; none where the contour is refused.
fn after(trace: &Trace) -> &[Point] {
    trace.result.as_ref().map_or(&[][..], |crunched| &crunched.points)
}

impl Panel {
    fn view(&self, extent: &Extent, scale: f64) -> View {
        let top = self.top + CAPTION + INSET;
        View::new(extent, scale, self.left + INSET, top, PANEL - 2.0 * INSET)
    }

    fn frame(&self) -> String {
        format!(
            "<rect x=\"{}\" y=\"{}\" width=\"{PANEL}\" height=\"{}\" rx=\"4\" fill=\"none\" stroke=\"#d4dade\"/>\n",
            svg::number(self.left),
            svg::number(self.top),
            svg::number(self.height)
        )
    }

    fn caption(&self, name: &str, points: &[Point], ink: Ink) -> String {
        let on = points.iter().filter(|point| point.on_curve).count();
        let counts = format!(
            "{name}: {}, {} on and {} off the curve",
            svg::counted(points.len(), "point"),
            svg::grouped(on),
            svg::grouped(points.len() - on)
        );
        let at = Place { x: self.left + 12.0, y: self.top + 21.0 };
        svg::text(at, 13.0, ink.line, "", &counts)
    }
}

// ---- words

fn heading(subject: &Subject, top: f64) -> String {
    let at = Place { x: MARGIN, y: top + 30.0 };
    let end = Place { x: WIDTH - MARGIN, ..at };
    let outcome = outcome(subject);
    let title = svg::clipped(subject.title, 15.0, WIDTH - 2.0 * MARGIN - GAP - svg::width(&outcome, 13.0));
    svg::text(at, 15.0, svg::TEXT, "font-weight=\"bold\"", &title)
        + &svg::text(end, 13.0, svg::TEXT, "text-anchor=\"end\"", &outcome)
}

fn outcome(subject: &Subject) -> String {
    match subject.traces {
        [] => "malformed".to_owned(),
        [trace] => match &trace.result {
            Err(refusal) => format!("refused by {}", refusal.number()),
            Ok(crunched) => {
                let pairs = svg::counted(crunched.pairs, "pair");
                let change = match trace.beside.unchanged {
                    Some(cause) => format!("unchanged: {cause}"),
                    None => saving(subject),
                };
                format!("{change}, {pairs} tried{}", falls(crunched.fallen))
            }
        },
        traces => {
            let refused = traces.iter().filter(|trace| trace.result.is_err()).count();
            let refused = if refused > 0 { format!(", {refused} refused") } else { String::new() };
            format!("{}, {}{refused}", svg::counted(traces.len(), "contour"), saving(subject))
        }
    }
}

/// Of a contour where some lookups fell; of others nothing is said.
fn falls(number: usize) -> String {
    match number {
        0 => String::new(),
        _ => format!(", {} fell in runs marked on the left", svg::counted(number, "lookup")),
    }
}

/// Where a stretch is not written, its points are not saved but gone with it, and no per cent are told. What is refused
/// stays as it came.
fn saving(subject: &Subject) -> String {
    let (before, traces) = (subject.stood, subject.traces);
    let came = |trace: &Trace| trace.result.as_ref().map_or(trace.points.len(), |out| out.points.len());
    let after: usize = traces.iter().map(came).sum();
    let lost: usize = traces.iter().map(|trace| trace.beside.lost.len()).sum();
    let change = format!("{} \u{2192} {}", svg::grouped(before), svg::counted(after, "point"));
    if lost > 0 {
        format!("{change}, {} not written", svg::counted(lost, "segment"))
    } else if after < before {
        let percent = (100 * (before - after) + before / 2) / before;
        format!("{change} (\u{2212}{percent} %)")
    } else {
        change
    }
}

/// What is refused or malformed, in lines that fit a panel: whether each is a head, and its words.
fn faults(subject: &Subject) -> Vec<(bool, String)> {
    let mut told: Vec<(bool, String)> = vec![];
    let lines = |words: &str| svg::wrapped(words, 12.0, PANEL - 24.0).into_iter().map(|line| (false, line));
    for (i, trace) in subject.traces.iter().enumerate() {
        let Err(refusal) = &trace.result else {
            continue;
        };
        let words = refusal.to_string();
        let (number, reason) = words.split_once(": ").unwrap_or((&words, ""));
        let whose =
            if subject.traces.len() > 1 { format!("contour {i} is {number}") } else { number.to_owned() };
        told.push((true, whose));
        told.extend(lines(reason));
        if let Some(hint) = &trace.beside.hint {
            let marked = if trace.refused_run().is_some() { "; it is marked on the left" } else { "" };
            told.extend(lines(&format!("{hint}{marked}")));
        }
    }
    for reason in subject.malformed {
        told.push((true, "malformed".to_owned()));
        told.extend(lines(reason));
    }
    told
}

fn text_height(faults: &[(bool, String)]) -> f64 {
    CAPTION + FOOT + LINE * faults.len() as f64
}

fn faults_drawn(panel: Panel, faults: &[(bool, String)]) -> String {
    let line = |(i, (head, words)): (usize, &(bool, String))| {
        let at = Place { x: panel.left + 12.0, y: panel.top + CAPTION + LINE * (i as f64 + 0.5) };
        let (colour, more) = if *head { (svg::CORNER, "font-weight=\"bold\"") } else { (svg::TEXT, "") };
        svg::text(at, 12.0, colour, more, words)
    };
    faults.iter().enumerate().map(line).collect()
}

// ---- panels

fn left_panel(panel: Panel, view: View, extent: &Extent, subject: &Subject) -> String {
    let points: Vec<Point> = subject.traces.iter().flat_map(|trace| &trace.points).copied().collect();
    let empty = panel.frame() + &panel.caption("before", &points, svg::BEFORE);
    if points.is_empty() {
        return empty;
    }
    let each: Vec<(&Trace, Outline)> =
        subject.traces.iter().map(|trace| (trace, Outline::of(&trace.points))).collect();
    let data = all_paths(each.iter().map(|(_, outline)| outline), &view);
    let of_each = |draw: &dyn Fn(&Trace, &Outline) -> String| -> String {
        each.iter().map(|(trace, outline)| draw(trace, outline)).collect()
    };
    let mut labels = Labels::default();
    each.iter().for_each(|(trace, outline)| keep_off(&mut labels, &view, trace, outline));
    let reasons: String = each.iter().map(|(trace, _)| reasons_drawn(&mut labels, &view, trace)).collect();
    let numbers: String =
        each.iter().map(|(trace, outline)| numbers_drawn(&mut labels, &view, trace, outline)).collect();
    [
        empty,
        baseline(panel, &view, extent),
        svg::filled(&data, svg::BEFORE),
        of_each(&|trace, outline| refused_runs(outline, &view, trace)),
        of_each(&|trace, outline| fallen_runs(outline, &view, trace)),
        svg::stroked(&data, svg::BEFORE.line, svg::OUTLINE),
        of_each(&|trace, _| points_drawn(&trace.points, &view, svg::BEFORE)),
        of_each(&|_, outline| start_drawn(outline, &view, svg::BEFORE)),
        scale_bar(panel, &view),
        of_each(&|trace, outline| segments_told(outline, &view, trace)),
        of_each(&|trace, outline| falls_told(outline, &view, trace)),
        of_each(&|trace, _| corners_drawn(&view, trace)),
        reasons,
        numbers,
    ]
    .concat()
}

fn right_panel(
    panel: Panel,
    view: View,
    extent: &Extent,
    subject: &Subject,
    faults: &[(bool, String)],
) -> String {
    let points: Vec<Point> = subject.traces.iter().flat_map(after).copied().collect();
    let caption = if points.is_empty() { String::new() } else { panel.caption("after", &points, svg::AFTER) };
    let empty = panel.frame() + &caption;
    if points.is_empty() {
        return empty + &faults_drawn(panel, faults);
    }
    let came: Vec<(&Trace, Outline, Outline)> = subject
        .traces
        .iter()
        .filter(|trace| trace.result.is_ok())
        .map(|trace| (trace, Outline::of(&trace.points), Outline::of(after(trace))))
        .collect();
    let data = all_paths(came.iter().map(|(_, _, outline)| outline), &view);
    let ghosts = all_paths(came.iter().map(|(_, ghost, _)| ghost), &view);
    let of_each = |draw: &dyn Fn(&Trace, &Outline, &Outline) -> String| -> String {
        came.iter().map(|(trace, ghost, outline)| draw(trace, ghost, outline)).collect()
    };
    [
        empty,
        baseline(panel, &view, extent),
        svg::filled(&data, svg::AFTER),
        grid::drawn(&view, extent, grid::step(subject.settings)),
        // the old outline is under the new one, so that it shows only where they differ
        svg::stroked(&ghosts, svg::GHOST, svg::GHOST_DASHES),
        of_each(&|trace, ghost, _| lost_drawn(ghost, &view, trace)),
        svg::stroked(&data, svg::AFTER.line, svg::OUTLINE),
        of_each(&|trace, _, _| points_drawn(after(trace), &view, svg::AFTER)),
        of_each(&|_, _, outline| start_drawn(outline, &view, svg::AFTER)),
        of_each(&|trace, _, _| breaks_drawn(&view, trace)),
        of_each(&|trace, _, _| pieces_told(&view, trace)),
        of_each(&|trace, _, _| corners_after(&view, trace)),
        faults_drawn(panel, faults),
    ]
    .concat()
}

// ---- what stands in panels

/// All outlines as one path, so that what they enclose is filled as a font fills it.
fn all_paths<'a>(outlines: impl Iterator<Item = &'a Outline>, view: &View) -> String {
    outlines.map(|outline| svg::closed_path(outline, view)).collect()
}

fn baseline(panel: Panel, view: &View, extent: &Extent) -> String {
    if extent.low.y > 0.0 || extent.high.y < 0.0 {
        return String::new();
    }
    let y = view.at(Place { x: 0.0, y: 0.0 }).y;
    let from = Place { x: panel.left + 1.0, y };
    let to = Place { x: panel.left + PANEL - 1.0, y };
    svg::segment(from, to, "#c9d0d6", "stroke-width=\"0.8\"")
        + &svg::text(Place { x: from.x + 5.0, y: y - 4.0 }, 9.5, svg::QUIET, "", "y = 0")
}

/// A bar of 1, 2 or 5 units times a power of ten.
fn scale_bar(panel: Panel, view: &View) -> String {
    let units = [1.0, 2.0, 5.0, 10.0, 20.0, 50.0, 100.0, 200.0, 500.0, 1e3, 2e3, 5e3, 1e4, 2e4]
        .into_iter()
        .find(|units| units * view.scale >= 50.0)
        .unwrap_or(5e4);
    let to = Place { x: panel.left + PANEL - 14.0, y: panel.top + panel.height - 14.0 };
    let from = Place { x: to.x - units * view.scale, ..to };
    let words = format!("{} units", svg::grouped(units as usize));
    svg::segment(from, to, svg::QUIET, "stroke-width=\"1.6\"")
        + &svg::text(
            Place { x: from.x - 6.0, y: to.y + 3.5 },
            10.5,
            svg::QUIET,
            "text-anchor=\"end\"",
            &words,
        )
}

fn points_drawn(points: &[Point], view: &View, ink: Ink) -> String {
    let mark = |&point: &Point| {
        let mark = if point.on_curve { svg::on_curve_mark } else { svg::off_curve_mark };
        mark(view.at(point.into()), ink)
    };
    handles_drawn(points, view, ink) + &points.iter().map(mark).collect::<String>()
}

/// From each off-curve point to both its neighbours.
fn handles_drawn(points: &[Point], view: &View, ink: Ink) -> String {
    let mut svg = String::new();
    for (i, &point) in points.iter().enumerate() {
        let next = points[(i + 1) % points.len()];
        if !point.on_curve || !next.on_curve {
            svg.push_str(&svg::segment(view.at(point.into()), view.at(next.into()), ink.line, svg::HANDLE));
        }
    }
    svg
}

fn start_drawn(outline: &Outline, view: &View, ink: Ink) -> String {
    let Some(start) = outline.nodes.first() else {
        return String::new();
    };
    let (_, ahead) = outline.around(0);
    let at = view.at(start.place);
    svg::start_mark(at, svg::direction(at, view.at(ahead)), ink)
}

/// Words stand off rings, points and the outline itself.
fn keep_off(labels: &mut Labels, view: &View, trace: &Trace, outline: &Outline) {
    trace.corners().for_each(|(_, segment)| labels.keep_off(view.at(segment.start), svg::RING));
    trace.points.iter().for_each(|&point| labels.keep_off(view.at(point.into()), 3.0));
    for (node, curve) in outline.nodes.iter().zip(&outline.curves) {
        let control = curve.control.unwrap_or(node.place.midway(curve.end));
        for t in NEAR_MIDDLE {
            let between = |a: Place, b: Place| Place { x: a.x + t * (b.x - a.x), y: a.y + t * (b.y - a.y) };
            let place = between(between(node.place, control), between(control, curve.end));
            labels.keep_off(view.at(place), 1.5);
        }
    }
}

/// Where words stand off a curve: its number is put beside its middle.
const NEAR_MIDDLE: [f64; 9] = [0.25, 0.44, 0.46, 0.48, 0.5, 0.52, 0.54, 0.56, 0.75];

fn reasons_drawn(labels: &mut Labels, view: &View, trace: &Trace) -> String {
    trace
        .corners()
        .map(|(_, segment)| {
            let letters = svg::reason_letters(segment.why);
            labels.beside(view.at(segment.start), svg::RING, 9.0, svg::CORNER, &letters)
        })
        .collect()
}

/// The number of each segment beside its middle, where there is room; its title tells it anyway.
fn numbers_drawn(labels: &mut Labels, view: &View, trace: &Trace, outline: &Outline) -> String {
    let mut svg = String::new();
    for (i, (segment, curve)) in trace.segments.iter().zip(&outline.curves).enumerate() {
        let chord = segment.start.midway(segment.end);
        let middle = curve.control.map_or(chord, |control| chord.midway(control));
        svg.push_str(&labels.beside(view.at(middle), 4.0, 8.5, svg::QUIET, &i.to_string()));
    }
    svg
}

/// Each with a title that says why it is one.
fn corners_drawn(view: &View, trace: &Trace) -> String {
    trace
        .corners()
        .map(|(i, segment)| svg::corner_titled(view.at(segment.start), &trace.corner_words(i)))
        .collect()
}

fn segments_told(outline: &Outline, view: &View, trace: &Trace) -> String {
    let told = |i: usize| svg::titled(&svg::path(outline, view, i..i + 1), &format!("segment {i}"));
    (0..trace.segments.len()).map(told).collect()
}

fn lost_drawn(outline: &Outline, view: &View, trace: &Trace) -> String {
    let drawn = |&segment: &usize| {
        svg::stroked(&svg::path(outline, view, segment..segment + 1), svg::LOST, svg::LOST_DASHES)
    };
    trace.beside.lost.iter().map(drawn).collect()
}

/// A tick across the outline where two pieces of a run join.
fn breaks_drawn(view: &View, trace: &Trace) -> String {
    let mut svg = String::new();
    for run in &trace.runs {
        for pair in run.pieces.windows(2) {
            let (Some(before), Some(next)) = (pair[0].written, pair[1].written) else {
                continue;
            };
            let (from, to) = (before.control.unwrap_or(before.start), next.control.unwrap_or(next.end));
            let along = svg::direction(view.at(from), view.at(to));
            svg.push_str(&svg::break_mark(view.at(before.end), along));
        }
    }
    svg
}

/// Where runs begin and end in the result, each with the title of its corner.
fn corners_after(view: &View, trace: &Trace) -> String {
    let mut svg = String::new();
    let mut corner = |place: Place, segment: usize| {
        let title = trace.corner_words(segment % trace.segments.len());
        svg.push_str(&svg::corner_titled(view.at(place), &title));
    };
    for (k, run) in trace.runs.iter().enumerate() {
        let (Some(first), Some(last)) = (run.pieces.first(), run.pieces.last()) else {
            continue;
        };
        let (Some(first), Some(last)) = (first.written, last.written) else {
            continue;
        };
        // the start of the contour may be no corner, where the first one is not its start
        if k == 0 && (trace.settings.closed || run.segments.start == 0) {
            corner(first.start, run.segments.start);
        }
        if !trace.settings.closed || k + 1 < trace.runs.len() {
            corner(last.end, run.segments.end);
        }
    }
    svg
}

/// A title on each piece, which viewers show where it is pointed at: above all marks, and not seen itself.
fn pieces_told(view: &View, trace: &Trace) -> String {
    let mut svg = String::new();
    for piece in trace.pieces() {
        let Some(written) = piece.written else {
            continue;
        };
        let (first, last) = piece.segments;
        let away = piece
            .beside
            .and_then(|told| told.farthest)
            .map(|(far, _)| format!(", at most {far:.2} units away"));
        let title = format!("replaces segments {first} to {last}{}", away.unwrap_or_default());
        let to = match written.control {
            None => format!("L{}", view.text(written.end)),
            Some(control) => format!("Q{} {}", view.text(control), view.text(written.end)),
        };
        svg.push_str(&svg::titled(&format!("M{}{to}", view.text(written.start)), &title));
    }
    svg
}

/// Every run that is refused, also one that crunching does not come to.
fn refused_runs(outline: &Outline, view: &View, trace: &Trace) -> String {
    let refused = trace.runs.iter().filter(|run| matches!(run.came, Came::Refused(_)));
    refused
        .map(|run| svg::stroked(&svg::path(outline, view, run.segments.clone()), svg::CORNER, svg::HALO))
        .collect()
}

/// Each run of which some lookups fell past the samples, with its number. None counts in what is refused.
fn fallen(trace: &Trace) -> impl Iterator<Item = (usize, &Run, Worked)> {
    let counts = trace.result.is_ok();
    trace.runs.iter().enumerate().filter_map(move |(k, run)| match run.came {
        Came::Found(worked) | Came::Unchanged(worked) if counts && worked.fallen > 0 => {
            Some((k, run, worked))
        }
        _ => None,
    })
}

fn fallen_runs(outline: &Outline, view: &View, trace: &Trace) -> String {
    let drawn = |(_, run, _): (usize, &Run, Worked)| {
        svg::stroked(&svg::path(outline, view, run.segments.clone()), svg::FELL, svg::HALO)
    };
    fallen(trace).map(drawn).collect()
}

/// A title on each of these runs, as on pieces.
fn falls_told(outline: &Outline, view: &View, trace: &Trace) -> String {
    let told = |(k, run, worked): (usize, &Run, Worked)| {
        let tried = svg::counted(worked.fallen, "lookup");
        let found = svg::grouped(worked.found_fallen);
        let title =
            format!("run {k}: {tried} fell past the samples, {found} of them in the chain that was found");
        svg::titled(&svg::path(outline, view, run.segments.clone()), &title)
    };
    fallen(trace).map(told).collect()
}
