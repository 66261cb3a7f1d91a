use super::*;
use crate::outline::runs;

fn points(numbers: &[i16]) -> Vec<Point> {
    numbers.chunks(3).map(|p| Point { x: p[0], y: p[1], on_curve: p[2] == 1 }).collect()
}

fn traced_at(settings: Settings, numbers: &[i16]) -> Trace {
    Cruncher::new(settings).trace(&points(numbers))
}

fn traced(numbers: &[i16]) -> Trace {
    traced_at(Settings::of_crate(), numbers)
}

fn closed() -> Settings {
    Settings { closed: true, ..Settings::of_crate() }
}

const HILL: [i16; 18] = [0, 0, 1, 0, 60, 0, 40, 90, 1, 80, 120, 0, 130, 120, 1, 200, -40, 1];

/// Contours that look random, the same on every host.
fn contours(seed: u64, count: usize) -> impl Iterator<Item = Vec<Point>> {
    let mut numbers = Numbers(seed);
    (0..count).map(move |_| numbers.contour())
}

/// The state of splitmix64.
struct Numbers(u64);

impl Numbers {
    fn below(&mut self, bound: u64) -> i16 {
        self.0 = self.0.wrapping_add(0x9e37_79b9_7f4a_7c15);
        let mut z = self.0;
        z = (z ^ (z >> 30)).wrapping_mul(0xbf58_476d_1ce4_e5b9);
        z = (z ^ (z >> 27)).wrapping_mul(0x94d0_49bb_1331_11eb);
        ((z ^ (z >> 31)) % bound) as i16
    }

    /// Small steps, so that straight stretches, half turns and slight bends are common.
    fn contour(&mut self) -> Vec<Point> {
        let (mut x, mut y, mut on_curve) = (0, 0, true);
        let mut points = Vec::new();
        for _ in 0..=self.below(12) {
            points.push(Point { x, y, on_curve });
            on_curve = !on_curve || self.below(2) == 0;
            x += self.below(60) * self.below(2) - 15;
            y += self.below(5) * self.below(9) - 8;
        }
        points
    }
}

fn replaced(trace: &Trace) -> Vec<(usize, usize)> {
    trace.pieces().map(|piece| piece.segments).collect()
}

#[test]
fn a_hill() {
    let hill = traced(&HILL);
    let corners: Vec<String> = hill.corners().map(|(i, segment)| format!("{i}:{}", segment.why)).collect();
    assert_eq!(corners, ["0:x,angle", "2:y,angle", "3:x,y,angle"]);
    assert_eq!(hill.runs.iter().map(|run| run.segments.clone()).collect::<Vec<_>>(), [0..2, 2..3]);
    assert_eq!(replaced(&hill), [(0, 1), (1, 1), (2, 2)]);
    assert_eq!(hill.runs[1].came, Came::Copied);
    let places: Vec<(Place, Place)> =
        hill.pieces().map(|piece| piece.beside.map(|told| (told.start, told.end)).unwrap()).collect();
    // the joint is implied in the result, so midway between the controls
    let joint = Place::at(40.0, 90.0);
    let (start, top, foot) = (Place::ORIGIN, Place::at(130.0, 120.0), Place::at(200.0, -40.0));
    assert_eq!(places, [(start, joint), (joint, top), (top, foot)]);
    let written: Vec<Written> = hill.pieces().map(|piece| piece.written.unwrap()).collect();
    assert_eq!(written[0], Written { start, control: Some(Place::at(0.0, 60.0)), end: joint });
    assert_eq!(written[2], Written { start: top, control: None, end: foot });
    assert!(hill.beside.lost.is_empty());
    assert_eq!(
        hill.corner_words(2),
        "segment 2 at (130, 120): turns back in y; bend of 66.4 degrees, limit 1.15"
    );
}

#[test]
fn shares_make_the_score() {
    let hill = traced(&HILL);
    let Came::Found(worked) = hill.runs[0].came else {
        panic!("{:?}", hill.runs[0].came);
    };
    let shares: Vec<Share> = hill.runs[0].pieces.iter().map(|piece| piece.beside.unwrap()).collect();
    let sum: f64 = shares.iter().map(|told| told.share).sum();
    assert!((sum - worked.score).abs() < 1e-12, "{sum} {}", worked.score);
    assert_eq!(shares.iter().map(|told| told.penalties).collect::<Vec<_>>(), [2, 1]);
    assert!(shares.iter().all(|told| !told.straight && told.farthest.unwrap().0 < 1.0));
}

/// 10 for a copied line and past the last run, and for no other run.
fn assert_runs_agree(cruncher: &mut Cruncher, points: &[Point]) {
    let trace = cruncher.trace(points);
    for (k, run) in trace.runs.iter().enumerate() {
        let refused = cruncher.chain(points, k) == Err(Refusal::NoSuchRun);
        assert_eq!(refused, run.came == Came::Copied, "run {k} of {points:?}");
    }
    assert_eq!(cruncher.chain(points, trace.runs.len()), Err(Refusal::NoSuchRun), "{points:?}");
}

#[test]
fn runs_are_those_that_the_library_works() {
    for settings in [Settings::of_crate(), closed()] {
        let mut cruncher = Cruncher::new(settings);
        for contour in contours(1, 300) {
            assert_runs_agree(&mut cruncher, &contour);
        }
    }
}

/// Every piece is written, and all that is worked out agrees with the entries.
fn assert_whole(settings: Settings, contour: &[Point]) {
    let trace = Cruncher::new(settings).trace(contour);
    let angles = |segment: &Segment| segment.beside.is_some_and(|bend| bend.sine > BEND_LIMIT);
    assert!(trace.segments.iter().all(|segment| segment.why.angle == angles(segment)), "{contour:?}");
    assert!(trace.pieces().all(|piece| piece.beside.is_some()), "{contour:?}");
    let changed = trace.result.is_ok() && trace.beside.unchanged.is_none();
    assert!(trace.pieces().all(|piece| piece.written.is_some() == changed), "{contour:?}");
    let off = |a: Place, b: Place| (a.x - b.x).abs().max((a.y - b.y).abs());
    for piece in trace.pieces().filter(|piece| piece.written.is_some()) {
        let (written, told) = (piece.written.unwrap(), piece.beside.unwrap());
        // a half unit is cut as it is written; in closed mode the start stands for the last end
        assert!(settings.closed || off(written.end, told.end) <= 0.5, "{contour:?}");
        assert_eq!(written.control.is_none(), told.straight, "{contour:?}");
    }
}

#[test]
fn what_is_worked_out_agrees_with_the_entries() {
    for contour in contours(2, 300) {
        for settings in [Settings::of_crate(), closed(), Settings { whole_units: true, ..closed() }] {
            assert_whole(settings, &contour);
        }
    }
}

#[test]
fn what_lies_outside_the_corners_is_lost() {
    // the closing curve
    assert_eq!(traced(&[0, 0, 1, 100, 0, 1, 50, 100, 0]).beside.lost, [1]);
    // no corner at all
    assert_eq!(traced(&[0, 0, 1, 10, 10, 0]).beside.lost, [0]);
    // a closing line is drawn by closing
    assert_eq!(traced(&[0, 0, 1, 100, 0, 1, 0, 100, 1]).beside.lost, [0; 0]);
    // the start lies within a straight edge
    assert_eq!(traced(&[50, 0, 1, 100, 0, 1, 100, 100, 1, 0, 100, 1, 0, 0, 1]).beside.lost, [0, 4]);
    assert_eq!(traced_at(closed(), &[0, 0, 1, 100, 0, 1, 50, 100, 0]).beside.lost, [0; 0]);
}

#[test]
fn an_unchanged_contour() {
    let still = traced(&[5, 5, 1, 5, 5, 0, 5, 5, 1]);
    assert_eq!(still.beside.unchanged, Some("no chain was found for a run"));
    assert!(still.pieces().all(|piece| piece.written.is_none()));
    let no_corner = traced_at(closed(), &[0, 0, 1, 10, 10, 0]);
    assert_eq!(no_corner.beside.unchanged, Some("there is no corner"));
    assert!(no_corner.runs.is_empty());
}

#[test]
fn runs_going_round() {
    assert_eq!(runs(&[1, 2, 4], 5, false), [1..2, 2..4]);
    assert_eq!(runs(&[1, 2, 4], 5, true), [1..2, 2..4, 4..6]);
    assert_eq!(runs(&[2], 3, true), vec![2..5]);
    assert_eq!(runs(&[2], 3, false), [0..0; 0]);
    assert_eq!(runs(&[], 3, true), [0..0; 0]);
    let hill = traced_at(closed(), &HILL);
    assert_eq!(replaced(&hill), [(0, 1), (1, 1), (2, 2), (3, 3)]);
    // the start lies within a straight edge, which is the last run
    let square = traced_at(closed(), &[50, 0, 1, 100, 0, 1, 100, 100, 1, 0, 100, 1, 0, 0, 1]);
    assert_eq!(replaced(&square).last(), Some(&(4, 0)));
    assert_eq!(square.runs.last().unwrap().segments, 4..6);
}

#[test]
fn runs_whose_lookups_fell() {
    let high = Settings { penalty: 256, whole_units: true, closed: false };
    let fell = [-1795, 0, 1, -1794, 0, 1, 143, -4, 0, -3, 7, 1, -1795, -900, 1];
    let trace = traced_at(high, &fell);
    let Came::Found(worked) = trace.runs[0].came else {
        panic!("{:?}", trace.runs[0].came);
    };
    // attempts alone: none of the pieces that were found
    assert_eq!((worked.fallen, worked.found_fallen), (4, 0));
    assert_eq!(trace.result.unwrap().fallen, 4);
}

#[test]
fn what_refuses_a_contour_and_where() {
    let long = traced(&[0, 0, 1, 100, 0, 1, 800, 0, 0, 800, 700, 1, 0, 700, 1]);
    assert_eq!(long.refused_run(), Some(0));
    assert_eq!(long.runs[0].came, Came::Refused(Refusal::TooManyBreaks));
    // the run after it is told too, though crunching does not come to it
    assert_eq!((long.runs.len(), long.runs[1].reached), (2, false));
    assert!(long.runs[0].beside.breaks.unwrap() > crate::BREAK_ROOM);
    let hint = long.beside.hint.unwrap();
    assert!(hint.starts_with("run 0 is 1236.3 units long and has 2"), "{hint}");
    let off = traced(&[0, 0, 0]);
    assert!(off.runs.is_empty() && off.segments.is_empty());
    assert!(off.beside.hint.unwrap().contains("fontcrunch explicit"));
    assert_eq!(traced(&[]).result, Err(Refusal::NoPoint));
    // no run is to blame for a penalty
    let free = traced_at(Settings { penalty: 0, ..Settings::of_crate() }, &HILL);
    assert_eq!((free.refused_run(), free.result), (None, Err(Refusal::NoSuchPenalty)));
    assert_eq!((free.segments.len(), free.runs.len()), (4, 0));
}

#[test]
fn a_run_of_too_many_samples_is_not_sampled() {
    let far = i16::MAX;
    let line: Vec<i16> = [[0, 0, 1], [far, 1, 0], [far, 2, 1], [0, 4, 1]].concat();
    let trace = traced(&line);
    assert_eq!(trace.runs[0].came, Came::Refused(Refusal::TooManySamples));
    assert_eq!(trace.runs[0].beside.breaks, None);
    assert!(trace.runs[0].beside.samples > crate::SAMPLE_ROOM);
}

#[test]
fn one_point() {
    let point = traced(&[7, 9, 1]);
    assert_eq!(point.corner_words(0), "segment 0 at (7, 9): zero tangents before and after");
    assert!(point.runs.is_empty());
    let closed = traced_at(closed(), &[7, 9, 1]);
    assert_eq!(closed.runs[0].came, Came::Copied);
    assert_eq!(closed.pieces().next().unwrap().written.unwrap().end, Place::at(7.0, 9.0));
}

#[test]
fn half_turns_are_told() {
    let words = traced(&[0, 0, 1, 100, 0, 1, 50, 0, 1, 50, 60, 1]).corner_words(1);
    let half =
        "segment 1 at (100, 0): turns back in x; turns round by 180 degrees, within 1.15 of a half turn, \
                which is no corner by angle";
    assert_eq!(words, half);
}

#[test]
fn a_line_of_json() {
    let json = traced(&[7, 9, 1]).to_json();
    let expected = concat!(
        r#"{"settings":{"penalty":16,"whole_units":false,"closed":false},"points":[[7,9,1]],"#,
        r#""crunch":{"points":[[7,9,1]],"pairs":0,"fallen":0},"#,
        r#""segments":[{"start":[7,9],"end":[7,9],"why":["before","after"]}],"runs":[],"#,
        r#""beside":{"lost":[],"limit":{"sine":0.02,"degrees":1.1459919983885924}}}"#
    );
    assert_eq!(json, expected);
    let refused = traced(&[]).to_json();
    assert!(refused.contains(r#""refused":{"number":2,"reason":"the contour has no point"}"#), "{refused}");
}
