//! What the edited Rust calls: the settings, the rooms, the counts, and a record of each run.
//! Nothing here touches a number that the Rust works with, but for the settings.

use super::{Break, Statelet, Thetas};
use kurbo::{ParamCurve, PathEl, PathSeg, Point, QuadBez};
use std::cell::{Cell, RefCell};
use std::sync::OnceLock;

const SAMPLE_ROOM: usize = 16_384;
const BREAK_ROOM: usize = 2_048;

/// Thrown where a room is exceeded: the number that is handed back.
pub struct Refused(pub u32);

/// What a caller chooses, for all contours of a run of the program.
#[derive(Clone, Copy)]
pub struct Settings {
    /// of a piece, in sixteenths
    pub penalty: u32,
    /// breaks on whole units, as with the Rust's `HALF_STEP` false
    pub whole_units: bool,
    /// the closing run too, and points in the input's order
    pub closed: bool,
}

/// The Rust's own penalty, 1.0.
pub const CRATE_PENALTY: u32 = 16;

impl Default for Settings {
    fn default() -> Self {
        Settings {
            penalty: CRATE_PENALTY,
            whole_units: false,
            closed: false,
        }
    }
}

impl Settings {
    /// Exact for every penalty that is let through.
    pub fn per_piece(&self) -> f64 {
        self.penalty as f64 / 16.0
    }

    pub fn half_step(&self) -> bool {
        !self.whole_units
    }
}

static CHOSEN: OnceLock<Settings> = OnceLock::new();

pub fn choose(settings: Settings) {
    assert!(CHOSEN.set(settings).is_ok(), "settings are chosen once")
}

pub fn settings() -> &'static Settings {
    CHOSEN.get().expect("settings are chosen first")
}

pub enum Ending {
    Open,
    Copied,
    Unchanged,
    Chain {
        score: f64,
        pieces: Vec<Piece>,
        /// lookups that fall where the chain's own pieces are measured
        fallen: u64,
    },
}

pub struct Piece {
    pub start: usize,
    pub end: usize,
    pub control: Point,
    /// of its start break and of its end break
    pub segments: [usize; 2],
}

pub struct Run {
    pub number: usize,
    /// its first segment, of so many of the contour
    pub first: usize,
    pub of: usize,
    pub quads: Vec<QuadBez>,
    /// of each break: the contour's segment that holds its length
    pub segments: Vec<usize>,
    pub samples: usize,
    pub length: f64,
    pub breaks: usize,
    pub pairs: u64,
    pub fallen: u64,
    pub ending: Ending,
}

#[derive(Clone, Copy, PartialEq)]
pub enum Keep {
    /// Count pairs only.
    Nothing,
    /// Record what each run came to.
    Runs,
    /// Record the curves of each run and work none of them.
    Curves,
}

thread_local! {
    static PAIRS: Cell<u64> = const { Cell::new(0) };
    static FALLEN: Cell<u64> = const { Cell::new(0) };
    static KEEP: Cell<Keep> = const { Cell::new(Keep::Nothing) };
    static RUNS: RefCell<Vec<Run>> = const { RefCell::new(Vec::new()) };
    /// the running length after each quad of the last sampling
    static ENDS: RefCell<Vec<f64>> = const { RefCell::new(Vec::new()) };
}

/// A new contour: forgets the one before, which may have stopped half way.
pub fn start(keep: Keep) {
    PAIRS.with(|p| p.set(0));
    FALLEN.with(|f| f.set(0));
    KEEP.with(|k| k.set(keep));
    RUNS.with(|r| r.borrow_mut().clear());
}

pub fn pairs() -> u64 {
    PAIRS.with(|p| p.get())
}

pub fn fallen() -> u64 {
    FALLEN.with(|f| f.get())
}

pub fn runs() -> Vec<Run> {
    RUNS.with(|r| std::mem::take(&mut *r.borrow_mut()))
}

/// Where a closed contour starts: at its first corner. None in the crate's mode.
pub fn start_at(segs: &[PathSeg], corners: &[usize]) -> Option<PathEl> {
    let corner = corners.first().filter(|_| settings().closed)?;
    Some(PathEl::MoveTo(segs[*corner].start()))
}

/// The segments from one corner to the next, going round past the last segment.
pub fn between(segs: &[PathSeg], from: usize, to: usize) -> Vec<PathSeg> {
    if settings().closed && to <= from {
        [&segs[from..], &segs[..to]].concat()
    } else {
        segs[from..to].to_vec()
    }
}

fn refuse(number: u32) -> ! {
    // resume_unwind and not panic: a refusal is no fault, so no panic hook is called
    std::panic::resume_unwind(Box::new(Refused(number)))
}

#[inline(always)]
pub fn sample_room(stored: usize) {
    if stored >= SAMPLE_ROOM {
        refuse(6)
    }
}

#[inline(always)]
pub fn break_room(stored: &[Break]) {
    if stored.len() >= BREAK_ROOM {
        refuse(7)
    }
}

#[inline(always)]
pub fn pair() {
    PAIRS.with(|p| p.set(p.get() + 1))
}

#[cold]
pub fn fell() {
    FALLEN.with(|f| f.set(f.get() + 1))
}

fn add(number: usize, first: usize, of: usize, quads: &[QuadBez], ending: Ending) {
    let run = Run {
        number,
        first,
        of,
        quads: quads.to_vec(),
        segments: vec![],
        samples: 0,
        length: 0.0,
        breaks: 0,
        pairs: pairs(),
        fallen: fallen(),
        ending,
    };
    RUNS.with(|r| r.borrow_mut().push(run))
}

fn last(change: impl FnOnce(&mut Run)) {
    if KEEP.with(|k| k.get()) == Keep::Runs {
        RUNS.with(|r| change(r.borrow_mut().last_mut().expect("a run is under way")))
    }
}

/// A run is about to be sampled; true if it is to be passed over.
pub fn begin(number: usize, first: usize, of: usize, quads: &[QuadBez]) -> bool {
    let keep = KEEP.with(|k| k.get());
    if keep != Keep::Nothing {
        add(number, first, of, quads, Ending::Open);
    }
    keep == Keep::Curves
}

pub fn copied(number: usize) {
    if KEEP.with(|k| k.get()) != Keep::Nothing {
        add(number, 0, 0, &[], Ending::Copied)
    }
}

pub fn sampling() {
    ENDS.with(|e| e.borrow_mut().clear())
}

pub fn quad_ended(length: f64) {
    ENDS.with(|e| e.borrow_mut().push(length))
}

/// The place in the run of the segment that holds a length: the first whose end is not before it. A NaN is in the
/// first, a length past the end in the last.
fn holding(ends: &[f64], length: f64) -> usize {
    if length.is_nan() {
        return 0;
    }
    let found = ends.iter().position(|end| *end >= length);
    found.unwrap_or(ends.len() - 1)
}

pub fn sampled(curve: &Thetas) {
    last(|run| {
        run.samples = curve.xys.len();
        run.length = curve.arclen
    })
}

pub fn broken(breaks: &[Break]) {
    last(|run| {
        run.breaks = breaks.len();
        run.segments = ENDS.with(|ends| {
            let ends = ends.borrow();
            let place = |b: &Break| (run.first + holding(&ends, b.s)) % run.of;
            breaks.iter().map(place).collect()
        })
    })
}

pub fn unchanged() {
    last(|run| close(run, Ending::Unchanged))
}

/// The last break's answer, before the Rust walks it back to its quads.
pub fn chained(curve: &Thetas, breaks: &[Break], answer: &Statelet) {
    last(|run| {
        let pieces = pieces(answer, &run.segments);
        let ending = Ending::Chain {
            score: answer.score,
            fallen: fallen_along(curve, breaks, &pieces),
            pieces,
        };
        close(run, ending)
    })
}

/// A run is worked: its counts are what was added since it began.
fn close(run: &mut Run, ending: Ending) {
    run.pairs = pairs() - run.pairs;
    run.fallen = fallen() - run.fallen;
    run.ending = ending
}

/// What falls where these pieces are measured once more, which the optimiser's count does not see.
fn fallen_along(curve: &Thetas, breaks: &[Break], pieces: &[Piece]) -> u64 {
    let before = fallen();
    for piece in pieces {
        let (from, to) = (&breaks[piece.start], &breaks[piece.end]);
        let quad = QuadBez::new(from.xy, piece.control, to.xy);
        curve.measure_quad(from.s, to.s, &quad);
    }
    FALLEN.with(|f| f.replace(before)) - before
}

fn pieces(answer: &Statelet, segments: &[usize]) -> Vec<Piece> {
    let mut pieces = vec![];
    let mut at = Some(answer);
    while let Some(one) = at {
        pieces.push(Piece {
            start: one.from,
            end: one.to,
            control: one.quad.p1,
            segments: [segments[one.from], segments[one.to]],
        });
        at = one.prev.as_deref();
    }
    pieces.reverse();
    pieces
}
