//! Reads contours one a line, has the Rust work them, writes the answers.
//!
//! A child of the edited Rust, since only a child sees its private items.

use super::fonttools::tables::glyf::contourutils::glyf_contour_to_kurbo_contour;
use super::fonttools::tables::glyf::{Glyph, Point as GlyfPoint};
use super::hooks::{self, Ending, Keep, Piece, Refused, Run, Settings};
use super::{crunch_contour, crunch_glyph, intersect, segment_sp};
use super::{Break, QBMonkeyPatch, Statelet, Thetas};
use kurbo::{PathSeg, Point, QuadBez};
use std::cell::RefCell;
use std::io::{self, BufRead, Write};
use std::panic::{self, AssertUnwindSafe};
use std::time::{Duration, Instant};

const HELP: &str = include_str!("help.txt");

#[derive(Clone, Copy, Default)]
enum Mode {
    #[default]
    Crunch,
    Runs,
    Chain(usize),
    Bent,
    Corners,
    Breaks,
    Samples,
    Measures(usize),
}

/// What the words ask for.
#[derive(Default)]
struct Asked {
    mode: Mode,
    timed: bool,
    /// the count of lookups that fell, at the end of each answer
    fallen: bool,
    /// the segments of each piece's breaks
    segments: bool,
    settings: Settings,
}

pub fn main() {
    let asked = match options(std::env::args().skip(1)) {
        Ok(asked) => asked,
        Err(message) => {
            eprintln!("{message}; see --help");
            std::process::exit(2)
        }
    };
    hooks::choose(asked.settings);
    watch_panics();
    match serve(&asked) {
        Ok(spent) if asked.timed => eprintln!("{:.6}", spent.as_secs_f64()),
        Ok(_) => {}
        // a reader that has seen enough is no fault of ours
        Err(fault) if fault.kind() == io::ErrorKind::BrokenPipe => {}
        Err(fault) => {
            eprintln!("{fault}");
            std::process::exit(1)
        }
    }
}

fn options(mut args: impl Iterator<Item = String>) -> Result<Asked, String> {
    let mut asked = Asked::default();
    while let Some(arg) = args.next() {
        match arg.as_str() {
            "--help" => {
                print!("{HELP}");
                std::process::exit(0)
            }
            "--time" => asked.timed = true,
            "--fallen" => asked.fallen = true,
            "--segments" => asked.segments = true,
            "--penalty" => asked.settings.penalty = count(&arg, args.next())?,
            "--whole-units" => asked.settings.whole_units = true,
            "--closed" => asked.settings.closed = true,
            "--runs" => asked.choose(Mode::Runs)?,
            "--chain" => asked.choose(Mode::Chain(count(&arg, args.next())? as usize))?,
            "--bent" => asked.choose(Mode::Bent)?,
            "--corners" => asked.choose(Mode::Corners)?,
            "--breaks" => asked.choose(Mode::Breaks)?,
            "--samples" => asked.choose(Mode::Samples)?,
            "--measures" => asked.choose(Mode::Measures(count(&arg, args.next())? as usize))?,
            _ => return Err(format!("unknown option {arg}")),
        }
    }
    if asked.fallen && !asked.works_runs() {
        return Err("--fallen is of modes that work runs".to_string());
    }
    if asked.segments && !asked.shows_chains() {
        return Err("--segments is of --runs and --chain".to_string());
    }
    Ok(asked)
}

/// The number after an option.
fn count(option: &str, word: Option<String>) -> Result<u32, String> {
    let number = word.and_then(|word| word.parse().ok());
    number.ok_or(format!("{option} needs a number"))
}

impl Asked {
    fn choose(&mut self, mode: Mode) -> Result<(), String> {
        if !matches!(self.mode, Mode::Crunch) {
            return Err("one of the modes at a time".to_string());
        }
        self.mode = mode;
        Ok(())
    }

    fn works_runs(&self) -> bool {
        matches!(self.mode, Mode::Crunch | Mode::Bent) || self.shows_chains()
    }

    fn shows_chains(&self) -> bool {
        matches!(self.mode, Mode::Runs | Mode::Chain(_))
    }

    /// The end of an answer, where it is asked for.
    fn count(&self, fallen: u64) -> String {
        if self.fallen {
            format!(" fallen {fallen}")
        } else {
            String::new()
        }
    }
}

/// Answers every line; how long the work took, reading and parsing left out.
fn serve(asked: &Asked) -> io::Result<Duration> {
    let mut input = io::BufReader::with_capacity(1 << 20, io::stdin().lock());
    let mut out = io::BufWriter::with_capacity(1 << 20, io::stdout().lock());
    let mut spent = Duration::ZERO;
    let mut line = vec![];
    while input.read_until(b'\n', &mut line)? > 0 {
        match parse(&line) {
            None => writeln!(out, "malformed")?,
            Some(points) => match judge(&points) {
                Some(number) => writeln!(out, "refused {number}{}", asked.count(0))?,
                None => {
                    let begun = Instant::now();
                    answer(points, asked, &mut out)?;
                    spent += begun.elapsed()
                }
            },
        }
        line.clear()
    }
    out.flush()?;
    Ok(spent)
}

// ---- reading and judging

fn parse(line: &[u8]) -> Option<Vec<GlyfPoint>> {
    let line = std::str::from_utf8(line).ok()?;
    let numbers = line
        .split_ascii_whitespace()
        .map(whole)
        .collect::<Option<Vec<i32>>>()?;
    if numbers.len() % 3 != 0 {
        return None;
    }
    numbers.chunks(3).map(point).collect()
}

fn whole(word: &str) -> Option<i32> {
    // the parser takes a plus sign, which no other reader of these lines need take
    if word.starts_with('+') {
        return None;
    }
    word.parse().ok()
}

fn point(three: &[i32]) -> Option<GlyfPoint> {
    let flag = u8::try_from(three[2]).ok()?;
    Some(GlyfPoint {
        x: i16::try_from(three[0]).ok()?,
        y: i16::try_from(three[1]).ok()?,
        on_curve: flag & 1 == 1,
    })
}

/// Refusals 2 to 5, then 16; 1 cannot be met in a line of whole points.
fn judge(points: &[GlyfPoint]) -> Option<u32> {
    if points.is_empty() {
        Some(2)
    } else if points.len() > 1_024 {
        Some(3)
    } else if !points[0].on_curve {
        Some(4)
    } else if points
        .windows(2)
        .any(|two| !two[0].on_curve && !two[1].on_curve)
    {
        Some(5)
    } else if !(1..=256).contains(&hooks::settings().penalty) {
        Some(16)
    } else {
        None
    }
}

// ---- panics

enum Stop {
    Refused(u32),
    Overflow,
    Panic(String),
}

thread_local! {
    static LAST_PANIC: RefCell<(String, String)> = RefCell::default();
}

/// Panics are answers here: kept, not printed.
fn watch_panics() {
    panic::set_hook(Box::new(|info| {
        let file = info.location().map_or("", |l| l.file()).to_string();
        let payload = info.payload();
        let text = payload.downcast_ref::<&str>().map(|s| s.to_string());
        let text = text.or_else(|| payload.downcast_ref::<String>().cloned());
        LAST_PANIC.with(|p| *p.borrow_mut() = (file, text.unwrap_or_default()))
    }))
}

fn guarded<T>(work: impl FnOnce() -> T) -> Result<T, Stop> {
    panic::catch_unwind(AssertUnwindSafe(work)).map_err(|payload| {
        if let Some(Refused(number)) = payload.downcast_ref::<Refused>() {
            return Stop::Refused(*number);
        }
        let (file, text) = LAST_PANIC.with(|p| p.take());
        // main.rs is the Rust's own text; its only indexing that can fail is of samples
        if file.ends_with("main.rs") && text.starts_with("index out of bounds") {
            Stop::Refused(8)
        } else if text == "attempt to add with overflow" {
            Stop::Overflow
        } else {
            Stop::Panic(text.replace('\n', " "))
        }
    })
}

impl std::fmt::Display for Stop {
    fn fmt(&self, f: &mut std::fmt::Formatter) -> std::fmt::Result {
        match self {
            Stop::Refused(number) => write!(f, "refused {number}"),
            Stop::Overflow => write!(f, "stopped overflow"),
            Stop::Panic(text) => write!(f, "panic {text}"),
        }
    }
}

// ---- answers

struct Bits(f64);

impl std::fmt::Display for Bits {
    fn fmt(&self, f: &mut std::fmt::Formatter) -> std::fmt::Result {
        // hosts differ in the NaN they make, and all NaNs count as equal
        let bits = if self.0.is_nan() {
            0x7ff8_0000_0000_0000
        } else {
            self.0.to_bits()
        };
        write!(f, "{bits:016x}")
    }
}

fn answer(points: Vec<GlyfPoint>, asked: &Asked, out: &mut impl Write) -> io::Result<()> {
    match asked.mode {
        Mode::Crunch => crunch(points, Keep::Nothing, asked, out),
        Mode::Runs => crunch(points, Keep::Runs, asked, out),
        Mode::Chain(number) => chain(&points, number, asked, out),
        Mode::Bent => bent_pieces(&points, asked, out),
        Mode::Corners => corners(&points, out),
        Mode::Breaks | Mode::Samples | Mode::Measures(_) => surveys(&points, asked.mode, out),
    }
}

fn crunch(
    points: Vec<GlyfPoint>,
    keep: Keep,
    asked: &Asked,
    out: &mut impl Write,
) -> io::Result<()> {
    hooks::start(keep);
    let glyph = Glyph {
        contours: vec![points],
    };
    let result = guarded(|| crunch_glyph(&glyph));
    match &result {
        Ok(crunched) => {
            write!(out, "ok {}", hooks::pairs())?;
            for p in &crunched.contours[0] {
                write!(out, " {} {} {}", p.x, p.y, p.on_curve as u8)?
            }
            writeln!(out, "{}", asked.count(hooks::fallen()))?
        }
        Err(stop) => writeln!(out, "{stop}{}", asked.count(0))?,
    }
    for run in hooks::runs() {
        describe(&run, result.as_ref().err(), asked, out)?
    }
    Ok(())
}

fn describe(run: &Run, stop: Option<&Stop>, asked: &Asked, out: &mut impl Write) -> io::Result<()> {
    write!(out, "run {}", run.number)?;
    match (&run.ending, stop) {
        (Ending::Copied, _) => return writeln!(out, " copied{}", asked.count(0)),
        (Ending::Open, Some(stop)) => return writeln!(out, " {stop}{}", asked.count(0)),
        _ => {}
    }
    write!(out, " samples {} length {}", run.samples, Bits(run.length))?;
    write!(out, " breaks {} pairs {}", run.breaks, run.pairs)?;
    if let Ending::Chain {
        score,
        pieces,
        fallen,
    } = &run.ending
    {
        write!(out, " score {} chain {}", Bits(*score), pieces.len())?;
        show_pieces(pieces, asked, out)?;
        write!(out, "{}", asked.count(run.fallen))?;
        if asked.fallen {
            write!(out, " {fallen}")?
        }
        writeln!(out)
    } else {
        writeln!(out, " unchanged{}", asked.count(run.fallen))
    }
}

fn show_pieces(pieces: &[Piece], asked: &Asked, out: &mut impl Write) -> io::Result<()> {
    for p in pieces {
        write!(out, " {} {}", p.start, p.end)?;
        write!(out, " {} {}", Bits(p.control.x), Bits(p.control.y))?;
        if asked.segments {
            write!(out, " {} {}", p.segments[0], p.segments[1])?
        }
    }
    Ok(())
}

/// One run alone, whatever the others do, as the command's `chain` gives it.
fn chain(
    points: &[GlyfPoint],
    number: usize,
    asked: &Asked,
    out: &mut impl Write,
) -> io::Result<()> {
    let runs = listed(points);
    let run = runs.iter().find(|run| run.number == number);
    let Some(run) = run.filter(|run| !matches!(run.ending, Ending::Copied)) else {
        return writeln!(out, "refused 10{}", asked.count(0));
    };
    hooks::start(Keep::Runs);
    hooks::begin(run.number, run.first, run.of, &run.quads);
    let worked = guarded(|| Thetas::new(&run.quads).optimize(hooks::settings().per_piece()));
    match worked {
        Err(stop) => return writeln!(out, "{stop}{}", asked.count(0)),
        Ok(None) => write!(out, "unchanged {}", hooks::pairs())?,
        Ok(Some(_)) => {
            if let Some(Ending::Chain { score, pieces, .. }) =
                hooks::runs().first().map(|r| &r.ending)
            {
                write!(
                    out,
                    "ok {} {} {}",
                    hooks::pairs(),
                    Bits(*score),
                    pieces.len()
                )?;
                show_pieces(pieces, asked, out)?
            }
        }
    }
    writeln!(out, "{}", asked.count(hooks::fallen()))
}

/// Of each run the chain of one piece that is bent, whatever the optimiser finds.
fn bent_pieces(points: &[GlyfPoint], asked: &Asked, out: &mut impl Write) -> io::Result<()> {
    let runs = listed(points);
    writeln!(out, "contour")?;
    for run in runs {
        write!(out, "run {}", run.number)?;
        if let Ending::Copied = run.ending {
            writeln!(out, " copied{}", asked.count(0))?;
            continue;
        }
        hooks::start(Keep::Nothing);
        match guarded(|| bent_piece(&run.quads)) {
            Err(stop) => writeln!(out, " {stop}{}", asked.count(0))?,
            Ok(None) => writeln!(out, " none{}", asked.count(0))?,
            Ok(Some(piece)) => {
                write!(out, " score {} chain 1", Bits(piece.score))?;
                let control = piece.quad.p1;
                write!(out, " {} {}", piece.from, piece.to)?;
                write!(out, " {} {}", Bits(control.x), Bits(control.y))?;
                writeln!(out, "{}", asked.count(hooks::fallen()))?
            }
        }
    }
    Ok(())
}

/// The bent piece from the first break to the last, scored by the Rust as a run's first piece.
fn bent_piece(quads: &[QuadBez]) -> Option<Statelet> {
    let curve = Thetas::new(quads);
    let breaks = curve.find_breaks()?;
    let (first, last) = (breaks.first()?, breaks.last()?);
    let control = intersect(first.xy, first.dir, last.xy, last.dir)?;
    let quad = QuadBez::new(first.xy, control.round(), last.xy);
    let mut piece = Statelet {
        from: 0,
        to: breaks.len() - 1,
        prev: None,
        score: 0.0,
        quad,
    };
    let measure = curve.measure_quad(first.s, last.s, &quad);
    piece.combine(None, measure, quad, hooks::settings().per_piece());
    Some(piece)
}

fn corners(points: &[GlyfPoint], out: &mut impl Write) -> io::Result<()> {
    let segments: Vec<PathSeg> = glyf_contour_to_kurbo_contour(points).segments().collect();
    write!(out, "corners {}:", segments.len())?;
    for mark in segment_sp(&segments) {
        write!(out, " {mark}")?
    }
    write!(out, " ;")?;
    for segment in segments {
        let quad = match segment {
            PathSeg::Line(l) => straight(l.p0, l.p1),
            PathSeg::Quad(q) => q,
            PathSeg::Cubic(_) => unreachable!("no cubic is ever made"),
        };
        write!(out, " {}", Bits(quad.arclen()))?
    }
    writeln!(out)
}

fn straight(from: Point, to: Point) -> QuadBez {
    QuadBez::new(from, from.lerp(to, 0.5), to)
}

// ---- runs by themselves: the Rust chooses them, each is then surveyed whatever the others do

/// The runs that the Rust chooses, none of them worked.
fn listed(points: &[GlyfPoint]) -> Vec<Run> {
    hooks::start(Keep::Curves);
    crunch_contour(glyf_contour_to_kurbo_contour(points));
    hooks::runs()
}

fn surveys(points: &[GlyfPoint], mode: Mode, out: &mut impl Write) -> io::Result<()> {
    let runs = listed(points);
    hooks::start(Keep::Nothing);
    writeln!(out, "contour")?;
    for run in runs {
        write!(out, "run {}", run.number)?;
        match run.ending {
            Ending::Copied => write!(out, " copied")?,
            _ => survey(&run.quads, mode, out)?,
        }
        writeln!(out)?
    }
    Ok(())
}

fn survey(quads: &[QuadBez], mode: Mode, out: &mut impl Write) -> io::Result<()> {
    let surveyed = guarded(|| {
        let curve = Thetas::new(quads);
        // samples are shown even where the breaks would be refused
        let breaks = match mode {
            Mode::Samples => vec![],
            _ => curve.find_breaks().unwrap_or_default(),
        };
        (curve, breaks)
    });
    let (curve, breaks) = match surveyed {
        Ok(both) => both,
        Err(stop) => return write!(out, " {stop}"),
    };
    write!(
        out,
        " samples {} length {}",
        curve.xys.len(),
        Bits(curve.arclen)
    )?;
    if let Mode::Samples = mode {
        return show_samples(&curve, out);
    }
    write!(out, " breaks {}", breaks.len())?;
    match mode {
        Mode::Measures(count) => show_measures(&curve, &breaks, count, out),
        _ => show_breaks(&breaks, out),
    }
}

fn show_samples(curve: &Thetas, out: &mut impl Write) -> io::Result<()> {
    for (xy, dir) in curve.xys.iter().zip(&curve.dirs) {
        write!(
            out,
            " {} {} {} {}",
            Bits(xy.x),
            Bits(xy.y),
            Bits(dir.x),
            Bits(dir.y)
        )?
    }
    Ok(())
}

fn show_breaks(breaks: &[Break], out: &mut impl Write) -> io::Result<()> {
    for b in breaks {
        write!(out, " {} {} {}", Bits(b.s), Bits(b.xy.x), Bits(b.xy.y))?;
        write!(out, " {} {}", Bits(b.dir.x), Bits(b.dir.y))?
    }
    Ok(())
}

/// Pairs strewn over the run by two primes, so that any port can name the same ones.
fn show_measures(
    curve: &Thetas,
    breaks: &[Break],
    count: usize,
    out: &mut impl Write,
) -> io::Result<()> {
    let n = breaks.len();
    for k in 0..if n == 0 { 0 } else { count } {
        let i = (k * 7_919) % n;
        let j = i + (k * 104_729 + 1) % (n - i);
        let (from, to) = (&breaks[i], &breaks[j]);
        write!(out, " {i} {j} ")?;
        show_measure(curve, from, to, &straight(from.xy, to.xy), out)?;
        write!(out, " ")?;
        match intersect(from.xy, from.dir, to.xy, to.dir) {
            None => write!(out, "-")?,
            Some(at) => {
                let bent = QuadBez::new(from.xy, at.round(), to.xy);
                show_measure(curve, from, to, &bent, out)?
            }
        }
    }
    Ok(())
}

fn show_measure(
    curve: &Thetas,
    from: &Break,
    to: &Break,
    quad: &QuadBez,
    out: &mut impl Write,
) -> io::Result<()> {
    match guarded(|| curve.measure_quad(from.s, to.s, quad)) {
        Ok(measure) => write!(out, "{}", Bits(measure)),
        Err(Stop::Refused(8)) => write!(out, "8"),
        Err(stop) => write!(out, "{stop}"),
    }
}
