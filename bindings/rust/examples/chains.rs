//! Asks for chains, checks them, and checks copies that were damaged on purpose; `tools/chains/check`
//! holds what this prints to the oracle.
//!
//! usage: chains [--penalty N] [--whole-units] [--closed], by default as the Rust has it.
//!
//! Input: a run number and a contour on each line, `K x y f x y f ...`. Output, a line each:
//! `refused N fallen 0`, `pairs P unchanged fallen L`, or `pairs P score S chain C [START END CX CY]*C
//! fallen L M`, as the oracle writes them: L lookups fell past the samples in the run, and M as the checker
//! measured the chain. After a chain ` ; ` with the verdicts on it: `yes`, then how many harmless copies
//! were accepted and how many damaged ones refused, `harmless A/B damaged A/B`.

use std::env;
use std::io::{self, BufRead, BufWriter, Write};

use fontcrunch::{Chain, Cruncher, Piece, Point, Refusal, Settings};

const NAN_BITS: u64 = 0x7ff8_0000_0000_0000;

fn main() -> io::Result<()> {
    let mut cruncher = Cruncher::new(settings(env::args().skip(1)));
    let mut out = BufWriter::new(io::stdout().lock());
    for line in io::stdin().lock().lines() {
        let words: Vec<i64> = line?.split(' ').filter_map(|word| word.parse().ok()).collect();
        let Some((&run, contour)) = words.split_first() else { continue };
        let points: Vec<Point> = contour.chunks_exact(3).map(point).collect();
        writeln!(out, "{}", answer(&mut cruncher, &points, run as usize))?;
    }
    out.flush()
}

/// What is no such word ends the program: a comparison at other settings than were asked for would say nothing.
fn settings(mut words: impl Iterator<Item = String>) -> Settings {
    let mut settings = Settings::of_crate();
    while let Some(word) = words.next() {
        match word.as_str() {
            "--penalty" => settings.penalty = words.next().and_then(|n| n.parse().ok()).expect("a penalty"),
            "--whole-units" => settings.whole_units = true,
            "--closed" => settings.closed = true,
            _ => panic!("there is no option {word}"),
        }
    }
    settings
}

fn point(three: &[i64]) -> Point {
    Point { x: three[0] as i16, y: three[1] as i16, on_curve: three[2] & 1 == 1 }
}

fn answer(cruncher: &mut Cruncher, points: &[Point], run: usize) -> String {
    match cruncher.chain(points, run) {
        Err(refusal) => format!("refused {} fallen 0", refusal.number()),
        Ok(chain) if chain.pieces.is_empty() => {
            format!("pairs {} unchanged fallen {}", chain.pairs, chain.fallen)
        }
        Ok(chain) => {
            let verdict = cruncher.verdict(points, run, &chain);
            let accepted = if verdict.is_ok_and(|said| said.accepted) { "yes" } else { "no" };
            let fallen = format!("{} {}", chain.fallen, verdict.map_or(0, |said| said.fallen));
            let harmless = judged(cruncher, points, run, &harmless(&chain), Ok(true));
            let damaged = judged(cruncher, points, run, &damaged(&chain), Ok(false));
            format!("{} fallen {fallen} ; {accepted} harmless {harmless} damaged {damaged}", written(&chain))
        }
    }
}

fn bits(x: f64) -> u64 {
    if x.is_nan() {
        NAN_BITS
    } else {
        x.to_bits()
    }
}

fn written(chain: &Chain) -> String {
    let mut text =
        format!("pairs {} score {:016x} chain {}", chain.pairs, bits(chain.score), chain.pieces.len());
    for piece in &chain.pieces {
        let (x, y) = piece.control;
        text += &format!(" {} {} {:016x} {:016x}", piece.start, piece.end, bits(x), bits(y));
    }
    text
}

/// How many of the copies get the verdict that they should get.
fn judged(
    cruncher: &mut Cruncher,
    points: &[Point],
    run: usize,
    copies: &[Chain],
    wanted: Result<bool, Refusal>,
) -> String {
    let right = copies.iter().filter(|copy| cruncher.check(points, run, copy) == wanted).count();
    format!("{right}/{}", copies.len())
}

/// The sign of a zero turned, or another pattern for a NaN.
fn disguised(x: f64) -> f64 {
    if x == 0.0 {
        -x
    } else if x.is_nan() {
        f64::from_bits(x.to_bits() ^ 1)
    } else {
        x
    }
}

fn harmless(chain: &Chain) -> Vec<Chain> {
    let mut copy = chain.clone();
    copy.score = disguised(copy.score);
    for piece in &mut copy.pieces {
        piece.control = (disguised(piece.control.0), disguised(piece.control.1));
    }
    let mut other_pairs = chain.clone();
    other_pairs.pairs += 1;
    vec![copy, other_pairs]
}

fn next_up(x: f64) -> f64 {
    f64::from_bits(x.to_bits() + 1)
}

/// Copies that a checker must refuse. A NaN has no neighbour, so it is replaced by a number instead.
fn damaged(chain: &Chain) -> Vec<Chain> {
    let last = chain.pieces.len() - 1;
    let mut copies = Vec::new();
    let mut change = |damage: &dyn Fn(&mut Chain)| {
        let mut copy = chain.clone();
        damage(&mut copy);
        copies.push(copy);
    };
    change(&|c| c.pieces[0].start += 1);
    change(&|c| c.pieces[last].end += 1);
    change(&|c| c.pieces[last].end = u32::MAX);
    change(&|c| c.pieces[0].start = u32::MAX);
    change(&|c| c.pieces[last].control.0 = moved(c.pieces[last].control.0, next_up));
    change(&|c| c.pieces[0].control.1 = moved(c.pieces[0].control.1, next_up));
    change(&|c| c.pieces[last].control.0 = moved(c.pieces[last].control.0, |x| x + 1e-9));
    change(&|c| c.pieces[0].control.1 = f64::INFINITY);
    change(&|c| c.score = moved(c.score, next_up));
    change(&|c| c.score = f64::INFINITY);
    change(&|c| c.pieces.truncate(last));
    change(&|c| c.pieces.clear());
    change(&|c| c.pieces.push(c.pieces[last]));
    change(&|c| c.pieces.insert(0, Piece { start: 0, end: 0, control: (0.0, 0.0) }));
    if last > 0 {
        change(&|c| c.pieces.swap(0, last));
        change(&|c| c.pieces.rotate_left(1));
    }
    copies
}

fn moved(x: f64, step: impl Fn(f64) -> f64) -> f64 {
    if x.is_nan() {
        1.5
    } else {
        step(x)
    }
}
