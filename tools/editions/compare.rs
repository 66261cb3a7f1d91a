// Two editions beside two single runs, through the exports, so that every row's length can be chosen. See the
// head of tools/editions/run.
use std::env;
use std::time::{Duration, Instant};

#[repr(C)]
#[derive(Clone, Copy, Debug, PartialEq, Eq)]
struct Report {
    number: u32,
    points: usize,
    pairs: usize,
    fallen: usize,
}

#[repr(C)]
struct Reports {
    a: Report,
    b: Report,
}

#[rustfmt::skip]
extern "C" {
    fn fontcrunch_crunch(
        xs: *const i16, xs_len: usize, ys: *const i16, ys_len: usize, flags: *const u8, flags_len: usize,
        penalty: u32, whole_units: u32, closed: u32,
        ox: *mut i16, ox_len: usize, oy: *mut i16, oy_len: usize, of: *mut u8, of_len: usize,
        samples: *mut [f64; 4], samples_len: usize, breaks: *mut [f64; 6], breaks_len: usize,
        answers: *mut [f64; 3], answers_len: usize, links: *mut u32, links_len: usize,
        points: *mut [i16; 3], points_len: usize,
    ) -> Report;
    fn fontcrunch_editions(
        xs: *const i16, xs_len: usize, ys: *const i16, ys_len: usize, flags: *const u8, flags_len: usize,
        penalty_a: u32, penalty_b: u32, whole_units: u32, closed: u32,
        samples: *mut [f64; 4], samples_len: usize, breaks: *mut [f64; 6], breaks_len: usize,
        answers_a: *mut [f64; 3], answers_a_len: usize, links_a: *mut u32, links_a_len: usize,
        points_a: *mut [i16; 3], points_a_len: usize,
        ox_a: *mut i16, ox_a_len: usize, oy_a: *mut i16, oy_a_len: usize, of_a: *mut u8, of_a_len: usize,
        answers_b: *mut [f64; 3], answers_b_len: usize, links_b: *mut u32, links_b_len: usize,
        points_b: *mut [i16; 3], points_b_len: usize,
        ox_b: *mut i16, ox_b_len: usize, oy_b: *mut i16, oy_b_len: usize, of_b: *mut u8, of_b_len: usize,
    ) -> Reports;
}

struct Random(u64);

impl Random {
    fn next(&mut self) -> u64 {
        self.0 ^= self.0 << 13;
        self.0 ^= self.0 >> 7;
        self.0 ^= self.0 << 17;
        self.0 >> 11
    }
    fn below(&mut self, n: usize) -> usize {
        (self.next() % n as u64) as usize
    }
    fn one_in(&mut self, n: usize) -> bool {
        self.below(n) == 0
    }
    /// Usually the whole room, at times anything below `few`.
    fn room(&mut self, whole: usize, one_in: usize, few: usize) -> usize {
        if self.one_in(one_in) { self.below(few) } else { whole }
    }
}

#[derive(Clone, Default)]
struct Contour {
    xs: Vec<i16>,
    ys: Vec<i16>,
    flags: Vec<u8>,
}

/// What an edition has of its own. Held numbers are arbitrary: what is left must not depend on them.
#[derive(Clone, PartialEq, Debug)]
struct Own {
    answers: Vec<[f64; 3]>,
    links: Vec<u32>,
    points: Vec<[i16; 3]>,
    ox: Vec<i16>,
    oy: Vec<i16>,
    of: Vec<u8>,
}

impl Own {
    fn of(lengths: [usize; 6]) -> Own {
        let [answers, links, points, ox, oy, of] = lengths;
        Own {
            answers: vec![[3.0, -1.0, 2.5]; answers],
            links: vec![7; links],
            points: vec![[5, -6, 1]; points],
            ox: vec![-3; ox],
            oy: vec![-4; oy],
            of: vec![9; of],
        }
    }

    fn cleared(&self) -> bool {
        self.answers.iter().flatten().all(|x| x.to_bits() == 0)
            && self.links.iter().all(|&x| x == 0)
            && self.points.iter().flatten().all(|&x| x == 0)
    }

    fn outs(&self) -> (&[i16], &[i16], &[u8]) {
        (&self.ox, &self.oy, &self.of)
    }
}

struct Shared {
    samples: Vec<[f64; 4]>,
    breaks: Vec<[f64; 6]>,
}

impl Shared {
    fn of(samples: usize, breaks: usize) -> Shared {
        Shared { samples: vec![[1.5; 4]; samples], breaks: vec![[-2.5; 6]; breaks] }
    }

    fn cleared(&self) -> bool {
        self.samples.iter().flatten().all(|x| x.to_bits() == 0) && self.breaks.iter().flatten().all(|x| x.to_bits() == 0)
    }
}

type Mode = (u32, u32);

#[rustfmt::skip]
fn alone(c: &Contour, penalty: u32, (whole, closed): Mode, s: &mut Shared, e: &mut Own) -> Report {
    unsafe {
        fontcrunch_crunch(
            c.xs.as_ptr(), c.xs.len(), c.ys.as_ptr(), c.ys.len(), c.flags.as_ptr(), c.flags.len(),
            penalty, whole, closed,
            e.ox.as_mut_ptr(), e.ox.len(), e.oy.as_mut_ptr(), e.oy.len(), e.of.as_mut_ptr(), e.of.len(),
            s.samples.as_mut_ptr(), s.samples.len(), s.breaks.as_mut_ptr(), s.breaks.len(),
            e.answers.as_mut_ptr(), e.answers.len(), e.links.as_mut_ptr(), e.links.len(),
            e.points.as_mut_ptr(), e.points.len(),
        )
    }
}

#[rustfmt::skip]
fn both(c: &Contour, pa: u32, pb: u32, (whole, closed): Mode, s: &mut Shared, a: &mut Own, b: &mut Own) -> Reports {
    unsafe {
        fontcrunch_editions(
            c.xs.as_ptr(), c.xs.len(), c.ys.as_ptr(), c.ys.len(), c.flags.as_ptr(), c.flags.len(),
            pa, pb, whole, closed,
            s.samples.as_mut_ptr(), s.samples.len(), s.breaks.as_mut_ptr(), s.breaks.len(),
            a.answers.as_mut_ptr(), a.answers.len(), a.links.as_mut_ptr(), a.links.len(),
            a.points.as_mut_ptr(), a.points.len(),
            a.ox.as_mut_ptr(), a.ox.len(), a.oy.as_mut_ptr(), a.oy.len(), a.of.as_mut_ptr(), a.of.len(),
            b.answers.as_mut_ptr(), b.answers.len(), b.links.as_mut_ptr(), b.links.len(),
            b.points.as_mut_ptr(), b.points.len(),
            b.ox.as_mut_ptr(), b.ox.len(), b.oy.as_mut_ptr(), b.oy.len(), b.of.as_mut_ptr(), b.of.len(),
        )
    }
}

fn of_points(points: &[(i16, i16, u8)]) -> Contour {
    Contour {
        xs: points.iter().map(|p| p.0).collect(),
        ys: points.iter().map(|p| p.1).collect(),
        flags: points.iter().map(|p| p.2).collect(),
    }
}

/// A made contour; some are out of the domain.
fn made(r: &mut Random) -> Contour {
    let mut c = Contour::default();
    let d = r.below(3) as i16 - 1;
    // reaches 8 in measuring: 02's and the notes' example, with a point moved a little
    if r.one_in(20) {
        return of_points(&[(0, 0, 1), (432, 433, 0), (410, 410 + d, 1), (-300, 900, 1)]);
    }
    // on whole units lookups fall past the samples; a long run, so not a common one
    if r.one_in(60) {
        return of_points(&[(-1795, 0, 1), (-1794, 0, 1), (143, -4, 0), (-3, 7, 1), (-1795, d - 900, 1)]);
    }
    let n = if r.one_in(400) { 1025 } else { r.below(9) + usize::from(!r.one_in(50)) };
    let wide = [12, 40, 80][r.below(3)];
    for i in 0..n {
        let stay = i > 0 && r.one_in(12);
        c.xs.push(if stay { c.xs[i - 1] } else { r.below(wide) as i16 });
        c.ys.push(if stay { c.ys[i - 1] } else { r.below(wide) as i16 });
        let off = i > 0 && c.flags[i - 1] == 1 && r.one_in(2);
        c.flags.push(u8::from(!off) & u8::from(!r.one_in(150)));
    }
    if r.one_in(100) {
        c.ys.pop();
    }
    c
}

fn own_rooms(r: &mut Random) -> [usize; 6] {
    let mut rooms = [0; 6];
    for (k, room) in rooms.iter_mut().enumerate() {
        *room = if k < 2 { r.room(4096, 6, 700) } else { r.room(1100, 14, 20) };
    }
    rooms
}

fn compare(count: usize, seed: u64) {
    let mut r = Random(seed * 0x9e37_79b9_7f4a_7c15 + 1);
    let (mut wrong, mut unswapped, mut unclean, mut touched, mut fell) = (0, 0, 0, 0, 0);
    let (mut given, mut split) = ([0usize; 32], [0usize; 32]);
    for _ in 0..count {
        let c = made(&mut r);
        let mode = (r.below(2) as u32, r.below(2) as u32);
        let penalty = |r: &mut Random| if r.one_in(10) { [0, 257][r.below(2)] } else { r.below(256) as u32 + 1 };
        let (pa, pb) = (penalty(&mut r), penalty(&mut r));
        let rooms = (r.room(16384, 12, 120), r.room(2048, 10, 500));
        let (ra, rb) = (own_rooms(&mut r), own_rooms(&mut r));
        let shared = || Shared::of(rooms.0, rooms.1);
        let (mut s, mut a, mut b) = (shared(), Own::of(ra), Own::of(rb));
        let told = both(&c, pa, pb, mode, &mut s, &mut a, &mut b);
        let (mut s1, mut a1, mut b1) = (shared(), Own::of(ra), Own::of(rb));
        let (ta, tb) = (alone(&c, pa, mode, &mut s1, &mut a1), alone(&c, pb, mode, &mut s1, &mut b1));
        wrong += usize::from(told.a != ta || told.b != tb || a.outs() != a1.outs() || b.outs() != b1.outs());
        unclean += usize::from(!(s.cleared() && a.cleared() && b.cleared()));
        touched += usize::from(ta.number != 0 && a.outs() != Own::of(ra).outs());
        let (mut a2, mut b2) = (Own::of(ra), Own::of(rb));
        let swapped = both(&c, pb, pa, mode, &mut shared(), &mut b2, &mut a2);
        unswapped += usize::from(swapped.a != told.b || swapped.b != told.a || a2 != a || b2 != b);
        given[ta.number as usize] += 1;
        given[tb.number as usize] += 1;
        fell += usize::from(ta.fallen > 0) + usize::from(tb.fallen > 0);
        if ta.number != tb.number {
            split[ta.number as usize] += 1;
            split[tb.number as usize] += 1;
        }
    }
    println!("{count} contours, seed {seed}: {wrong} differ from two single runs, {unswapped} change when swapped, {unclean} leave scratch, {touched} refused ones write; lookups fell in {fell} editions");
    println!("number: editions given it, of these where the other was given another (0: crunched)");
    for k in 0..32 {
        if given[k] > 0 {
            println!("{k:6}: {:7} {:7}", given[k], split[k]);
        }
    }
}

/// Contours on standard input, one a line: the time of both editions, and of two single runs.
fn time(pa: u32, pb: u32) {
    let (mut together, mut apart) = (Duration::ZERO, Duration::ZERO);
    let full = [4096, 4096, 16384, 16384, 16384, 16384];
    let (mut s, mut a, mut b) = (Shared::of(16384, 2048), Own::of(full), Own::of(full));
    let mut count = 0;
    for line in std::io::stdin().lines() {
        let numbers: Vec<i16> = line.unwrap().split_whitespace().map(|w| w.parse().unwrap()).collect();
        let mut c = Contour::default();
        for p in numbers.chunks(3) {
            c.xs.push(p[0]);
            c.ys.push(p[1]);
            c.flags.push(p[2] as u8);
        }
        let from = Instant::now();
        both(&c, pa, pb, (0, 0), &mut s, &mut a, &mut b);
        let between = Instant::now();
        alone(&c, pa, (0, 0), &mut s, &mut a);
        alone(&c, pb, (0, 0), &mut s, &mut b);
        together += between - from;
        apart += between.elapsed();
        count += 1;
    }
    println!("{count} contours at {pa} and {pb}: both editions {together:?}, two single runs {apart:?}");
}

fn main() {
    let words: Vec<String> = env::args().skip(1).collect();
    let number = |k: usize| words[k].parse::<u64>().expect("a number");
    match words[0].as_str() {
        "time" => time(number(1) as u32, number(2) as u32),
        _ => compare(number(0) as usize, number(1)),
    }
}
