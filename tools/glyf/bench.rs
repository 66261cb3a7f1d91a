//! Times the exported reader and writer beside a plain reader and writer in Rust, over the same glyphs, in one run.
//! Usage: bench FILE ROUNDS, where FILE holds descriptions, each after its length as four bytes, lowest first.

use std::time::Instant;
use std::{env, fs};

#[repr(C)]
struct ReadReport {
    number: u32,
    contours: usize,
    points: usize,
    instructions: usize,
}

#[repr(C)]
struct WriteReport {
    number: u32,
    bytes: usize,
}

extern "C" {
    fn fontcrunch_read_glyph(
        b: *const u8, bl: usize, e: *mut u16, el: usize, x: *mut i16, xl: usize, y: *mut i16, yl: usize, f: *mut u8, fl: usize, i: *mut u8, il: usize,
    ) -> ReadReport;
    fn fontcrunch_write_glyph(
        e: *const u16, el: usize, x: *const i16, xl: usize, y: *const i16, yl: usize, f: *const u8, fl: usize, i: *const u8, il: usize, o: *mut u8,
        ol: usize,
    ) -> WriteReport;
}

/// Rows with room for any glyph.
struct Rows {
    ends: Vec<u16>,
    xs: Vec<i16>,
    ys: Vec<i16>,
    flags: Vec<u8>,
    code: Vec<u8>,
    out: Vec<u8>,
}

#[derive(Clone, Copy, PartialEq, Debug)]
struct Counts {
    contours: usize,
    points: usize,
    code: usize,
}

fn proved_read(bytes: &[u8], r: &mut Rows) -> Counts {
    let report = unsafe {
        fontcrunch_read_glyph(
            bytes.as_ptr(), bytes.len(), r.ends.as_mut_ptr(), r.ends.len(), r.xs.as_mut_ptr(), r.xs.len(), r.ys.as_mut_ptr(), r.ys.len(),
            r.flags.as_mut_ptr(), r.flags.len(), r.code.as_mut_ptr(), r.code.len(),
        )
    };
    assert_eq!(report.number, 0);
    Counts { contours: report.contours, points: report.points, code: report.instructions }
}

fn proved_write(n: Counts, r: &mut Rows) -> usize {
    let report = unsafe {
        fontcrunch_write_glyph(
            r.ends.as_ptr(), n.contours, r.xs.as_ptr(), n.points, r.ys.as_ptr(), n.points, r.flags.as_ptr(), n.points, r.code.as_ptr(), n.code,
            r.out.as_mut_ptr(), r.out.len(),
        )
    };
    assert_eq!(report.number, 0);
    report.bytes
}

fn word(b: &[u8], at: usize) -> Option<u16> {
    Some(u16::from_be_bytes([*b.get(at)?, *b.get(at + 1)?]))
}

/// As one writes it: flags unpacked into their row, then x, then y.
fn plain_read(b: &[u8], r: &mut Rows) -> Option<Counts> {
    let contours = usize::from(word(b, 0)?);
    let mut at = 10;
    for i in 0..contours {
        r.ends[i] = word(b, at)?;
        at += 2;
    }
    let code = usize::from(word(b, at)?);
    at += 2;
    r.code[..code].copy_from_slice(b.get(at..at + code)?);
    at += code;
    let points = if contours == 0 { 0 } else { usize::from(r.ends[contours - 1]) + 1 };
    let mut i = 0;
    while i < points {
        let f = *b.get(at)?;
        at += 1;
        let mut times = 1;
        if f & 8 != 0 {
            times += usize::from(*b.get(at)?);
            at += 1;
        }
        let until = points.min(i + times);
        r.flags[i..until].fill(f);
        i = until;
    }
    for (row, short, same) in [(&mut r.xs, 2, 16), (&mut r.ys, 4, 32)] {
        let mut z = 0i32;
        for i in 0..points {
            let f = r.flags[i];
            if f & short != 0 {
                let d = i32::from(*b.get(at)?);
                at += 1;
                z += if f & same != 0 { d } else { -d };
            } else if f & same == 0 {
                z += i32::from(word(b, at)? as i16);
                at += 2;
            }
            row[i] = i16::try_from(z).ok()?;
        }
    }
    for f in &mut r.flags[..points] {
        *f &= 1;
    }
    if r.ends[..contours].windows(2).any(|w| w[1] <= w[0]) {
        return None;
    }
    Some(Counts { contours, points, code })
}

fn plain_write(n: Counts, r: &mut Rows) -> Option<usize> {
    let out = &mut r.out;
    out.clear();
    out.extend((n.contours as u16).to_be_bytes());
    let (xs, ys) = (&r.xs[..n.points], &r.ys[..n.points]);
    for z in [xs.iter().min(), ys.iter().min(), xs.iter().max(), ys.iter().max()] {
        out.extend(z.copied().unwrap_or(0).to_be_bytes());
    }
    for e in &r.ends[..n.contours] {
        out.extend(e.to_be_bytes());
    }
    out.extend((n.code as u16).to_be_bytes());
    out.extend(&r.code[..n.code]);
    let step = |row: &[i16], i: usize| i32::from(row[i]) - if i == 0 { 0 } else { i32::from(row[i - 1]) };
    let flag = |i: usize| {
        let bits = |d: i32, short: u8, same: u8| match d {
            0 => same,
            1..=255 => short | same,
            -255..=-1 => short,
            _ => 0,
        };
        (r.flags[i] & 1) | bits(step(xs, i), 2, 16) | bits(step(ys, i), 4, 32)
    };
    let mut i = 0;
    while i < n.points {
        let f = flag(i);
        let mut k = i + 1;
        while k < n.points && k - i < 256 && flag(k) == f {
            k += 1;
        }
        match k - i {
            1 => out.push(f),
            2 => out.extend([f, f]),
            times => out.extend([f | 8, (times - 1) as u8]),
        }
        i = k;
    }
    for row in [xs, ys] {
        for i in 0..n.points {
            let d = step(row, i);
            match d.unsigned_abs() {
                0 => {}
                size @ 1..=255 => out.push(size as u8),
                _ => out.extend(i16::try_from(d).ok()?.to_be_bytes()),
            }
        }
    }
    Some(out.len())
}

fn main() {
    let words: Vec<String> = env::args().collect();
    let data = fs::read(&words[1]).expect("the file");
    let rounds: usize = words[2].parse().expect("a number of rounds");
    let mut glyphs = vec![];
    let mut at = 0;
    while at < data.len() {
        let n = u32::from_le_bytes(data[at..at + 4].try_into().unwrap()) as usize;
        glyphs.push(&data[at + 4..at + 4 + n]);
        at += 4 + n;
    }
    let rows = || Rows {
        ends: vec![0; 65_536],
        xs: vec![0; 65_536],
        ys: vec![0; 65_536],
        flags: vec![0; 65_536],
        code: vec![0; 65_536],
        out: vec![0; 600_000],
    };
    let (mut a, mut b) = (rows(), rows());
    // the same rows and the same bytes
    for g in &glyphs {
        let n = proved_read(g, &mut a);
        assert_eq!(Some(n), plain_read(g, &mut b));
        assert_eq!((&a.xs[..n.points], &a.ys[..n.points]), (&b.xs[..n.points], &b.ys[..n.points]));
        assert_eq!((&a.flags[..n.points], &a.ends[..n.contours], &a.code[..n.code]), (&b.flags[..n.points], &b.ends[..n.contours], &b.code[..n.code]));
        let size = proved_write(n, &mut a);
        assert_eq!(Some(size), plain_write(n, &mut b));
        assert_eq!(a.out[..size], b.out[..size]);
    }
    let mut best = [f64::INFINITY; 4];
    for _ in 0..rounds {
        let mut time = |k: usize, work: &mut dyn FnMut(&[u8])| {
            let start = Instant::now();
            glyphs.iter().for_each(|g| work(g));
            best[k] = best[k].min(start.elapsed().as_secs_f64());
        };
        time(0, &mut |g| { std::hint::black_box(proved_read(g, &mut a)); });
        time(1, &mut |g| { std::hint::black_box(plain_read(g, &mut b)); });
        time(2, &mut |g| { let n = proved_read(g, &mut a); std::hint::black_box(proved_write(n, &mut a)); });
        time(3, &mut |g| { let n = plain_read(g, &mut b).unwrap(); std::hint::black_box(plain_write(n, &mut b)); });
    }
    let bytes: usize = glyphs.iter().map(|g| g.len()).sum();
    println!("{} glyphs, {bytes} bytes, least of {rounds} rounds", glyphs.len());
    for (name, ours, plain) in [("read", best[0], best[1]), ("read and write", best[2], best[3])] {
        println!("{name}: ours {:.2} ms, plain Rust {:.2} ms, ratio {:.2}", ours * 1e3, plain * 1e3, ours / plain);
    }
}
