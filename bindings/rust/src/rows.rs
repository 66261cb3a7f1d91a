//! The rows that are lent to the library. Rows of one kind stand together and have one length, so that a
//! row too many or too short is no case for callers.

use crate::cruncher::Point;

/// A contour of more points is refused by 3.
pub const MOST_POINTS_IN: usize = 1024;

/// Samples that a run may need; one that needs more is refused by 6.
pub const SAMPLE_ROOM: usize = 16_384;

/// Breaks that a run may have; one with more is refused by 7.
pub const BREAK_ROOM: usize = 2048;

/// Stored answers, two for each break.
pub const ANSWER_ROOM: usize = 2 * BREAK_ROOM;

/// Break numbers rise along a chain, so that no chain has more pieces.
pub const MOST_PIECES: usize = BREAK_ROOM - 1;

/// Points that a result may have in a [`Cruncher::new`](crate::Cruncher::new), implied ones counted.
pub const USUAL_POINT_ROOM: usize = 16_384;

/// A contour: a place for each point. Bit 0 of a flag is set for an on-curve point.
#[derive(Default)]
pub(crate) struct Contour {
    pub xs: Vec<i16>,
    pub ys: Vec<i16>,
    pub flags: Vec<u8>,
}

impl Contour {
    /// One point more than may be is enough to have a contour refused by 3, which looks at no point.
    pub fn of(points: &[Point]) -> Contour {
        let mut rows = Contour::default();
        rows.take(points);
        rows
    }

    /// Every point, where 3 counts the points that come out.
    pub fn whole(points: &[Point]) -> Contour {
        let mut rows = Contour::default();
        rows.extend(points);
        rows
    }

    pub fn take(&mut self, points: &[Point]) {
        self.clear();
        self.extend(&points[..points.len().min(MOST_POINTS_IN + 1)]);
    }

    fn extend(&mut self, points: &[Point]) {
        for point in points {
            self.xs.push(point.x);
            self.ys.push(point.y);
            self.flags.push(u8::from(point.on_curve));
        }
    }

    pub fn clear(&mut self) {
        self.xs.clear();
        self.ys.clear();
        self.flags.clear();
    }
}

/// What the library works in; zero throughout after every call.
pub(crate) struct Scratch {
    pub samples: Box<[[f64; 4]]>,
    pub breaks: Box<[[f64; 6]]>,
    pub answers: Box<[[f64; 3]]>,
    pub links: Box<[u32]>,
}

impl Scratch {
    pub fn full() -> Scratch {
        Scratch {
            samples: vec![[0.0; 4]; SAMPLE_ROOM].into(),
            breaks: vec![[0.0; 6]; BREAK_ROOM].into(),
            answers: vec![[0.0; 3]; ANSWER_ROOM].into(),
            links: vec![0; ANSWER_ROOM].into(),
        }
    }
}

/// What a second edition is worked in, beside the samples and breaks that it shares with the first.
pub(crate) struct OwnRows {
    pub answers: Box<[[f64; 3]]>,
    pub links: Box<[u32]>,
}

impl OwnRows {
    pub fn full() -> OwnRows {
        OwnRows { answers: vec![[0.0; 3]; ANSWER_ROOM].into(), links: vec![0; ANSWER_ROOM].into() }
    }
}

/// The points that come out, and the row that the library puts them together in.
pub(crate) struct Output {
    pub xs: Box<[i16]>,
    pub ys: Box<[i16]>,
    pub flags: Box<[u8]>,
    pub points: Box<[[i16; 3]]>,
}

impl Output {
    pub fn of_room(room: usize) -> Output {
        Output {
            xs: vec![0; room].into(),
            ys: vec![0; room].into(),
            flags: vec![0; room].into(),
            points: vec![[0; 3]; room].into(),
        }
    }

    /// The first of the points that came out.
    pub fn first(&self, count: usize) -> Vec<Point> {
        (0..count).map(|i| Point { x: self.xs[i], y: self.ys[i], on_curve: self.flags[i] & 1 == 1 }).collect()
    }
}

/// What a glyph description has beside its points.
pub(crate) struct GlyphRows {
    pub ends: Box<[u16]>,
    pub instructions: Box<[u8]>,
}

impl GlyphRows {
    pub fn of_room(ends: usize, instructions: usize) -> GlyphRows {
        GlyphRows { ends: vec![0; ends].into(), instructions: vec![0; instructions].into() }
    }
}

/// What a file of GLIF has beside its points as they enter: its contours, and its points as they stand.
pub(crate) struct GlifRows {
    pub ends: Box<[u16]>,
    pub marks: Box<[[usize; 3]]>,
}

impl GlifRows {
    pub fn of_room(contours: usize, points: usize) -> GlifRows {
        GlifRows { ends: vec![0; contours].into(), marks: vec![[0; 3]; points].into() }
    }
}

/// The points that come out of cleaning, of cubics, without idle controls, and with implied ones written out.
pub(crate) struct PointRows {
    pub xs: Box<[i16]>,
    pub ys: Box<[i16]>,
    pub flags: Box<[u8]>,
}

impl PointRows {
    pub fn of_room(room: usize) -> PointRows {
        PointRows { xs: vec![0; room].into(), ys: vec![0; room].into(), flags: vec![0; room].into() }
    }

    /// The first of them.
    pub fn points(&self, count: usize) -> Vec<Point> {
        (0..count).map(|i| Point { x: self.xs[i], y: self.ys[i], on_curve: self.flags[i] & 1 == 1 }).collect()
    }
}

/// A chain: each piece's start and end break, its control, and the segments that hold both breaks. The checker is
/// not lent the last row.
#[derive(Default)]
pub(crate) struct ChainRows {
    pub starts: Vec<u32>,
    pub ends: Vec<u32>,
    pub xs: Vec<f64>,
    pub ys: Vec<f64>,
    pub spans: Vec<[u32; 2]>,
}

impl ChainRows {
    pub fn clear(&mut self) {
        self.resize(0);
    }

    pub fn resize(&mut self, pieces: usize) {
        self.starts.resize(pieces, 0);
        self.ends.resize(pieces, 0);
        self.xs.resize(pieces, 0.0);
        self.ys.resize(pieces, 0.0);
        self.spans.resize(pieces, [0; 2]);
    }
}
