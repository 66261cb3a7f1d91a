//! A run sampled, its breaks and the measure of a piece: beside the library's entries, which tell no place of a break
//! and no share of a piece. The operations are those of document 01, modules 4 to 7, in their order, so that the
//! doubles are the library's own; `trace` holds them to what the entries say.

use crate::outline::Place;

/// What a piece or a segment is measured as: a line has its control midway.
#[derive(Clone, Copy, Debug, PartialEq)]
pub(crate) struct Quad {
    pub start: Place,
    pub control: Place,
    pub end: Place,
}

/// How a quad moves at t: linear in t.
#[derive(Clone, Copy)]
struct Moves {
    first: Place,
    last: Place,
}

/// A place along a run that pieces may join at: how far along, where, and in which direction the run goes there.
#[derive(Clone, Copy, Debug, PartialEq)]
pub(crate) struct Break {
    pub along: f64,
    pub place: Place,
}

/// A place and a direction at each whole length of a run.
pub(crate) struct Samples {
    places: Vec<Place>,
    directions: Vec<Place>,
    pub length: f64,
}

/// The last place and movement that a sampling has passed, and how far along.
struct Passed {
    place: Place,
    moves: Place,
    along: f64,
}

pub(crate) fn lerp(a: Place, b: Place, t: f64) -> Place {
    Place { x: a.x + t * (b.x - a.x), y: a.y + t * (b.y - a.y) }
}

pub(crate) fn is_close(a: f64, b: f64) -> bool {
    (a - b).abs() < 1e-8
}

fn are_close(a: Place, b: Place) -> bool {
    is_close(a.x, b.x) && is_close(a.y, b.y)
}

fn size(p: Place) -> f64 {
    (p.x * p.x + p.y * p.y).sqrt()
}

fn unit(p: Place) -> Place {
    let scale = 1.0 / size(p);
    Place { x: p.x * scale, y: p.y * scale }
}

impl Quad {
    pub fn at(&self, t: f64) -> Place {
        lerp(lerp(self.start, self.control, t), lerp(self.control, self.end, t), t)
    }

    pub fn is_line(&self) -> bool {
        are_close(self.control, lerp(self.start, self.end, 0.5))
    }

    /// Whether the outline goes on smoothly from this piece to the next: both are bent, and the joint is midway
    /// between their controls.
    pub fn joins(&self, next: &Quad) -> bool {
        !self.is_line() && are_close(lerp(self.control, next.control, 0.5), next.start)
    }

    fn moves(&self) -> Moves {
        let twice = |a: Place, b: Place| Place { x: 2.0 * (b.x - a.x), y: 2.0 * (b.y - a.y) };
        Moves { first: twice(self.start, self.control), last: twice(self.control, self.end) }
    }

    /// In ten steps.
    fn length(&self) -> f64 {
        let moves = self.moves();
        let step = 1.0 / 10.0;
        let (mut t, mut length) = (0.0, 0.0);
        for _ in 0..10 {
            length = moves.stepped(length, t, step);
            t += step;
        }
        length
    }
}

impl Moves {
    fn at(&self, t: f64) -> Place {
        lerp(self.first, self.last, t)
    }

    /// A length after one step of Runge and Kutta from t. The pace does not depend on the length, so that both
    /// middle stages are one.
    fn stepped(&self, length: f64, t: f64, step: f64) -> f64 {
        let middle = size(self.at(t + step * 0.5));
        let (from, to) = (size(self.at(t)), size(self.at(t + step)));
        length + step / 6.0 * (from + to + 2.0 * (middle + middle))
    }
}

/// Where each quad of a run ends, as lengths along it: 100 steps a quad.
pub(crate) fn lengths(quads: &[Quad]) -> Vec<f64> {
    let mut along = 0.0;
    let after = |quad: &Quad| {
        let (moves, step) = (quad.moves(), 1.0 / 100.0);
        let mut t = 0.0;
        for _ in 0..100 {
            along = moves.stepped(along, t, step);
            t += step;
        }
        along
    };
    quads.iter().map(after).collect()
}

impl Samples {
    pub fn of(quads: &[Quad]) -> Samples {
        let mut samples = Samples { places: vec![], directions: vec![], length: 0.0 };
        let mut passed = Passed { place: Place::ORIGIN, moves: Place::ORIGIN, along: -1.0 };
        for quad in quads {
            let (moves, step) = (quad.moves(), 1.0 / 100.0);
            let mut t = 0.0;
            for _ in 0..100 {
                let here = Passed { place: quad.at(t), moves: moves.at(t), along: samples.length };
                samples.fill(&passed, &here, here.along);
                samples.length = moves.stepped(samples.length, t, step);
                t += step;
                passed = here;
            }
        }
        if let Some(last) = quads.last() {
            let end = Passed { place: last.end, moves: last.moves().at(1.0), along: samples.length };
            samples.fill(&passed, &end, samples.length + 2.0);
        }
        samples
    }

    /// The samples at whole lengths up to that one, on the line from one place passed to the next.
    fn fill(&mut self, from: &Passed, to: &Passed, until: f64) {
        while self.places.len() as f64 <= until {
            let u = (self.places.len() as f64 - from.along) / (to.along - from.along);
            self.places.push(lerp(from.place, to.place, u));
            self.directions.push(unit(lerp(from.moves, to.moves, u)));
        }
    }

    /// How many there are.
    pub fn count(&self) -> usize {
        self.places.len()
    }

    /// The place and the direction at a length: past the end (0, 0), and none where the last sample is asked for,
    /// which has no next one.
    fn at(&self, along: f64) -> Option<(Place, Place)> {
        let (bucket, part) = (along as usize, along - along.trunc());
        if bucket >= self.places.len() {
            return Some((Place::ORIGIN, Place::ORIGIN));
        }
        let between = |row: &[Place]| Some(lerp(row[bucket], *row.get(bucket + 1)?, part));
        Some((between(&self.places)?, between(&self.directions)?))
    }

    /// On half units, or on whole ones.
    pub fn breaks(&self, whole_units: bool) -> Option<Vec<Break>> {
        let count = (10.0 * self.length).round() as u32;
        let mut breaks: Vec<Break> = vec![];
        let mut opened = 0.0;
        for i in 0..=count {
            let along = self.length * f64::from(i) / f64::from(count);
            let exact = self.at(along)?.0;
            let place = on_grid(exact, whole_units);
            let off = size(Place { x: place.x - exact.x, y: place.y - exact.y });
            match breaks.last_mut() {
                Some(last) if are_close(place, last.place) => {
                    if off < opened {
                        *last = Break { along, place };
                    }
                }
                _ => {
                    breaks.push(Break { along, place });
                    opened = off;
                }
            }
        }
        Some(breaks)
    }

    /// How far a piece between two lengths is from the run.
    pub fn measure(&self, from: f64, to: f64, quad: &Quad) -> Option<f64> {
        let length = quad.length();
        let stretch = if is_close(length, 0.0) { 0.0 } else { (to - from) / length };
        let gauge = Gauge { samples: self, from, stretch, quad, moves: quad.moves() };
        let step = 1.0 / 10.0;
        let (mut t, mut reached) = (0.0, [0.0, 0.0]);
        for _ in 0..10 {
            reached = gauge.stepped(reached, t, step)?;
            t += step;
        }
        Some(reached[1])
    }
}

fn on_grid(p: Place, whole_units: bool) -> Place {
    let (per, step) = if whole_units { (1.0, 1.0) } else { (2.0, 0.5) };
    Place { x: step * (per * p.x).round(), y: step * (per * p.y).round() }
}

/// What a piece is measured by, as it is gone along.
struct Gauge<'a> {
    samples: &'a Samples,
    from: f64,
    stretch: f64,
    quad: &'a Quad,
    moves: Moves,
}

impl Gauge<'_> {
    /// How fast the length and the error grow at t, where the length is as given.
    fn pace(&self, t: f64, length: f64) -> Option<[f64; 2]> {
        let moves = self.moves.at(t);
        let speed = size(moves);
        let (place, direction) = self.samples.at(self.from + length * self.stretch)?;
        let here = self.quad.at(t);
        let (dx, dy) = (here.x - place.x, here.y - place.y);
        let far = (dx * dx + dy * dy) * speed;
        let turned = direction.x * moves.y - direction.y * moves.x;
        Some([speed, 0.005 * far + 5.0 * ((turned * turned) / speed)])
    }

    /// One step of Runge and Kutta, of both.
    fn stepped(&self, y: [f64; 2], t: f64, step: f64) -> Option<[f64; 2]> {
        let half = step * 0.5;
        let from = self.pace(t, y[0])?;
        let early = self.pace(t + half, y[0] + half * from[0])?;
        let late = self.pace(t + half, y[0] + half * early[0])?;
        let to = self.pace(t + step, y[0] + step * late[0])?;
        let after = |i: usize| y[i] + step / 6.0 * (from[i] + to[i] + 2.0 * (late[i] + early[i]));
        Some([after(0), after(1)])
    }
}
