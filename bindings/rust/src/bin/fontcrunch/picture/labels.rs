//! Words put beside places so that they do not overlap each other.

use fontcrunch::outline::Place;

use super::svg;

/// A box on the picture, by its left, top, right and bottom.
type Area = [f64; 4];

/// What of a panel is taken.
#[derive(Default)]
pub struct Labels {
    taken: Vec<Area>,
}

/// Where words are tried: to the right and above first, then round, then farther away.
const WAYS: [(f64, f64); 8] =
    [(1.0, -1.0), (-1.0, -1.0), (1.0, 1.0), (-1.0, 1.0), (0.0, -1.4), (0.0, 1.4), (1.4, 0.0), (-1.4, 0.0)];
const STEPS: [f64; 3] = [1.0, 1.9, 2.8];

impl Labels {
    /// Keeps words off a mark of that radius.
    pub fn keep_off(&mut self, at: Place, radius: f64) {
        self.taken.push([at.x - radius, at.y - radius, at.x + radius, at.y + radius]);
    }

    /// Words of that size beside a place, at least that far from it; none where there is no room.
    pub fn beside(&mut self, at: Place, away: f64, size: f64, colour: &str, words: &str) -> String {
        let (width, height) = (svg::width(words, size), size);
        for step in STEPS {
            for (right, down) in WAYS {
                let middle = Place {
                    x: at.x + right * (away * step + width / 2.0),
                    y: at.y + down * (away * step + height / 2.0 - 2.0),
                };
                let area = [
                    middle.x - width / 2.0,
                    middle.y - height / 2.0,
                    middle.x + width / 2.0,
                    middle.y + height / 2.0,
                ];
                if self.is_free(area) {
                    self.taken.push(area);
                    let base = Place { x: middle.x, y: middle.y + height * 0.36 };
                    return svg::text(base, size, colour, "text-anchor=\"middle\"", words);
                }
            }
        }
        String::new()
    }

    fn is_free(&self, [left, top, right, bottom]: Area) -> bool {
        let overlaps = |[l, t, r, b]: &Area| left < *r && *l < right && top < *b && *t < bottom;
        !self.taken.iter().any(overlaps)
    }
}

#[cfg(test)]
mod tests {
    use super::*;

    #[test]
    fn words_at_one_place_do_not_overlap() {
        let mut labels = Labels::default();
        let at = Place { x: 100.0, y: 100.0 };
        labels.keep_off(at, 7.0);
        let drawn = (0..60).filter(|_| !labels.beside(at, 6.0, 9.0, "red", "xy").is_empty()).count();
        // some have no room, and none is put over another
        assert!((8..60).contains(&drawn), "{drawn}");
        for (i, area) in labels.taken.iter().enumerate() {
            let others = Labels {
                taken: labels.taken.iter().enumerate().filter(|(k, _)| *k != i).map(|(_, a)| *a).collect(),
            };
            assert!(others.is_free(*area), "{area:?}");
        }
    }
}
