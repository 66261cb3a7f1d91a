//! Where a place of a contour is on the picture.

use fontcrunch::outline::Place;

use super::svg::number;

/// The least box around places.
#[derive(Clone, Copy, Debug, PartialEq)]
pub struct Extent {
    pub low: Place,
    pub high: Place,
}

impl Extent {
    /// Of no place, the origin alone.
    pub fn of(places: impl IntoIterator<Item = Place>) -> Extent {
        let around = places.into_iter().map(|place| Extent { low: place, high: place });
        around.reduce(Extent::with).unwrap_or(Extent { low: Place::ORIGIN, high: Place::ORIGIN })
    }

    fn with(self, other: Extent) -> Extent {
        let (a, b) = (self, other);
        Extent {
            low: Place { x: a.low.x.min(b.low.x), y: a.low.y.min(b.low.y) },
            high: Place { x: a.high.x.max(b.high.x), y: a.high.y.max(b.high.y) },
        }
    }

    pub fn width(&self) -> f64 {
        self.high.x - self.low.x
    }

    pub fn height(&self) -> f64 {
        self.high.y - self.low.y
    }
}

/// Units to pixels: y goes up in a contour and down in a picture.
#[derive(Clone, Copy, Debug)]
pub struct View {
    pub scale: f64,
    origin: Place,
}

/// A contour of few units is not blown up further, nor one of no extent without end.
const LARGEST_SCALE: f64 = 24.0;

/// The scale at which an extent fits a box of pixels.
pub fn fitting(extent: &Extent, width: f64, height: f64) -> f64 {
    LARGEST_SCALE.min(width / extent.width().max(1.0)).min(height / extent.height().max(1.0))
}

impl View {
    /// With the extent's upper left corner at (left, top), in the middle of a box of that width.
    pub fn new(extent: &Extent, scale: f64, left: f64, top: f64, width: f64) -> View {
        let spare = (width - extent.width() * scale) / 2.0;
        View {
            scale,
            origin: Place { x: left + spare - extent.low.x * scale, y: top + extent.high.y * scale },
        }
    }

    pub fn at(&self, place: Place) -> Place {
        Place { x: self.origin.x + place.x * self.scale, y: self.origin.y - place.y * self.scale }
    }

    /// A place as it stands in a path.
    pub fn text(&self, place: Place) -> String {
        let at = self.at(place);
        format!("{} {}", number(at.x), number(at.y))
    }
}

#[cfg(test)]
mod tests {
    use super::*;

    fn place(x: f64, y: f64) -> Place {
        Place { x, y }
    }

    #[test]
    fn y_goes_up() {
        let extent = Extent::of([place(0.0, -10.0), place(20.0, 10.0)]);
        let view = View::new(&extent, 2.0, 100.0, 50.0, 60.0);
        assert_eq!(view.at(place(0.0, 10.0)), place(110.0, 50.0));
        assert_eq!(view.at(place(20.0, -10.0)), place(150.0, 90.0));
    }

    #[test]
    fn an_extent_fits() {
        let extent = Extent::of([place(0.0, 0.0), place(1000.0, 100.0)]);
        assert_eq!(fitting(&extent, 500.0, 500.0), 0.5);
        assert_eq!(fitting(&extent, 5000.0, 50.0), 0.5);
        let point = Extent::of([place(7.0, 9.0)]);
        assert_eq!(fitting(&point, 500.0, 500.0), LARGEST_SCALE);
        assert_eq!(Extent::of([]), Extent::of([Place::ORIGIN]));
    }
}
