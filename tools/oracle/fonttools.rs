//! Stands where the crate `fonttools` stands for the Rust: its two files on contours, and a glyph
//! of nothing but contours.

pub mod tables {
    pub mod glyf {
        pub mod contourutils;
        mod point;
        pub use point::Point;

        #[derive(Clone)]
        pub struct Glyph {
            pub contours: Vec<Vec<Point>>,
        }
    }
}
