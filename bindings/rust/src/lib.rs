//! Crunches TrueType contours: finds a contour's corners, and puts fewer quadratic pieces between them.
//!
//! The work is done by a proved library, `libfontcrunch.a`; this crate has safe functions over it. Equal
//! contours give equal points on every host, always.
//!
//! ```
//! use fontcrunch::{Cruncher, Point, Settings};
//!
//! let mut cruncher = Cruncher::new(Settings::default());
//! let triangle = [Point::on(0, 0), Point::on(100, 0), Point::on(0, 100)];
//! let crunched = cruncher.crunch(&triangle)?;
//! // points come out in reverse order
//! assert_eq!(crunched.points, [Point::on(0, 100), Point::on(100, 0), Point::on(0, 0)]);
//! # Ok::<(), fontcrunch::Refusal>(())
//! ```
//!
//! # Contours
//!
//! A contour is a slice of [`Point`]s. The first is on-curve, and an implied point between two off-curve
//! ones is written out. It is closed: the last point leads back to the first, by a line if it is on-curve,
//! by a curve if not.
//!
//! # Settings
//!
//! A [`Cruncher`] is made with [`Settings`]: the penalty of a piece, by default 2.0; whether breaks are on half
//! units, as by default, or on whole ones; and whether contours are crunched in closed mode, as by default they are
//! not. [`Settings::of_crate`] has those of the Rust which this follows: a penalty of 1.0, half units, not closed.
//!
//! # Runs and chains
//!
//! Corners cut a contour into runs, numbered from 0: run k lies between corners k and k + 1. What lies
//! before the first corner and after the last is in no run, and is not written, or in closed mode it is the last
//! run, which goes round. A run that is a single line is copied; any other is worked. Places along it, rounded to
//! half or whole units, are its breaks, and the [`Chain`] of a run leads over pieces from its first break to its
//! last. Anyone can have a chain checked with [`Cruncher::check`], which measures it anew and seeks nothing, at
//! the settings that it was made with.
//!
//! A piece is measured against the samples of its run, and some lookups may fall past their end, where the Rust
//! which this follows takes (0, 0). [`Crunched::fallen`], [`Chain::fallen`] and [`Verdict::fallen`] count them; they
//! change nothing else.
//!
//! [`Cruncher::why`] tells which tests make the start of a segment a corner. [`Cruncher::trace`] tells all of it at
//! once, run by run and piece by piece: what each piece replaced, its place, its share of the score and its distance.
//!
//! # Two editions
//!
//! [`Cruncher::editions`] crunches a contour at two penalties, sampling each run once.
//!
//! # Cleaning
//!
//! Old uploads hold repeated points, which make needless corners. [`clean`] drops them and lists each with why;
//! [`put_back`] gives the upload's points again.
//!
//! # Cubics
//!
//! [`from_cubics`] makes quads of a contour of cubics, whose off-curve points stand in pairs.
//!
//! # Fonts
//!
//! A font's contours may start off-curve, and leave out on-curve points midway between two off-curve ones.
//! [`explicit`] turns such a contour to its first on-curve point and writes these points out.
//!
//! # Idle controls
//!
//! A control that stands on an end of its curve flattens its run. [`drop_idle`] drops such controls and lists each;
//! [`put_back_idle`] gives the contour's points again. [`Cruncher::prepared`] writes out implied points, cleans, drops idle controls and then crunches.
//!
//! # Glyph descriptions
//!
//! [`glyph`] reads and writes OpenType's simple glyph descriptions; [`Cruncher::crunch_glyph`] crunches one, contour
//! by contour, and [`Cruncher::crunch_glyph_explicit`] with implied points written out first.
//!
//! # UFO
//!
//! [`glif`] reads the contours of files of UFO's GLIF, as `docs/GLIF.md` has them, and writes others into them;
//! [`Cruncher::crunch_glif`] crunches a file, contour by contour.
//!
//! # Refusals
//!
//! What is not done is a [`Refusal`], with the same number and the same words in every program over the library. Where
//! several reasons hold, the first in an entry's order is given; `docs/REFUSALS.md` has the order of each in one table.
//!
//! # Linking
//!
//! The archive `libfontcrunch.a` is linked into whatever uses this crate; nothing is loaded when it runs. The build looks
//! for it in one folder:
//!
//! 1. that of the environment variable `FONTCRUNCH_LIB_DIR`, an absolute path, where it is set: `PREFIX/lib` after
//!    `tools/install PREFIX`;
//! 2. else `build` at the top of the repository that this crate lies in, where `tools/library` writes it.
//!
//! Where there is none, or one for another processor, the build stops and says so. The archive is for Linux on the processor
//! that it was made on, x86-64 or Arm (aarch64), and needs nothing but the C library.
//!
//! # Versions
//!
//! Within one major version equal orders give equal bytes. Structs to which fields may be added are `#[non_exhaustive]`:
//! [`Settings`] are made by their functions, and a chain to be checked by [`Chain::new`].

#![deny(missing_docs)]
#![deny(unsafe_op_in_unsafe_fn)]

/// The version, which the header `fontcrunch.h`, the command and the Python module have too.
pub const VERSION: &str = env!("CARGO_PKG_VERSION");

mod cleaning;
mod cruncher;
mod cubics;
mod editions;
mod entries;
mod explicit;
pub mod glif;
pub mod glyph;
mod idle;
pub mod outline;
mod prepared;
mod reasons;
mod refusal;
mod rows;
mod settings;
pub mod trace;

pub use cleaning::{clean, put_back, Cleaned, Dropped, Why};
pub use cruncher::{Chain, Crunched, Cruncher, Piece, Point, Verdict};
pub use cubics::from_cubics;
pub use editions::Editions;
pub use explicit::explicit;
pub use idle::{drop_idle, put_back_idle, Beside, Idle, IdleDrop};
pub use prepared::prepared;
pub use reasons::Reasons;
pub use refusal::Refusal;
pub use rows::{ANSWER_ROOM, BREAK_ROOM, MOST_PIECES, MOST_POINTS_IN, SAMPLE_ROOM, USUAL_POINT_ROOM};
pub use settings::{Settings, CRATE_PENALTY, DEFAULT_PENALTY};
pub use trace::Trace;
