//! Two editions of a contour from one sampling.

use crate::cruncher::{unless_refused, Crunched, Cruncher, Point};
use crate::entries::editions::{editions, EditionsReport};
use crate::entries::CrunchReport;
use crate::refusal::Refusal;
use crate::rows::{Output, OwnRows};
use crate::settings::Settings;

/// The rows that a second edition has of its own.
pub(crate) struct Second {
    own: OwnRows,
    output: Output,
}

impl Second {
    fn of_room(room: usize) -> Second {
        Second { own: OwnRows::full(), output: Output::of_room(room) }
    }
}

/// What became of each edition of an order: one may be refused where the other is not.
#[derive(Clone, Debug, PartialEq, Eq)]
pub struct Editions {
    /// The first, as on paper.
    pub a: Result<Crunched, Refusal>,
    /// The second, as on a screen.
    pub b: Result<Crunched, Refusal>,
}

impl Cruncher {
    /// Two editions of a contour, with a penalty each, in sixteenths. Grid and mode are the cruncher's, and its own
    /// penalty is not looked at. Each run is sampled once for both.
    ///
    /// Each edition gets what [`Cruncher::crunch`] at its penalty gives, whichever comes first and whatever becomes
    /// of the other: that is proved.
    pub fn editions(&mut self, points: &[Point], a: u32, b: u32) -> Editions {
        self.take_contour(points);
        let room = self.output.points.len();
        let second = self.second.get_or_insert_with(|| Box::new(Second::of_room(room)));
        let settings = Settings { penalty: a, ..self.settings };
        let EditionsReport { a, b } = editions(
            &self.contour,
            settings,
            b,
            &mut self.scratch,
            &mut self.output,
            &mut second.own,
            &mut second.output,
        );
        Editions { a: edition(a, &self.output), b: edition(b, &second.output) }
    }
}

fn edition(report: CrunchReport, output: &Output) -> Result<Crunched, Refusal> {
    unless_refused(report.number)?;
    Ok(Crunched::of(report, output))
}
