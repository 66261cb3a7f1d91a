//! A line answered: what goes out for it, what is said of it, and what a picture shows.

use fontcrunch::{prepared, Crunched, Cruncher, Point, Refusal, Verdict};

use crate::arguments::{Job, More, Tool};
use crate::chain_line;
use crate::chains::{chain_text, check_line};
use crate::cleaning;
use crate::contour_line::{self, Malformed};
use crate::cubics;
use crate::editions;
use crate::explicit;
use crate::fallen::Fallen;
use crate::glif;
use crate::glyph::{self, How};
use crate::idle;
use crate::look::{self, Hints};
use crate::notes;
use crate::odd_bytes;
use crate::reasons;
use crate::service::Status;
use crate::sketch::Sketch;
use crate::trace;

/// All that comes of a line.
pub struct Answer {
    /// None where a tool has no line for it.
    pub text: Option<String>,
    pub status: Status,
    /// What is wrong with the line, or why it is refused, and where; and notes.
    pub messages: Vec<String>,
    pub sketch: Option<Sketch>,
}

/// What a tool says of a contour that is not refused.
pub struct Reply {
    pub text: Option<String>,
    pub status: Status,
}

impl From<String> for Reply {
    fn from(text: String) -> Reply {
        Reply { text: Some(text), status: Status::AllCrunched }
    }
}

/// Answers lines, one after another. It keeps nothing between them, so that any worker gives the same answer.
pub struct Worker {
    tool: Tool,
    fallen: Fallen,
    more: More,
    draws: bool,
    cruncher: Cruncher,
    /// Of a second edition, which is drawn too.
    second: Option<Cruncher>,
    points: Vec<Point>,
    /// The points that were crunched last, or were to be: what a second look is taken at.
    ready: Vec<Point>,
    /// What is seen by it, and notes.
    seen: Vec<String>,
}

impl Worker {
    pub fn new(job: &Job) -> Worker {
        Worker {
            tool: job.tool,
            fallen: job.fallen,
            more: job.more,
            draws: job.drawing.is_asked(),
            cruncher: Cruncher::new(job.settings),
            second: second(job),
            points: Vec::new(),
            ready: Vec::new(),
            seen: Vec::new(),
        }
    }

    pub fn answer(&mut self, line: &[u8]) -> Answer {
        let mut sketch = None;
        self.seen.clear();
        self.ready.clear();
        match self.told(line, &mut sketch) {
            Ok(Ok(reply)) => {
                let refused = reply.status == Status::SomeRefused;
                let messages =
                    if self.more.quiet && !refused { vec![] } else { std::mem::take(&mut self.seen) };
                Answer { text: reply.text, status: reply.status, messages, sketch }
            }
            Ok(Err(refusal)) => {
                let text = Some(refused_text(refusal, self.fallen)).filter(|_| !self.more.with_contour);
                let messages = self.refused(refusal);
                Answer { text, status: Status::SomeRefused, messages, sketch }
            }
            Err(fault) if self.tool == Tool::Trace => trace::malformed(&fault),
            Err(fault) => {
                sketch = self.draws.then(|| Sketch::Malformed(fault.to_string()));
                let text = Some("malformed".to_owned()).filter(|_| !self.more.with_contour);
                let odd = odd_bytes::told(line).map_or(String::new(), |odd| format!("; {odd}"));
                let messages = vec![format!("malformed: {fault}{odd}")];
                Answer { text, status: Status::Wrong, messages, sketch }
            }
        }
    }

    /// The refusal, and where it was met.
    fn refused(&mut self, refusal: Refusal) -> Vec<String> {
        let mut messages = vec![refusal.to_string()];
        messages.append(&mut self.seen);
        let hints = self.hints();
        if !self.ready.is_empty() {
            messages.extend(look::at_contour(&mut self.cruncher, &self.ready, refusal, hints));
        }
        messages
    }

    fn hints(&self) -> Hints {
        let run = match self.tool {
            Tool::Chain { run, .. } | Tool::Check { run } => Some(run),
            _ => None,
        };
        let may_prepare = matches!(self.tool, Tool::Crunch | Tool::Editions { .. });
        Hints { may_prepare, cubics: matches!(self.tool, Tool::Cubic { .. }), run, ..Hints::default() }
    }

    fn told(
        &mut self,
        line: &[u8],
        sketch: &mut Option<Sketch>,
    ) -> Result<Result<Reply, Refusal>, Malformed> {
        match self.tool {
            Tool::Glyph { step, explicit } => {
                let how = How { explicit, more: self.more };
                let text = glyph::answer(step, how, &mut self.cruncher, line, &mut self.seen)?;
                let implied = explicit || self.more.prepare;
                *sketch =
                    self.draws.then(|| Sketch::of_glyph_line(&mut self.cruncher, line, implied)).flatten();
                return Ok(text.map(Reply::from));
            }
            Tool::Glif { step } => {
                let text = glif::answer(step, self.more, &mut self.cruncher, line, &mut self.seen)?;
                *sketch = self.draws.then(|| Sketch::of_glif_line(&mut self.cruncher, line)).flatten();
                return Ok(text.map(Reply::from));
            }
            Tool::Trace => {
                contour_line::parse(line, &mut self.points)?;
                return Ok(Ok(trace::answer(&mut self.cruncher, &self.points, &mut self.seen)));
            }
            Tool::Check { run } => {
                let chain = chain_line::parse(line, &mut self.points)?;
                self.ready.clone_from(&self.points);
                let said = self.cruncher.verdict(&self.points, run, &chain);
                return Ok(said.map(|said| verdict(said, self.fallen)));
            }
            Tool::Why { index: true } => {
                let index = contour_line::parse_indexed(line, &mut self.points)?;
                self.ready.clone_from(&self.points);
                let why = if self.more.words { reasons::why_at_in_words } else { reasons::why_at };
                return Ok(why(&mut self.cruncher, &self.points, index).map(Reply::from));
            }
            _ => contour_line::parse(line, &mut self.points)?,
        }
        self.ready.clone_from(&self.points);
        Ok(self.told_of_contour(sketch))
    }

    /// What the tools say that take a contour alone.
    fn told_of_contour(&mut self, sketch: &mut Option<Sketch>) -> Result<Reply, Refusal> {
        let points = &self.points;
        match self.tool {
            Tool::Clean { crunch: false } => cleaning::clean(points).map(Reply::from),
            Tool::Idle { crunch: false } => idle::idle(points).map(Reply::from),
            Tool::Cubic { crunch: false } => cubics::cubic(points).map(Reply::from),
            Tool::Explicit { crunch: false } => explicit::explicit(points).map(Reply::from),
            Tool::Why { .. } => {
                let why = if self.more.words { reasons::why_all_in_words } else { reasons::why_all };
                why(&mut self.cruncher, points).map(Reply::from)
            }
            Tool::Chain { run, segments } => self.chain(run, segments),
            Tool::Editions { penalty } => Ok(self.editions(penalty, sketch)),
            Tool::Clean { .. } => self.crunch(fontcrunch::clean(points).map(|made| made.points), sketch),
            Tool::Idle { .. } => self.crunch(fontcrunch::drop_idle(points).map(|made| made.points), sketch),
            Tool::Cubic { .. } => self.crunch(fontcrunch::from_cubics(points), sketch),
            Tool::Explicit { .. } => self.crunch(fontcrunch::explicit(points), sketch),
            _ => self.crunch(Ok(points.clone()), sketch),
        }
    }

    /// What crunching says of the points that a tool made of a line; prepared before, where that is asked for.
    fn crunch(
        &mut self,
        made: Result<Vec<Point>, Refusal>,
        sketch: &mut Option<Sketch>,
    ) -> Result<Reply, Refusal> {
        let made = if self.more.prepare { made.and_then(|points| prepared(&points)) } else { made };
        let result = made.and_then(|made| {
            self.ready = made;
            self.cruncher.crunch(&self.ready)
        });
        if let (Ok(crunched), false) = (&result, self.more.quiet) {
            self.seen = notes::of(&mut self.cruncher, &self.ready, &crunched.points);
        }
        let told = |crunched: &Crunched| self.fallen.after(crunched_text(crunched), crunched.fallen);
        let text = result.as_ref().map(told).map_err(|refusal| *refusal);
        if self.draws {
            let traces = vec![self.cruncher.trace(&self.ready)];
            *sketch = Some(Sketch::Contour { traces, stood: self.points.len() });
        }
        text.map(Reply::from)
    }

    fn chain(&mut self, run: usize, segments: bool) -> Result<Reply, Refusal> {
        let chain = self.cruncher.chain(&self.points, run)?;
        if !self.more.with_contour {
            return Ok(self.fallen.after(chain_text(&chain, segments), chain.fallen).into());
        }
        let text = check_line(&self.points, &chain);
        if text.is_none() {
            self.seen.push(format!("{}: the run has no chain, and no line", chain_text(&chain, false)));
        }
        Ok(Reply { text, status: Status::AllCrunched })
    }

    /// The first edition has the cruncher's penalty, the second this one.
    fn editions(&mut self, penalty: u32, sketch: &mut Option<Sketch>) -> Reply {
        let cruncher = &mut self.cruncher;
        let first = cruncher.settings().penalty;
        if let (true, Ok(ready)) = (self.more.prepare, prepared(&self.points)) {
            self.ready = ready;
        }
        let both = match self.more.prepare {
            true => cruncher.prepared_editions(&self.points, first, penalty),
            false => cruncher.editions(&self.ready, first, penalty),
        };
        if let (Some(crunched), false) = (both.a.as_ref().or(both.b.as_ref()).ok(), self.more.quiet) {
            self.seen = notes::of(cruncher, &self.ready, &crunched.points);
        }
        if let Some(second) = &mut self.second {
            let traces = vec![self.cruncher.trace(&self.ready), second.trace(&self.ready)];
            *sketch = Some(Sketch::Contour { traces, stood: self.points.len() });
        }
        let hints = self.hints();
        for (name, refusal) in editions::refusals(&both) {
            let met = look::at_contour(&mut self.cruncher, &self.ready, refusal, hints);
            self.seen.extend(
                [Some(refusal.to_string()), met].into_iter().flatten().map(|m| format!("{name}: {m}")),
            );
        }
        editions::reply(&both, self.fallen)
    }
}

/// Where two editions are drawn.
fn second(job: &Job) -> Option<Cruncher> {
    match job.tool {
        Tool::Editions { penalty } if job.drawing.is_asked() => {
            Some(Cruncher::new(job.settings.with_penalty(penalty)))
        }
        _ => None,
    }
}

/// A chain that is not accepted counts as a refusal does.
fn verdict(said: Verdict, fallen: Fallen) -> Reply {
    let (word, status) =
        if said.accepted { ("yes", Status::AllCrunched) } else { ("no", Status::SomeRefused) };
    Reply { text: Some(fallen.after(word.to_owned(), said.fallen)), status }
}

/// No lookup of what is refused counts.
pub fn refused_text(refusal: Refusal, fallen: Fallen) -> String {
    fallen.after(format!("refused {}", refusal.number()), 0)
}

pub fn crunched_text(crunched: &Crunched) -> String {
    format!("ok {}{}", crunched.pairs, points_text(&crunched.points))
}

/// A blank before each number.
pub fn points_text(points: &[Point]) -> String {
    points.iter().map(|point| format!(" {} {} {}", point.x, point.y, u8::from(point.on_curve))).collect()
}
