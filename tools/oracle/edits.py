"""The exact replacements that make the published Rust an oracle.

Each names itself, the text it looks for, what stands there afterwards and how often the text must
be found. Any other count stops the build, so a changed Rust cannot be taken for the old one.
"""

from collections import namedtuple

Edit = namedtuple("Edit", "name old new times")

FONTCRUNCH = "fonttools-cli/src/bin/fontcrunch.rs"
CONTOURUTILS = "fonttools-rs/src/tables/glyf/contourutils.rs"
POINT = "fonttools-rs/src/tables/glyf/point.rs"

# All from here to the end of FONTCRUNCH reads and writes font files; it goes.
CUT = "fn main() {"
TAIL = """mod fonttools;
mod harness;
mod hooks;

fn main() {
    harness::main()
}
"""


class Mismatch(Exception):
    """A text was not found as often as it must be."""


def one(name, old, new):
    return Edit(name, old, new, 1)


def before(name, old, hook):
    """Put a hook before a line that is found once and stays as it is."""
    return one(name, old, hook + " " + old)


def after(name, old, hook):
    return one(name, old, old + " " + hook)


IMPORTS = [
    one("import of tag", "use fonttools::tag;", ""),
    one("import of the tool's arguments", "use fonttools_cli::{open_font, read_args, save_font};", ""),
    one("import of the progress bar", "use indicatif::{ParallelProgressIterator, ProgressBar, ProgressStyle};", ""),
    one("import of threads", "use rayon::iter::{IntoParallelRefIterator, ParallelIterator};", ""),
]

ROOMS = [
    Edit("sample room", "xys.push(lastxy", "hooks::sample_room(xys.len()); xys.push(lastxy", 2),
    before("break room", "breaks.push(bk);", "hooks::break_room(&breaks);"),
    before("pairs tried", "if is_int(bk0.xy.x) && is_int(bk0.xy.y) {", "hooks::pair();"),
]

# Both lookups, of a place and of a direction, quietly give this past the end of the samples.
FALLS = [Edit("lookups that fall", "return Point::ZERO;", "hooks::fell(); return Point::ZERO;", 2)]

# An answer remembers its two break numbers, which its quad does not give away.
RECORDS = [
    after("numbers in an answer", "struct Statelet {", "from: usize, to: usize,"),
    before("number of the earlier break", "let prev = &states[prev];", "let from = prev;"),
    after("numbers of a new answer", "let mut sl = Statelet {", "from, to: this,"),
    one(
        "start of a run",
        "let thetas = Thetas::new(&quadbezes);",
        "if hooks::begin(ix1, bk0, segs.len(), &quadbezes) { continue; }"
        " let thetas = Thetas::new(&quadbezes); hooks::sampled(&thetas);",
    ),
    before("copied line", "match segs[bk0] {", "hooks::copied(ix1);"),
    after("start of the samples", "let mut arclen = 0_f64;", "hooks::sampling();"),
    after("end of a quad's steps", "arclen = y[0]", "; hooks::quad_ended(arclen);"),
    after("breaks of a run", "let breaks = self.find_breaks()?;", "hooks::broken(&breaks);"),
    after("unchanged run", "if new_quads.is_none() {", "hooks::unchanged();"),
    after("chain of a run", "let mut sl: &Statelet = states[n].sts.as_ref().as_ref().unwrap();", "hooks::chained(self, &breaks, sl);"),
]

# What a caller chooses; without a word each is as the Rust has it.
SETTINGS = [one("penalty of a piece", "thetas.optimize(1.0)", "thetas.optimize(hooks::settings().per_piece())")]

CONSTANT = "const HALF_STEP: bool = true;"
CHOSEN_UNITS = [
    one("half units as a constant", CONSTANT, ""),
    # once the constant is gone its name stands where it is read, and nowhere else
    one("half units where they are read", "HALF_STEP", "hooks::settings().half_step()"),
]
# The Rust rebuilt with its constant: nothing is chosen, and what reads it stays as it is.
WHOLE_UNITS = [one("whole units as a constant", CONSTANT, "const HALF_STEP: bool = false;")]

# Closed mode: the closing run, which the Rust leaves as a comment, is put back, and the points are written from the first
# corner in the input's order, without the last piece's end.
CLOSED = [
    one(
        "runs to go round",
        "let indices: Vec<usize> = (0..breaks.len()).collect();",
        "if hooks::settings().closed && breaks.is_empty() { return kurbo; }"
        " let mut indices: Vec<usize> = (0..breaks.len()).collect();",
    ),
    one(
        "start of the contour",
        "new_kurbo.push(kurbo.elements()[0]);",
        "new_kurbo.push(hooks::start_at(&segs, &breaks).unwrap_or(kurbo.elements()[0]));",
    ),
    one("closing run", "// indices.push(0);", "if hooks::settings().closed { indices.push(0); }"),
    one("segments of a run", "segs[bk0..bk1]", "hooks::between(&segs, bk0, bk1)"),
    before(
        "order of the points",
        "remove_implied_oncurves(&mut new);",
        "if hooks::settings().closed { new.reverse(); new.pop(); }",
    ),
]

# The standard's rule for an implied point in closed mode, the Rust's own in the crate's.
STANDARD = [
    one(
        f"implied in {c}",
        f"this.{c} != (prev.{c} + next.{c}) / 2",
        f"(if crate::hooks::settings().closed {{ 2 * this.{c} as i32 != prev.{c} as i32 + next.{c} as i32 }}"
        f" else {{ this.{c} != (prev.{c} + next.{c}) / 2 }})",
    )
    for c in "xy"
]

# In closed mode the point at place 0 stays.
FIRST = [one("first place looked at", "let mut i: usize = 0;", "let mut i = usize::from(crate::hooks::settings().closed);")]

ROOTS = [
    one(
        "root in the bend test",
        "(dx0.hypot(dy0) * dx1.hypot(dy1))",
        "((dx0 * dx0 + dy0 * dy0).sqrt() * (dx1 * dx1 + dy1 * dy1).sqrt())",
    ),
    one("root in the distance", "p.distance(orig_p)", "p.square_distance(orig_p).sqrt()"),
]

IMPLIED = [one("explicit points left out", "insert_explicit_oncurves(&mut contour);", "")]

WORDS = [one("name of 16 bits", "use otspec::types::*;", "#[allow(non_camel_case_types)] type int16 = i16;")]

IN_FONTCRUNCH = IMPORTS + ROOMS + FALLS + RECORDS + SETTINGS + CLOSED
IN_CONTOURUTILS = IMPLIED + STANDARD + FIRST
ALL = IN_FONTCRUNCH + CHOSEN_UNITS + WHOLE_UNITS + ROOTS + IN_CONTOURUTILS + WORDS


def apply(text, edits, where):
    """The text with every edit made, each counted first."""
    for edit in edits:
        found = text.count(edit.old)
        if found != edit.times:
            raise Mismatch(f"{where}: '{edit.name}' found {found} times, must be {edit.times}: {edit.old}")
        text = text.replace(edit.old, edit.new)
    return text


def cut(text):
    found = text.count(CUT)
    if found != 1:
        raise Mismatch(f"{FONTCRUNCH}: 'end of the algorithm' found {found} times, must be 1: {CUT}")
    return text[: text.index(CUT)] + TAIL


def edited(read, roots, whole_units):
    """The three edited files by name; `read` gives a published file's text."""
    edits = IN_FONTCRUNCH + (WHOLE_UNITS if whole_units else CHOSEN_UNITS) + (ROOTS if roots else [])
    return {
        "main.rs": apply(cut(read(FONTCRUNCH)), edits, FONTCRUNCH),
        "fonttools/tables/glyf/contourutils.rs": apply(read(CONTOURUTILS), IN_CONTOURUTILS, CONTOURUTILS),
        "fonttools/tables/glyf/point.rs": apply(read(POINT), WORDS, POINT),
    }
