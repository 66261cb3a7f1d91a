//! What the command says of itself: an overview, and a page for each tool.

use fontcrunch::Refusal;

use super::Tool;

pub fn version() -> String {
    format!("fontcrunch {}\n", env!("CARGO_PKG_VERSION"))
}

/// The page of a tool, or the overview where none is named.
pub fn help(tool: Option<Tool>) -> String {
    match tool {
        None => format!("{OVERVIEW}\n{SETTINGS}\n{COMMON}\n{}\n{STATUS}", told(&ALL_REFUSALS)),
        Some(Tool::Ufo) => UFO.with(UFO_COMMON, "", UFO_STATUS),
        // every line of trace is an object
        Some(Tool::Trace) => page(Tool::Trace).with(COMMON, "", STATUS),
        Some(tool) => page(tool).with(COMMON, OTHERWISE, STATUS),
    }
}

fn told(numbers: &[u32]) -> String {
    let each = numbers.iter().filter_map(|&number| Refusal::from_number(number));
    each.fold("Refusals:\n".to_owned(), |text, refusal| format!("{text}  {refusal}\n"))
}

/// What a tool says of itself.
struct Page {
    /// What it does, its usage, and the options that it alone has.
    what: &'static str,
    /// Whether it takes settings.
    settings: bool,
    /// Lines in, and lines out where nothing is refused.
    lines: &'static str,
    /// The refusals that can be met on its lines. 1 cannot, but where contours are written into a file.
    refusals: &'static [u32],
    /// Commands after `  $ `, each followed by what it answers. They are run by the tests.
    example: &'static str,
}

impl Page {
    fn with(&self, common: &str, otherwise: &str, status: &str) -> String {
        let settings = if self.settings { format!("{SETTINGS}\n") } else { String::new() };
        let Page { what, lines, example, .. } = self;
        format!(
            "{what}\n{settings}{common}\n{lines}{otherwise}\n{}\nExample:\n{example}\n{status}",
            told(self.refusals)
        )
    }
}

fn page(tool: Tool) -> &'static Page {
    match tool {
        Tool::Crunch => &CRUNCH,
        Tool::Trace => &TRACE,
        Tool::Clean { .. } => &CLEAN,
        Tool::Idle { .. } => &IDLE,
        Tool::Cubic { .. } => &CUBIC,
        Tool::Explicit { .. } => &EXPLICIT,
        Tool::Why { .. } => &WHY,
        Tool::Chain { .. } => &CHAIN,
        Tool::Check { .. } => &CHECK,
        Tool::Glyph { .. } => &GLYPH,
        Tool::Glif { .. } => &GLIF,
        Tool::Ufo => &UFO,
        Tool::Editions { .. } => &EDITIONS,
    }
}

const OVERVIEW: &str = "\
Crunches TrueType contours: puts fewer quadratic pieces between their corners.

usage: fontcrunch [crunch] [--prepare] [--fallen] [SETTINGS] [--svg PICTURE] [--html PAGE] [FILE...]
       fontcrunch ufo IN.ufo -o OUT.ufo [--cubic] [--report FILE.json] [SETTINGS]
       fontcrunch editions --penalty A --penalty B [--whole-units] [--closed] [--prepare] [--fallen] [FILE...]
       fontcrunch trace [SETTINGS] [FILE...]
       fontcrunch why [--index] [--words] [FILE...]
       fontcrunch chain K [--segments] [--fallen] [--with-contour] [SETTINGS] [FILE...]
       fontcrunch check K [--fallen] [SETTINGS] [FILE...]
       fontcrunch glyph read|write|crunch [--explicit] [--prepare] [--keep-unless-fewer] [SETTINGS] [FILE...]
       fontcrunch glif [--prepare] [--cubic] [--keep-unless-fewer] [SETTINGS] FILE.glif
       fontcrunch glif -o DIR [--cubic] [--report FILE.json] [SETTINGS] FILE.glif...
       fontcrunch glif read|write|crunch [SETTINGS] [FILE...]
       fontcrunch clean [--crunch [--prepare] [SETTINGS]] [FILE...]
       fontcrunch idle [--crunch [--prepare] [SETTINGS]] [FILE...]
       fontcrunch cubic [--crunch [--prepare] [SETTINGS]] [FILE...]
       fontcrunch explicit [--crunch [--prepare] [SETTINGS]] [FILE...]
       fontcrunch help [TOOL]

crunch         crunches contours, which a first word that names no tool does too; a file
               of a tool's name is ./crunch, ./clean and so on
ufo            crunches the glyphs of a whole UFO
editions       crunches each contour twice, at two penalties, from one sampling
trace          tells all that came of each contour, as lines of JSON
why            tells why segments start at corners
chain K        gives the chain of run K, counted from 0
check K        checks chains of run K, whoever made them
glyph          reads, writes and crunches simple glyph descriptions
glif           reads, writes and crunches files of UFO's GLIF
clean          drops repeated points
idle           drops controls that stand on an end of their curve
cubic          makes quads of cubics
explicit       writes out implied points

fontcrunch TOOL --help, or fontcrunch help TOOL, tells a tool's lines, and has an example.
";

const SETTINGS: &str = "\
SETTINGS       --penalty N, --whole-units, --closed; without them 32, half units and
               the crate's mode, in which what lies outside the corners is lost
--penalty N    what each piece adds to a score, in sixteenths, 1 to 256. A larger one
               asks for fewer pieces; 16 is that of the Rust which this follows
--whole-units  rounds breaks to whole units, not to half ones, for engines that misdraw
               implied points on half ones; it serves them with --closed, and only then
--closed       a last run goes round from the last corner to the first, points come
               out in order from the first corner on, and nothing is lost
";

const COMMON: &str = "\
FILE           what is read, a line at a time; standard input where there is none, or
               for -
--jobs N, -j N spreads lines over N threads, 1 to 256; answers keep the order of the
               lines, and are the same for any N
--quiet, -q    no notes on standard error; what is refused or malformed is still told
--help         this text
--version      the version
";

const OTHERWISE: &str = "  \
  refused K           nothing came out; the reason goes to standard error
  malformed           the line is not as above, or too long; what is wrong goes to
                      standard error
";

const STATUS: &str = "\
Exit status: 0 every line was answered; 1 some were refused, or some chains not
accepted; 2 some lines were malformed, a file could not be read or written, or the
command line was wrong.
";

const UFO_COMMON: &str = "\
--jobs N, -j N works on N glyphs at a time, 1 to 256; what comes out is the same for any N
--quiet, -q    no notes on standard error, and no line on a terminal
--help         this text
--version      the version
";

const UFO_STATUS: &str = "\
Exit status: 0 every glyph was crunched or kept; 1 some were refused; 2 some file could not
be read or written, or the command line was wrong.
";

const ALL_REFUSALS: [u32; 19] = [2, 3, 4, 5, 6, 7, 8, 9, 10, 11, 12, 13, 14, 15, 16, 17, 19, 20, 21];

const CRUNCH: Page = Page {
    what: "\
Crunches TrueType contours: puts fewer quadratic pieces between their corners.

usage: fontcrunch [crunch] [--prepare] [--fallen] [SETTINGS] [--svg PICTURE [--together]] [--html PAGE] [FILE...]
       fontcrunch [SETTINGS] --html PAGE FONT.ttf
       fontcrunch [SETTINGS] --html PAGE FOLDER.ufo

--prepare      first writes out implied points, drops repeated points, and drops controls
               that stand on an end of their curve: contours as fonts and old uploads
               hold them
--fallen       ends each answer with fallen N: how many lookups fell past the samples in
               all that was measured, a place and a direction one each; 0 where refused
--svg PICTURE  draws each contour before and after, to a file, which is there when it is
               whole. For - the picture goes to standard output, in place of the answers
--together     with --svg: draws all contours of a file in one frame
--html PAGE    writes a page to be pointed at: all contours of a file as one letter. With
               editions it shows both, with glyph crunch and glif a letter a glyph. Of a
               TrueType font or a UFO: all glyphs, implied points written out
               With --svg or --html and without --penalty the penalty is 16, of what is
               shown and of the answers; standard error says so
",
    settings: true,
    lines: "\
A line in is x y f x y f ..., whole numbers with one blank between them: x and y
from -32768 to 32767, and a flag f from 0 to 255, of which only bit 0 counts (1:
on-curve). The first point is on-curve, and implied points are written out. An
empty line is a contour of no point. A line has at most 65536 bytes.

A line out, for each line in:
  ok PAIRS x y f ...  the points that came out, in reverse order, or with --closed
                      in order; PAIRS of breaks were tried

A note on standard error says where segments outside the corners are not written, which
--closed keeps, and where a control stands on an end of its curve, which --prepare drops.
",
    refusals: &[2, 3, 4, 5, 6, 7, 8, 9, 16],
    example: "  \
  $ echo '0 0 1 0 60 0 40 90 1 80 120 0 130 120 1 200 -40 1' | fontcrunch --closed --penalty 16
  ok 937 0 0 1 0 60 0 80 120 0 130 120 1 200 -40 1
  $ echo '10 0 0 10 7 0 0 7 1 0 7 1' | fontcrunch --closed --prepare
  ok 2 0 7 1 10 0 0 10 4 1 10 7 0
  $ echo '-1795 0 1 -1794 0 1 143 -4 0 -3 7 1 -1795 -900 1' | fontcrunch --closed --fallen --whole-units --penalty 256
  ok 3641 -1795 0 1 -297 0 1 64 2 0 -3 7 1 -1795 -900 1 fallen 4
",
};

const TRACE: Page = Page {
    what: "\
Tells all that came of each contour, run by run and piece by piece, as a line of JSON:
segments and corners with their reasons, what each piece replaced, its place, its share of
the score and its distance from the upload; or what refused it, and where.

usage: fontcrunch trace [SETTINGS] [FILE...]

               Without --penalty the penalty is 16; standard error says so
",
    settings: true,
    lines: "\
A line in is a contour, x y f x y f ..., as for fontcrunch crunch.

A line out, for each line in, is an object of JSON. docs/trace.schema.json tells its names,
docs/TRACE.md what they mean. What no entry of the library says stands under beside. An
object has refused where the contour is refused, and is {\"malformed\":\"...\"} where the line
is no contour; standard error says so too.
",
    refusals: &[2, 3, 4, 5, 6, 7, 8, 9, 16],
    example: "  \
  $ echo '7 9 1' | fontcrunch trace --penalty 16
  {\"settings\":{\"penalty\":16,\"whole_units\":false,\"closed\":false},\"points\":[[7,9,1]],\"crunch\":{\"points\":[[7,9,1]],\"pairs\":0,\"fallen\":0},\"segments\":[{\"start\":[7,9],\"end\":[7,9],\"why\":[\"before\",\"after\"]}],\"runs\":[],\"beside\":{\"lost\":[],\"limit\":{\"sine\":0.02,\"degrees\":1.1459919983885924}}}
",
};

const EDITIONS: Page = Page {
    what: "\
Crunches each contour into two editions, a and b, with a penalty each. Each run is sampled
once for both, and an edition gets what fontcrunch crunch gives at its penalty, whatever
becomes of the other.

usage: fontcrunch editions --penalty A --penalty B [--whole-units] [--closed] [--prepare]
                           [--fallen] [--html PAGE] [FILE...]

--penalty A --penalty B
               what each piece adds to a score, in sixteenths, 1 to 256: of a, then of b
--whole-units  of both: rounds breaks to whole units, not to half ones
--closed       of both: as for fontcrunch crunch
--prepare      of both: as for fontcrunch crunch
--fallen       ends the line of each with its own fallen N, as for fontcrunch crunch
--html PAGE    writes a page that shows both beside each other
",
    settings: false,
    lines: "\
A line in is a contour, x y f x y f ..., as for fontcrunch crunch.

Two lines out, for each line in, of a and of b; one where it is malformed:
  a ok PAIRS x y f ...
                      the points that came out
  a refused K         nothing came out of this edition
",
    refusals: &[2, 3, 4, 5, 6, 7, 8, 9, 16],
    example: "  \
  $ echo '0 0 1 100 0 1 0 100 1' | fontcrunch editions --closed --penalty 16 --penalty 300
  a ok 0 0 0 1 100 0 1 0 100 1
  b refused 16
  $ echo '0 0 1 100 0 1 0 100 1' | fontcrunch editions --closed --penalty 16 --penalty 300 --fallen
  a ok 0 0 0 1 100 0 1 0 100 1 fallen 0
  b refused 16 fallen 0
",
};

const WHY: Page = Page {
    what: "\
Tells why segments start at corners.

usage: fontcrunch why [--index] [--words] [FILE...]

--index        of one segment alone: a line in is k x y f ..., k its index
--words        the place of each segment's start, the reasons in words, and the bend
               beside its limits in degrees; the place and the bend are worked out
               outside the proofs
",
    settings: false,
    lines: "\
A line in is a contour, x y f x y f ..., as for fontcrunch crunch.

A line out, for each line in:
  ok N 0:why,why 1: ...
                      N segments, each with what makes its start a corner: x, y (a
                      sign turn), before, after (a zero tangent), angle
  ok why,why          with --index; ok none where the segment starts at no corner
  ok N, and a line for each segment
                      with --words; with --index too, ok and one such line
",
    refusals: &[2, 3, 4, 5, 11],
    example: "  \
  $ echo '0 0 1 100 0 1 200 0 1 200 100 1' | fontcrunch why
  ok 4 0:x,angle 1: 2:angle 3:x,y,angle
  $ echo '0 0 1 100 0 1 100 100 1' | fontcrunch why --words
  ok 3
  0 at 0 0: corner: a sign turn in x, an angle; bend 135.00 degrees, an angle from 1.15 to 178.85
  1 at 100 0: corner: an angle; bend 90.00 degrees, an angle from 1.15 to 178.85
  2 at 100 100: corner: a sign turn in x, a sign turn in y, an angle; bend 135.00 degrees, an angle from 1.15 to 178.85
",
};

const CHAIN: Page = Page {
    what: "\
Gives the chain of pieces that is found for one run of a contour.

usage: fontcrunch chain K [--segments] [--fallen] [--with-contour] [SETTINGS] [FILE...]

K              the number of the run, counted from 0: it lies between corners K and
               K + 1
--segments     with the segments of the contour that each piece replaces
--fallen       ends each answer with fallen N, as for fontcrunch crunch, of the run alone
--with-contour gives the contour and its chain as fontcrunch check reads them. A contour
               that has no chain then has no line, and what is said of it goes to
               standard error
",
    settings: true,
    lines: "\
A line in is a contour, x y f x y f ..., as for fontcrunch crunch.

A line out, for each line in:
  ok PAIRS SCORE n start end cx cy ...
                      n pieces, each from break start to break end with the control
                      (cx, cy); SCORE, cx and cy are the 16 hexadecimal digits of a
                      double's bits. With --segments, after cy of each piece, the
                      first and the last segment that it replaces, counted from 0
  unchanged PAIRS     the run leaves its contour unchanged
",
    refusals: &[2, 3, 4, 5, 6, 7, 8, 10, 16],
    example: "  \
  $ echo '2 2 1 1 1 1 0 0 1 0 0 1 0 2 1' | fontcrunch chain 0 --closed --penalty 16
  ok 1 3ff0000000000000 1 0 4 3ff0000000000000 3ff0000000000000
  $ echo '2 2 1 1 1 1 0 0 1 0 0 1 0 2 1' | fontcrunch chain 0 --closed --with-contour | fontcrunch check 0 --closed
  yes
  $ echo '-1795 0 1 -1794 0 1 143 -4 0 -3 7 1 -1795 -900 1' | fontcrunch chain 0 --closed --fallen --whole-units --penalty 256
  ok 3641 404c485cb033ceb5 2 0 1500 c090580000000000 0000000000000000 1500 1821 4050000000000000 4000000000000000 fallen 4
",
};

const CHECK: Page = Page {
    what: "\
Checks chains of one run of a contour, whoever made them, at the settings that they
were made with.

usage: fontcrunch check K [--fallen] [SETTINGS] [FILE...]

K              the number of the run, counted from 0: it lies between corners K and
               K + 1
--fallen       ends each answer with fallen N: how many lookups fell past the samples as
               the chain was measured; 0 where it was not, since its shape is at fault
",
    settings: true,
    lines: "\
A line in is a contour as for fontcrunch crunch, a bar, and a chain: x y f ... | SCORE,
and for each piece start end cx cy, as fontcrunch chain gives them. A line has at most
262144 bytes.

A line out, for each line in:
  yes, no             whether the chain is accepted
",
    refusals: &[2, 3, 4, 5, 6, 7, 8, 10, 16],
    example: "  \
  $ echo '2 2 1 1 1 1 0 0 1 0 0 1 0 2 1 | 4000000000000000 0 4 3ff0000000000000 3ff0000000000000' | fontcrunch check 0 --closed
  yes
  $ echo '7 9 1 | 3ff0000000000000' | fontcrunch check 0 --closed --fallen
  refused 10 fallen 0
",
};

const GLYPH: Page = Page {
    what: "\
Reads, writes and crunches simple glyph descriptions, as OpenType's glyf table has them.

usage: fontcrunch glyph read [FILE...]
       fontcrunch glyph write [FILE...]
       fontcrunch glyph crunch [--explicit] [--prepare] [--keep-unless-fewer] [SETTINGS]
                               [--html PAGE] [FILE...]

crunch         crunches each contour as fontcrunch crunch does. The first that is
               refused refuses the glyph. Instructions stay as they stand
--explicit     writes out the implied points of each contour before, as fontcrunch
               explicit does: without it 4 and 5 refuse most glyphs of fonts
--prepare      writes them out, and drops repeated points and controls that stand on an
               end of their curve
--keep-unless-fewer
               a description that does not get fewer points comes out byte for byte as
               it was
--html PAGE    writes a page of the glyphs, as for fontcrunch crunch
",
    settings: true,
    lines: "\
A line in is a description in hexadecimal digits for read and crunch, and a glyph for
write: ends=a,b,... instr=HEX pts=x y f x y f ..., the number of each contour's last
point, the instructions, and the points of all contours, f 1 on the curve and 0 off it.
An ok before it is passed over, so that what is read can be written again. A line has
at most 4194304 bytes.

A line out, for each line in:
  ok ends=a,b,... instr=HEX pts=x y f ...
                      read: the glyph
  ok HEX              write and crunch: the description
",
    refusals: &[3, 4, 5, 6, 7, 8, 9, 12, 13, 14, 15, 16, 21],
    example: "  \
  $ echo 'ends=2 instr= pts=0 0 1 100 0 1 0 100 1' | fontcrunch glyph write
  ok 0001000000000064006400020000313327646464
  $ echo 0001000000000064006400020000313327646464 | fontcrunch glyph crunch --closed | cut -c 4- | fontcrunch glyph read
  ok ends=2 instr= pts=0 0 1 100 0 1 0 100 1
",
};

const GLIF: Page = Page {
    what: "\
Reads, writes and crunches files of UFO's GLIF. What stands outside the insides of contours
is kept byte for byte.

usage: fontcrunch glif [--prepare] [--cubic] [--keep-unless-fewer] [SETTINGS] [--html PAGE] FILE.glif
       fontcrunch glif -o DIR [--cubic] [--report FILE.json] [SETTINGS] FILE.glif...
       fontcrunch glif --in-place [--cubic] [--report FILE.json] [SETTINGS] FILE.glif...
       fontcrunch glif read [FILE...]
       fontcrunch glif write [FILE...]
       fontcrunch glif crunch [--prepare] [--cubic] [--keep-unless-fewer] [SETTINGS]
                              [--html PAGE] [FILE...]

FILE.glif      a file of GLIF: it comes out on standard output with each contour
               crunched. One of the name read, write or crunch is ./read and so on
-o DIR         each file is written to that folder, under its own name, as fontcrunch ufo
               writes glyphs, with its defaults and options
--in-place     each file is written in its place, in the same way
crunch         crunches each contour as fontcrunch crunch does. The first that is
               refused refuses the file
--prepare      as for fontcrunch crunch; implied points are written out as files are read
--cubic        makes quads of cubic contours, and leaves contours of one move, which are
               anchors of format 1, as they stand. Such files are read and written
               outside the proved reader
--keep-unless-fewer
               a file that does not get fewer points comes out byte for byte as it was
--html PAGE    writes a page of the glyphs, as for fontcrunch crunch
",
    settings: true,
    lines: "\
A line in is a file in hexadecimal digits; for write, after each file and a bar, a contour
for each of its own: HEX | x y f ... | x y f .... A line has at most 16777216 bytes.

A line out, for each line in:
  ok C | x y f ... | x y f ...
                      read: the C contours, each from its first on-curve point on
  ok HEX              write and crunch: the file
",
    refusals: &[1, 2, 3, 4, 5, 6, 7, 8, 9, 14, 16, 19, 20, 21],
    example: "  \
  $ printf '<glyph><outline/></glyph>' | od -An -v -tx1 | tr -d ' \\n' | fontcrunch glif read
  ok 0
",
};

const UFO: Page = Page {
    what: "\
Crunches the glyphs of a whole UFO, and copies everything else byte for byte: property
lists, features, images, other layers.

usage: fontcrunch ufo IN.ufo -o OUT.ufo [OPTIONS] [SETTINGS]
       fontcrunch ufo IN.ufo --in-place [OPTIONS] [SETTINGS]

The files of the layer glyphs that its contents.plist names are crunched in closed mode,
each contour prepared before, as by --prepare. A glyph that would not get fewer points, and
one that is refused, stays byte for byte as it was.

-o OUT.ufo     a folder that is not there yet, or that an interrupted call has left
--in-place     changes the glyphs of IN.ufo itself
--cubic        as for fontcrunch glif
--report FILE.json
               writes what became of each glyph; docs/UFO.md has the shape
--no-closed, --no-prepare, --no-keep-unless-fewer
               without one of the defaults
",
    settings: true,
    lines: "\
Each file is written beside its place and renamed, so that a call that is interrupted leaves
whole files alone. The same call then goes on: what was done is not done again where the
bytes before and after are those of then. On a terminal a line says how far it is.

At the end, on standard output: how many glyphs were crunched, kept and refused, their
points before and after as they stand in the files, and the refusals by number, with the
names of glyphs and where each was met.
",
    refusals: &[3, 6, 7, 8, 9, 14, 16, 17, 19, 20, 21],
    example: "  \
  $ cd $(mktemp -d) && mkdir -p A.ufo/glyphs && echo '<glyph/>' > A.ufo/glyphs/a.glif && fontcrunch ufo -q A.ufo -o B.ufo
  1 glyph: 0 crunched, 1 kept, 0 refused
  points: 0 before, 0 after
",
};

const CLEAN: Page = Page {
    what: "\
Drops points that repeat their neighbours.

usage: fontcrunch clean [--crunch [--prepare] [SETTINGS]] [FILE...]

--crunch       cleans, then crunches what is left: lines out are those of fontcrunch
               crunch
",
    settings: true,
    lines: "\
A line in is a contour, x y f x y f ..., as for fontcrunch crunch.

A line out, for each line in:
  ok x y f ... | k:why ...
                      the points kept, and each dropped place k of the line, counted
                      from 0, in the order of dropping; why is before (equal to the
                      on-curve point before it), both (off-curve, equal to both
                      neighbours) or first (last, and equal to the first)
",
    refusals: &[2, 3, 4, 5, 6, 7, 8, 9, 16],
    example: "  \
  $ echo '0 0 1 0 0 1 5 0 1' | fontcrunch clean
  ok 0 0 1 5 0 1 | 1:before
",
};

const IDLE: Page = Page {
    what: "\
Drops idle controls: off-curve points that stand on an end of their curve. The curve is the
line between its ends, and left in, such a point makes its run come out straight.

usage: fontcrunch idle [--crunch [--prepare] [SETTINGS]] [FILE...]

--crunch       drops idle controls, then crunches what is left: lines out are those of
               fontcrunch crunch
",
    settings: true,
    lines: "\
A line in is a contour, x y f x y f ..., as for fontcrunch crunch.

A line out, for each line in:
  ok x y f ... | k:end ...
                      the points kept, and each dropped place k of the line, counted
                      from 0, in order; end is before (equal to the point before it) or
                      after (equal to the point after it, going round)
",
    refusals: &[2, 3, 4, 5, 6, 7, 8, 9, 16],
    example: "  \
  $ echo '0 0 1 0 0 0 100 0 1 300 0 0 300 200 1 0 200 1' | fontcrunch idle
  ok 0 0 1 100 0 1 300 0 0 300 200 1 0 200 1 | 1:before
",
};

const CUBIC: Page = Page {
    what: "\
Makes quads of cubics: off-curve points stand in pairs, and a last pair leads back to
the start.

usage: fontcrunch cubic [--crunch [--prepare] [SETTINGS]] [FILE...]

--crunch       makes quads, then crunches them: lines out are those of fontcrunch
               crunch
",
    settings: true,
    lines: "\
A line in is a contour, x y f x y f ..., as for fontcrunch crunch, with pairs of off-curve
points.

A line out, for each line in:
  ok x y f ...        the points of the quads, in order
",
    refusals: &[2, 3, 4, 5, 6, 7, 8, 9, 16, 17],
    example: "  \
  $ echo '0 0 1 0 0 0 0 0 0 9 0 1' | fontcrunch cubic
  ok 0 0 1 0 0 0 1 0 1 3 0 0 9 0 1
",
};

const EXPLICIT: Page = Page {
    what: "\
Writes out implied points: contours as fonts hold them become such as fontcrunch crunch
takes.

usage: fontcrunch explicit [--crunch [--prepare] [SETTINGS]] [FILE...]

--crunch       writes out implied points, then crunches: lines out are those of
               fontcrunch crunch
",
    settings: true,
    lines: "\
A line in is a contour, x y f x y f ..., as for fontcrunch crunch, but it may start
off-curve, and off-curve points may follow each other.

A line out, for each line in:
  ok x y f ...        the points from the first on-curve one on; between two off-curve
                      ones that follow each other stands their middle, on-curve,
                      halves away from zero
",
    refusals: &[2, 3, 6, 7, 8, 9, 16, 21],
    example: "  \
  $ echo '10 0 0 10 7 0 0 7 1' | fontcrunch explicit
  ok 0 7 1 10 0 0 10 4 1 10 7 0
",
};
