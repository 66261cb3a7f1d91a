"""What the selftest asks and what must come back: document 01's table and findings about the Rust.

A case is a contour and its answer, for all three programs unless it says otherwise. The programs keep the Rust's
own penalty unless a case says another.
"""


def zigzag(count):
    """Points of which every one is a corner by sign."""
    return [(i % 512, 40 * (i % 2), 1) for i in range(count)]


def line(points):
    return " ".join(f"{x} {y} {f}" for x, y, f in points)


def reversed_answer(points):
    return "ok 0 " + line(points[::-1])


NAN = "7ff8000000000000"

# lookups fall only from long runs, which have room on whole units alone
HIGH = "--whole-units --penalty 256"
FELL = "-1795 0 1 -1794 0 1 143 -4 0 -3 7 1 -1795 -900 1"

# contour, answer
WHOLE = [
    # document 01, "Values on both sides"
    ("7 9 1", "ok 0 7 9 1"),
    ("0 0 1 100 0 1 0 100 1", "ok 0 0 100 1 100 0 1 0 0 1"),
    ("0 0 1 100 0 1 50 100 0", "ok 0 100 0 1 0 0 1"),
    ("5 5 1 5 5 0 5 5 1", "ok 1 5 5 1 5 5 1 5 5 0 5 5 1"),
    (line(zigzag(1024)), reversed_answer(zigzag(1024))),
    (line(zigzag(1025)), "refused 3"),
    # refusals 2 to 5, in that order
    ("", "refused 2"),
    ("0 0 0", "refused 4"),
    ("0 0 1 1 1 0 2 2 0", "refused 5"),
    ("0 0 0 1 1 0 2 2 0", "refused 4"),
    (line([(0, 0, 0)] * 1025), "refused 3"),
    # the last point is no neighbour of the first in the row
    ("0 0 1 10 10 0", "ok 0 0 0 1"),
    # rooms; the first met is given, and an unchanged run ends the work
    ("0 0 1 32767 0 0 32767 32767 1", "refused 6"),
    ("0 0 1 700 0 0 700 700 1", "refused 7"),
    ("0 0 1 700 0 0 700 700 1 32767 700 0 32767 -32768 1", "refused 7"),
    ("0 0 1 432 433 0 410 410 1 -300 900 1", "refused 8"),
    ("5 5 1 5 5 0 5 5 1 700 5 0 700 700 1", "ok 1 5 5 1 700 700 1 700 5 0 5 5 1 5 5 0 5 5 1"),
    # 16,384 samples fit (then there are too many breaks), and 2,048 breaks
    ("0 0 1 8190 0 0 16382 0 1 0 500 1", "refused 7"),
    ("0 0 1 8190 0 0 16383 0 1 0 500 1", "refused 6"),
    ("0 0 1 500 0 0 1022 2 1 -3000 500 1", "ok 1 -3000 500 1 1022 2 1 0 0 1"),
    ("0 0 1 500 0 0 1022 3 1 -3000 500 1", "refused 7"),
    # zero first tangent, a loop, one break, a last break short of the end
    ("0 0 1 0 0 0 60 40 1 5 50 1", "ok 1 5 50 1 60 40 1 0 0 1"),
    ("0 0 1 40 0 0 0 0 1 5 50 1", "ok 1 5 50 1 0 0 1 0 0 1"),
    ("0 0 1 0 1 0 0 0 1 5 50 1", "ok 1 5 50 1 0 0 1 0 0 1"),
    ("1 0 1 9 7 0 8 6 1", "ok 1 7 6 1 1 0 1"),
    ("-25 -55 1 5 -15 1 41 33 1 -71 51 1", "ok 1 -71 51 1 41 33 1 -25 -55 1"),
    # only bit 0 of a flag counts
    ("7 9 3", "ok 0 7 9 1"),
    ("7 9 255", "ok 0 7 9 1"),
    ("7 9 128", "refused 4"),
    ("0 0 129 100 0 5 50 100 254", "ok 0 100 0 1 0 0 1"),
    # lines that hold no contour
    ("1 2", "malformed"),
    ("x", "malformed"),
    ("0 0 1 5", "malformed"),
    ("1.5 0 1", "malformed"),
    ("+1 0 1", "malformed"),
    ("32768 0 1", "malformed"),
    ("0 -32769 1", "malformed"),
    ("0 0 256", "malformed"),
    ("0 0 -1", "malformed"),
    ("-32768 32767 1", "ok 0 -32768 32767 1"),
]

# contour, answer of the release builds; the debug build stops on the overflowing sum
OVERFLOW = [
    (
        "20000 0 1 20000 10 0 20005 20 1 20020 30 0 20040 30 1",
        "ok 2 20040 30 1 20020 30 0 20005 20 1 20000 10 0 20000 0 1",
    ),
    # an unchanged contour, so that document 01's implied point between 32767 and 32767 is written
    (
        "5 5 1 5 5 0 5 5 1 32767 0 0 -1 0 1 32767 0 0",
        "ok 1 5 5 1 32767 0 0 32767 0 0 5 5 1 5 5 0 5 5 1",
    ),
]

# settings, contour, answer
CHOSEN = [
    # one bent piece has the error 1.07: 2.07 is above 4 penalties, 3.07 above 3, 5.07 above none; then it is straight
    ("--penalty 8", "9 25 1 14 20 0 4 35 1", "ok 737 4 35 1 14 20 0 9 25 1"),
    ("--penalty 16", "9 25 1 14 20 0 4 35 1", "ok 71 4 35 1 14 20 0 9 25 1"),
    ("--penalty 32", "9 25 1 14 20 0 4 35 1", "ok 1 4 35 1 14 20 0 9 25 1"),
    ("--penalty 256", "9 25 1 14 20 0 4 35 1", "ok 1 4 35 1 9 25 1"),
    # what is refused hangs on the pairs tried
    ("--penalty 1", "0 0 1 432 433 0 410 410 1 -300 900 1", "refused 8"),
    ("--penalty 32", "0 0 1 432 433 0 410 410 1 -300 900 1", "refused 8"),
    ("--penalty 256", "0 0 1 432 433 0 410 410 1 -300 900 1", "ok 1 -300 900 1 410 410 1 0 0 1"),
    # 16 comes after 2 to 5 and before any run
    ("--penalty 0", "7 9 1", "refused 16"),
    ("--penalty 257", "0 0 1 32767 0 0 32767 32767 1", "refused 16"),
    ("--penalty 4294967295", "7 9 1", "refused 16"),
    ("--penalty 0", "", "refused 2"),
    ("--penalty 0", line([(0, 0, 0)] * 1025), "refused 3"),
    ("--penalty 0", "0 0 0", "refused 4"),
    ("--penalty 0", "0 0 1 1 1 0 2 2 0", "refused 5"),
    ("--penalty 0", "x", "malformed"),
    # whole units: a last break at (7.5, 6) is at (8, 6), and there are fewer breaks
    ("--whole-units", "1 0 1 9 7 0 8 6 1", "ok 1 8 6 1 1 0 1"),
    ("--whole-units", "0 0 1 500 0 0 1022 3 1 -3000 500 1", "ok 1 -3000 500 1 1022 3 1 500 0 0 0 0 1"),
    ("--whole-units", "0 0 1 32767 0 0 32767 32767 1", "refused 6"),
    ("--whole-units", "5 5 1 5 5 0 5 5 1", "ok 1 5 5 1 5 5 1 5 5 0 5 5 1"),
    ("--whole-units --penalty 0", "7 9 1", "refused 16"),
    # lookups that fell: two a stage past the end; none where it is refused, though one fell before
    ("--fallen", "7 9 1", "ok 0 7 9 1 fallen 0"),
    ("--fallen", "5 5 1 5 5 0 5 5 1", "ok 1 5 5 1 5 5 1 5 5 0 5 5 1 fallen 0"),
    ("--fallen", "0 0 0", "refused 4 fallen 0"),
    ("--fallen --penalty 0", "7 9 1", "refused 16 fallen 0"),
    ("--fallen", "0 0 1 700 0 0 700 700 1", "refused 7 fallen 0"),
    ("--fallen", "1 2", "malformed"),
    (f"--fallen {HIGH}", FELL, "ok 3641 -1795 -900 1 -3 7 1 64 2 0 -297 0 1 -1795 0 1 fallen 4"),
    (HIGH, FELL, "ok 3641 -1795 -900 1 -3 7 1 64 2 0 -297 0 1 -1795 0 1"),
    (f"--fallen {HIGH}", "1858 4 1 1857 4 1 -154 5 0 9 3 1 1858 508 1", "refused 8 fallen 0"),
]

# contour, answer in closed mode; the answer of the crate's mode where it shows the difference
CLOSED = [
    # document 01's whole-contour rows
    ("7 9 1", "ok 0 7 9 1", "ok 0 7 9 1"),
    ("0 0 1 100 0 1 0 100 1", "ok 0 0 0 1 100 0 1 0 100 1", None),
    ("0 0 1 100 0 1 50 100 0", "ok 1 0 0 1 100 0 1 50 100 0", "ok 0 100 0 1 0 0 1"),
    ("5 5 1 5 5 0 5 5 1", "ok 1 5 5 1 5 5 0 5 5 1", None),
    (line(zigzag(1024)), "ok 0 " + line(zigzag(1024)), None),
    (line(zigzag(1025)), "refused 3", "refused 3"),
    ("0 0 1 1 1 0 2 2 0", "refused 5", "refused 5"),
    # no corner, and one corner: one run all round
    ("0 0 1 10 10 0", "ok 0 0 0 1 10 10 0", "ok 0 0 0 1"),
    ("0 0 1 100 0 0 0 0 1 100 -2 0 0 0 1 100 -3 0", "ok 1 0 0 1", "ok 0 0 0 1"),
    # only the closing run leaves the contour unchanged
    (
        "0 0 1 2 0 0 2 9 1 -3 12 1 0 0 1 0 0 0",
        "ok 2 0 0 1 2 0 0 2 9 1 -3 12 1 0 0 1 0 0 0",
        "ok 1 0 0 1 -3 12 1 2 9 1 2 0 0 0 0 1",
    ),
    # two lines across the start are a worked run; one line is copied, also one of length 0
    ("50 0 1 100 0 1 100 60 1 0 60 1 0 0 1", "ok 1 100 0 1 100 60 1 0 60 1 0 0 1", "ok 0 0 0 1 0 60 1 100 60 1 50 0 1"),
    ("0 0 1 100 0 1 100 60 1 0 0 1", "ok 0 0 0 1 100 0 1 100 60 1 0 0 1", None),
    # the last piece's end is not written, wherever its break is: here it is at (7.5, 6)
    ("8 6 1 1 0 1 9 7 0", "ok 1 8 6 1 1 0 1", None),
    # the first point is the midpoint of its neighbours and stays; others go
    ("10 -8 1 34 -2 0 44 32 1 -10 37 1 -14 -14 0", "ok 2 10 -8 1 34 -2 0 44 32 1 -10 37 1 -14 -14 0", None),
    ("0 0 1 10 10 0 0 0 1 -10 -10 0", "ok 0 0 0 1 10 10 0 -10 -10 0", "ok 0 0 0 1"),
    # one off-curve point is both neighbours
    ("5 5 1 5 5 0", "ok 1 5 5 1 5 5 0", "ok 0 5 5 1"),
    # a joint at a half unit is written cut, and stays
    ("22 -6 1 9 -4 0 9 -5 1 9 -6 0", "ok 2 22 -6 1 10 -4 0 9 -5 1 9 -6 0", None),
    # the full sum: -1 between two at 32767 stays, and 0 between 0 and 1
    (
        "5 5 1 5 5 0 5 5 1 32767 0 0 -1 0 1 32767 0 0",
        "ok 1 5 5 1 5 5 0 5 5 1 32767 0 0 -1 0 1 32767 0 0",
        None,
    ),
    (
        "5 5 1 5 5 0 5 5 1 0 0 0 0 0 1 1 0 0",
        "ok 1 5 5 1 5 5 0 5 5 1 0 0 0 0 0 1 1 0 0",
        "ok 1 5 5 1 1 0 0 0 0 0 5 5 1 5 5 0 5 5 1",
    ),
    (
        "5 5 1 5 5 0 5 5 1 32767 0 0 32767 0 1 32767 0 0",
        "ok 1 5 5 1 5 5 0 5 5 1 32767 0 0 32767 0 0",
        None,
    ),
    # the closing run is worked last, and an unchanged run hides it
    ("32767 32767 1 0 0 1 32767 0 0", "refused 6", "ok 0 0 0 1 32767 32767 1"),
    ("700 700 1 0 0 1 700 0 0", "refused 7", "ok 0 0 0 1 700 700 1"),
    ("410 410 1 -300 900 1 0 0 1 432 433 0", "refused 8", "ok 0 0 0 1 -300 900 1 410 410 1"),
    ("0 0 1 700 0 0 700 700 1 32767 32767 1 -32768 32767 0", "refused 7", "refused 7"),
    ("5 5 1 5 5 0 5 5 1 700 700 1 700 5 0", "ok 1 5 5 1 5 5 0 5 5 1 700 700 1 700 5 0", None),
]

# settings, and what stands after the point in the coordinates of all finite breaks of WHOLE
GRIDS = [("", {0.0, 0.5}), ("--whole-units", {0.0})]

# contour, its segments and marks; the lengths that follow are not compared here
CORNERS = [
    ("0 0 1 100 0 1 200 2 1 300 -300 1", "corners 4: 0 2 3 ;"),
    ("0 0 1 100 0 1 199 2 1 300 -300 1", "corners 4: 0 1 2 3 ;"),
    ("0 0 1 -50 50 0 50 50 1 -50 50 0 100 100 1", "corners 3: 0 2 ;"),
    ("0 0 1 10 10 0", "corners 1: ;"),
    ("7 9 1", "corners 1: 0 ; 0000000000000000"),
    ("0 0 1 0 0 1 5 0 1", "corners 3: 0 1 2 ; 0000000000000000 4014000000000000 4014000000000000"),
    ("0 0 0", "refused 4"),
]

# option, contour, all lines of the answer
LINES = [
    ("--runs", "0 0 1 432 433 0 410 410 1 -300 900 1", ["refused 8", "run 0 refused 8"]),
    ("--runs", "0 0 1 100 0 1 0 100 1", ["ok 0 0 100 1 100 0 1 0 0 1", "run 0 copied", "run 1 copied"]),
    (
        "--runs",
        "5 5 1 5 5 0 5 5 1",
        [
            "ok 1 5 5 1 5 5 1 5 5 0 5 5 1",
            "run 0 samples 3 length 0000000000000000 breaks 1 pairs 1 unchanged",
        ],
    ),
    (
        "--runs --fallen",
        "5 5 1 5 5 0 5 5 1",
        [
            "ok 1 5 5 1 5 5 1 5 5 0 5 5 1 fallen 0",
            "run 0 samples 3 length 0000000000000000 breaks 1 pairs 1 unchanged fallen 0",
        ],
    ),
    (
        f"--runs --fallen {HIGH}",
        FELL,
        [
            "ok 3641 -1795 -900 1 -3 7 1 64 2 0 -297 0 1 -1795 0 1 fallen 4",
            "run 0 samples 1815 length 409c5388bd050777 breaks 1822 pairs 3641 score 404c485cb033ceb5 chain 2"
            " 0 1500 c090580000000000 0000000000000000 1500 1821 4050000000000000 4000000000000000 fallen 4 0",
            "run 1 copied fallen 0",
        ],
    ),
    (
        "--breaks",
        "5 5 1 5 5 0 5 5 1",
        ["contour", f"run 0 samples 3 length 0000000000000000 breaks 1 {NAN} {NAN} {NAN} {NAN} {NAN}"],
    ),
    # refused runs do not stop the rest
    (
        "--breaks",
        "0 0 1 700 0 0 700 700 1 32767 700 0 32767 -32768 1 0 0 1",
        ["contour", "run 0 refused 7", "run 1 refused 6", "run 2 copied"],
    ),
    # one run alone, whatever the others do; 16 before 10
    ("--chain 0", "0 0 1 100 0 1 0 100 1", ["refused 10"]),
    ("--chain 2", "0 0 1 100 0 1 0 100 1", ["refused 10"]),
    ("--chain 1 --closed", "0 0 1 100 0 1 50 100 0", ["ok 1 400092556624e564 1 0 365 4049000000000000 4059000000000000"]),
    ("--chain 0 --closed", "0 0 1 10 10 0", ["refused 10"]),
    ("--chain 0 --penalty 0", "0 0 1 100 0 1 0 100 1", ["refused 16"]),
    ("--chain 0", "7 9 128", ["refused 4"]),
    ("--chain 0", "5 5 1 5 5 0 5 5 1", ["unchanged 1"]),
    ("--chain 0", "0 0 1 700 0 0 700 700 1 32767 700 0 32767 -32768 1 0 0 1", ["refused 7"]),
    ("--chain 1", "0 0 1 700 0 0 700 700 1 32767 700 0 32767 -32768 1 0 0 1", ["refused 6"]),
    ("--chain 0", "0 0 1 432 433 0 410 410 1 -300 900 1", ["refused 8"]),
    ("--chain 0 --fallen", "0 0 1 432 433 0 410 410 1 -300 900 1", ["refused 8 fallen 0"]),
    ("--chain 0 --fallen", "5 5 1 5 5 0 5 5 1", ["unchanged 1 fallen 0"]),
    # segments 4 and 0 hold the closing run's two breaks
    (
        "--chain 3 --segments --closed",
        "50 0 1 100 0 1 100 60 1 0 60 1 0 0 1",
        ["ok 1 3ff0000000000000 1 0 200 4049000000000000 0000000000000000 4 0"],
    ),
    (
        f"--chain 0 --segments --fallen {HIGH}",
        FELL,
        [
            "ok 3641 404c485cb033ceb5 2 0 1500 c090580000000000 0000000000000000 0 1"
            " 1500 1821 4050000000000000 4000000000000000 1 1 fallen 4"
        ],
    ),
    # one piece that no optimiser takes, of which one stage falls
    (
        f"--bent --fallen {HIGH}",
        FELL,
        [
            "contour",
            "run 0 score 40891b566b74f7c1 chain 1 0 1821 4056800000000000 0000000000000000 fallen 2",
            "run 1 copied fallen 0",
        ],
    ),
    ("--bent --fallen", "0 0 1 -898 0 0 -855 -1 1 -533 -320 1", ["contour", "run 0 refused 8 fallen 0", "run 1 copied fallen 0"]),
    # the optimiser's own where it takes one bent piece
    (
        "--bent --closed",
        "0 0 1 100 0 1 50 100 0",
        ["contour", "run 0 copied", "run 1 score 400092556624e564 chain 1 0 365 4049000000000000 4059000000000000"],
    ),
    # straight, so that no lines cross
    ("--bent", "0 0 1 1 0 1 3 0 1 1 9 1", ["contour", "run 0 none", "run 1 copied"]),
    ("--measures 2", "7 9 128", ["refused 4"]),
    (
        "--measures 2",
        "5 5 1 5 5 0 5 5 1",
        [
            "contour",
            f"run 0 samples 3 length 0000000000000000 breaks 1 0 0 {NAN} {NAN} 0 0 {NAN} {NAN}",
        ],
    ),
    (
        "--samples",
        "5 5 1 5 5 0 5 5 1",
        ["contour", "run 0 samples 3 length 0000000000000000 4014000000000000 4014000000000000" + f" {NAN}" * 10],
    ),
    ("--samples", "x", ["malformed"]),
]

# The oracle's own root decides between two places for this break, and a host's hypot may take the
# other: contour, break number, bits of its s. It is asked of the oracle alone.
ROOT = ("-25 -55 1 5 -15 1 41 33 1 -71 51 1", 292, "405a1fffffffffe5")
