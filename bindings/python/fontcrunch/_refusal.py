"""Why nothing was done."""

from __future__ import annotations

# the sentences of bindings/rust/src/refusal.rs, by their numbers; include/fontcrunch.h says more
_SENTENCES = {
    1: "the rows of the contour differ in length",
    2: "the contour has no point",
    3: "the contour has more than 1,024 points",
    4: "the first point is off-curve; start with an on-curve one",
    5: "off-curve points stand together; write out the implied point between two (cubics: pairs alone)",
    6: "a run between two corners is too long: it needs more than 16,384 samples, one a unit",
    7: "a run between two corners is too long: it has more than 2,048 breaks, half a unit or a whole one apart",
    8: "a piece was to be measured past the last sample of its run, where no answer is defined",
    9: "the result has more points than there is room for",
    10: "there is no such run, or it is one line, which is copied",
    11: "there is no such segment: the index is not below their number",
    12: "the glyph description ends too soon, or there are fewer points than the last end says",
    13: "the ends of the glyph's contours do not rise",
    14: "a coordinate, a difference or a count is too large for its field",
    15: "the glyph is composite",
    16: "the penalty is not from 1 to 256 sixteenths",
    17: "a point of the quads is outside -32768 and 32767",
    18: "there are more dropped points than the list has places",
    19: "the file is no GLIF by docs/GLIF.md",
    20: "a point is cubic or not whole, or a contour is open",
    21: "a contour has no on-curve point",
}

_NO_WORDS = "the library gives a reason that this version has no words for"


class Refused(Exception):
    """A contour, a run of it, a glyph or a file is refused.

    Where several reasons hold, the first in the order of the entry that is called is given: docs/REFUSALS.md, at the
    repository's top, has the order of each in one table.
    """

    number: int
    """The refusal's number, the same in every program over the library."""

    sentence: str
    """The reason in words."""

    def __init__(self, number: int) -> None:
        self.number = number
        self.sentence = _SENTENCES.get(number, _NO_WORDS)
        # the number alone is handed to Exception, so that a refusal can be pickled
        super().__init__(number)

    def __str__(self) -> str:
        return f"refused {self.number}: {self.sentence}"
