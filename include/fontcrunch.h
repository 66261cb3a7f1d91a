/*
 * fontcrunch.h: crunch TrueType contours from C and C++.
 *
 * A contour comes in, and goes out with fewer quadratic pieces between its corners. The functions below are
 * proved to do what the definitions of their crates say, which tools/library names, on every input that the rules
 * on this page allow. They are in libfontcrunch.a, for Linux on the processor that it is made on, x86-64 or Arm
 * (aarch64):
 *
 *     tools/library                                writes build/libfontcrunch.a
 *     cc -Iinclude program.c build/libfontcrunch.a
 *
 * Nothing else is needed to link, -lm neither. The archive is named by its path, since -lfontcrunch takes the shared
 * library where both lie in a folder. Where tools/install has put them under a prefix it is
 *
 *     cc program.c $(pkg-config --cflags --libs fontcrunch)
 *
 * fontcrunch_easy.h has the same functions with five to eight arguments each, over rows that are made once. examples/c
 * has a program that calls the first three, and one that does the same by way of fontcrunch_easy.h.
 *
 *
 * ROWS
 *
 * A row is an array that you lend for the time of a call: a pointer, and then how many places it has.
 * A place of some rows is a small array, as in `double (*samples)[4]`: four doubles a place, and the length
 * still counts places. The functions keep no pointer and allocate nothing.
 *
 *   - A pointer is never null and is aligned for its type, also where the length is 0.
 *   - Rows that are written may not overlap each other or any row that is read.
 *   - Two calls may run at once if no row that either writes is lent to both.
 *
 * Nothing else is asked of a row: whatever is in it, and however long or short it is, the answer is one of
 * those below.
 *
 *
 * CONTOURS
 *
 * A contour is three rows of equal length, a place for each point: `xs`, `ys`, and `flags`, whose bit 0 is
 * set for an on-curve point. The other bits of a flag are not looked at. Flags that are written are 1 or 0.
 *
 * The first point is on-curve, and an implied point between two off-curve ones is written out, as
 * fontcrunch_explicit does. The contour is closed: its last point leads back to its first, by a line if it is
 * on-curve, by a curve if not.
 *
 *
 * SETTINGS
 *
 * What a caller chooses goes by value. `penalty` is what each piece adds to a score, in sixteenths, from 1 to
 * 256: a larger one asks for fewer pieces. FONTCRUNCH_DEFAULT_PENALTY is for callers with no wish of their own;
 * FONTCRUNCH_CRATE_PENALTY is that of the Rust that this follows, whose points come out at it.
 *
 * `whole_units` is 0 where breaks are rounded to half units, as the Rust rounds them. Any other number has them
 * rounded to whole units, for engines that misdraw implied points on half ones. It serves these together with
 * `closed`, and only then: in closed mode no implied point lies on a half unit, while the crate's mode drops points
 * that are no exact midpoints, on whole units too.
 *
 * `closed` is 0 for the crate's mode, that of the Rust, and any other number for closed mode, in which nothing is
 * lost: what lies before the first corner and after the last is a run too.
 *
 *
 * RUNS, BREAKS, CHAINS
 *
 * Corners cut a contour into runs, numbered from 0: run k lies between corners k and k + 1. In the crate's mode
 * what lies before the first corner and after the last is in no run and is not written. In closed mode it is the
 * last run, which goes round from the last corner to the first: m corners make m runs, one corner a run all
 * round, and a contour with no corner is left unchanged.
 *
 * A run that is a single line is copied. Any other is worked: places along it, rounded to half or whole units,
 * are its breaks, numbered from 0, and pieces are sought that lead from the first break to the last.
 *
 * A chain is the pieces of one run, in order: each piece's start and end break numbers and its control point.
 * Its score says how far the pieces are from the run, with the penalty for each. Scores and controls are
 * compared as values: -0.0 equals 0.0, and a NaN equals a NaN. A chain is checked at the settings that it was
 * made with.
 *
 *
 * LOOKUPS THAT FELL
 *
 * A piece is measured at places along it, each held against a sample of the run. Where the run has no sample so
 * far on, the Rust takes (0, 0), and so do the functions: the piece then gets an odd score. `fallen` in a report
 * is how many lookups fell so, at or past the end of the samples, a place and a direction counting one each. It
 * counts every attempt measured in the runs worked, also those of pieces that were not taken and of a contour left
 * unchanged; of fontcrunch_check, those of the chain that is checked alone. It changes no point, score or pair.
 *
 *
 * SCRATCH
 *
 * Five rows are lent to work in. What they hold on entry does not matter, and they are zero throughout on
 * every return. Shorter rows than the full rooms are allowed: contours that need more are then refused.
 * Longer rows change no answer of fontcrunch_crunch but 6, 7 and 9, so that a small contour may be tried in
 * short rows, which are cleared sooner, and in longer ones only if these do not suffice.
 *
 *   row      a place holds                              full room
 *   samples  x, y, direction x, direction y             FONTCRUNCH_SAMPLES
 *   breaks   length, x, y, direction x, y, segment      FONTCRUNCH_BREAKS
 *   answers  score, control x, control y                FONTCRUNCH_ANSWERS
 *   links    what a stored answer was built on          FONTCRUNCH_ANSWERS
 *   points   x, y, flag                                 as many as the output rows
 *
 * The sample room is the least of FONTCRUNCH_SAMPLES and the length of `samples`. The break room is the
 * least of FONTCRUNCH_BREAKS, the length of `breaks`, and half the shorter of `answers` and `links`.
 */
#ifndef FONTCRUNCH_H
#define FONTCRUNCH_H

#include <stddef.h>
#include <stdint.h>
#include <string.h>

#ifdef __cplusplus
extern "C" {
#endif

/* The version. Within one major version equal orders give equal bytes, numbers and settings keep their meaning, and no
   function here goes or takes other arguments; CHANGELOG.md tells what a version brings. */
#define FONTCRUNCH_VERSION "1.0.0"
#define FONTCRUNCH_VERSION_MAJOR 1
#define FONTCRUNCH_VERSION_MINOR 0
#define FONTCRUNCH_VERSION_PATCH 0

/* Full rooms. Longer rows are never needed, and are not used further. */
#define FONTCRUNCH_POINTS_IN 1024
#define FONTCRUNCH_SAMPLES 16384
#define FONTCRUNCH_BREAKS 2048
#define FONTCRUNCH_ANSWERS 4096

/* Break numbers rise along a chain, so no chain has more pieces than this. */
#define FONTCRUNCH_PIECES 2047

/* Penalties in sixteenths: 2.0, and 1.0. */
#define FONTCRUNCH_DEFAULT_PENALTY 32
#define FONTCRUNCH_CRATE_PENALTY 16

/* No fixed number of points suffices for every result. This many is what the program fontcrunch lends; a
   result of more points than were lent is refused by 9. */
#define FONTCRUNCH_POINTS_OUT 16384

/* The number in every report: 0, or why nothing was done. Where several hold, the first in a function's own order is
   given. Each function says its order, and docs/REFUSALS.md has all of them in one table. A number is tested over the
   whole input before the next one; of numbers in parentheses the one is given that is met first as runs are worked. */
enum {
    FONTCRUNCH_OK = 0,
    /* xs, ys and flags differ in length */
    FONTCRUNCH_UNEVEN_ROWS = 1,
    /* the contour has no point */
    FONTCRUNCH_NO_POINT = 2,
    /* it has more than FONTCRUNCH_POINTS_IN points; fontcrunch_put_back, fontcrunch_from_cubics and
       fontcrunch_explicit: more than so many would come out */
    FONTCRUNCH_TOO_MANY_POINTS = 3,
    /* its first point is off-curve */
    FONTCRUNCH_STARTS_OFF_CURVE = 4,
    /* two neighbours in the rows are both off-curve (the last point and the first are no neighbours);
       fontcrunch_from_cubics: a stretch of off-curve points is not two long */
    FONTCRUNCH_OFF_CURVE_NEIGHBOURS = 5,
    /* a run needs more samples than the sample room */
    FONTCRUNCH_TOO_MANY_SAMPLES = 6,
    /* a run has more breaks than the break room */
    FONTCRUNCH_TOO_MANY_BREAKS = 7,
    /* a sample is asked for at the last stored place, where the Rust that this follows would stop */
    FONTCRUNCH_PAST_LAST_SAMPLE = 8,
    /* fontcrunch_crunch: the points, counted before implied ones are dropped, are more than the shortest of
       ox, oy, of and points has places; in closed mode the end that is not written does not count.
       fontcrunch_chain: the pieces are more than the shortest of starts, ends, cxs, cys and spans has
       places. The others: a row is too short for what is read or written */
    FONTCRUNCH_OUTPUT_TOO_SHORT = 9,
    /* fontcrunch_chain and fontcrunch_check: there is no such run, or it is one copied line */
    FONTCRUNCH_NO_SUCH_RUN = 10,
    /* fontcrunch_why: the index is not below the number of segments */
    FONTCRUNCH_NO_SUCH_SEGMENT = 11,
    /* a glyph description ends too soon, or its point rows are shorter than the last end says */
    FONTCRUNCH_CUT_SHORT = 12,
    /* the ends of a glyph's contours do not rise; equal ones do not */
    FONTCRUNCH_ENDS_NOT_RISING = 13,
    /* a coordinate that is read is outside 16 bits; or a difference or a count that is to be written is too
       large for its field */
    FONTCRUNCH_TOO_LARGE = 14,
    /* the glyph is composite */
    FONTCRUNCH_COMPOSITE = 15,
    /* penalty is not from 1 to 256 */
    FONTCRUNCH_NO_SUCH_PENALTY = 16,
    /* fontcrunch_from_cubics: a rounded point is outside 16 bits */
    FONTCRUNCH_OUTSIDE_16_BITS = 17,
    /* fontcrunch_clean, fontcrunch_drop_idle: there are more drops than list has places */
    FONTCRUNCH_LIST_TOO_SHORT = 18,
    /* GLIF: the file is malformed */
    FONTCRUNCH_MALFORMED = 19,
    /* GLIF: a point is cubic or not whole, or a contour is open */
    FONTCRUNCH_CUBIC_OR_OPEN = 20,
    /* GLIF and fontcrunch_explicit: a contour has no on-curve point */
    FONTCRUNCH_NO_ON_CURVE = 21
};

/* Why a point was dropped: the second number of a place of the list of fontcrunch_clean. */
enum {
    /* an on-curve point equal to the on-curve point before it */
    FONTCRUNCH_FOR_BEFORE = 1,
    /* an off-curve point equal to both neighbours, going round */
    FONTCRUNCH_FOR_BOTH = 2,
    /* a last on-curve point equal to the first point */
    FONTCRUNCH_FOR_FIRST = 3
};

/* The neighbour that an idle control equals: the second number of a place of the list of fontcrunch_drop_idle. */
enum {
    /* the point before it */
    FONTCRUNCH_BESIDE_BEFORE = 1,
    /* the point after it, going round */
    FONTCRUNCH_BESIDE_AFTER = 2
};

/* Why a segment starts at a corner: a bit for each reason. */
enum {
    /* a sign turn in x, in y: the product was negative in either of the two rounds */
    FONTCRUNCH_TURN_X = 1,
    FONTCRUNCH_TURN_Y = 2,
    /* a zero tangent before, a zero tangent after */
    FONTCRUNCH_ZERO_BEFORE = 4,
    FONTCRUNCH_ZERO_AFTER = 8,
    /* an angle; it never stands beside a zero tangent */
    FONTCRUNCH_ANGLE = 16
};

/* A refusal in words, without its number. The text stays: it is no copy, and is not to be freed. */
static inline const char *fontcrunch_reason(uint32_t number)
{
    switch (number) {
    case FONTCRUNCH_OK: return "nothing is refused";
    case FONTCRUNCH_UNEVEN_ROWS: return "the rows of the contour differ in length";
    case FONTCRUNCH_NO_POINT: return "the contour has no point";
    case FONTCRUNCH_TOO_MANY_POINTS: return "the contour has more than 1,024 points";
    case FONTCRUNCH_STARTS_OFF_CURVE: return "the first point is off-curve; start with an on-curve one";
    case FONTCRUNCH_OFF_CURVE_NEIGHBOURS:
        return "off-curve points stand together; write out the implied point between two (cubics: pairs alone)";
    case FONTCRUNCH_TOO_MANY_SAMPLES:
        return "a run between two corners is too long: it needs more than 16,384 samples, one a unit";
    case FONTCRUNCH_TOO_MANY_BREAKS:
        return "a run between two corners is too long: it has more than 2,048 breaks, half a unit or a whole one apart";
    case FONTCRUNCH_PAST_LAST_SAMPLE:
        return "a piece was to be measured past the last sample of its run, where no answer is defined";
    case FONTCRUNCH_OUTPUT_TOO_SHORT: return "the result has more points than there is room for";
    case FONTCRUNCH_NO_SUCH_RUN: return "there is no such run, or it is one line, which is copied";
    case FONTCRUNCH_NO_SUCH_SEGMENT: return "there is no such segment: the index is not below their number";
    case FONTCRUNCH_CUT_SHORT:
        return "the glyph description ends too soon, or there are fewer points than the last end says";
    case FONTCRUNCH_ENDS_NOT_RISING: return "the ends of the glyph's contours do not rise";
    case FONTCRUNCH_TOO_LARGE: return "a coordinate, a difference or a count is too large for its field";
    case FONTCRUNCH_COMPOSITE: return "the glyph is composite";
    case FONTCRUNCH_NO_SUCH_PENALTY: return "the penalty is not from 1 to 256 sixteenths";
    case FONTCRUNCH_OUTSIDE_16_BITS: return "a point of the quads is outside -32768 and 32767";
    case FONTCRUNCH_LIST_TOO_SHORT: return "there are more dropped points than the list has places";
    case FONTCRUNCH_MALFORMED: return "the file is no GLIF by docs/GLIF.md";
    case FONTCRUNCH_CUBIC_OR_OPEN: return "a point is cubic or not whole, or a contour is open";
    case FONTCRUNCH_NO_ON_CURVE: return "a contour has no on-curve point";
    default: return "the library gives a reason that this version has no words for";
    }
}

/* What a function fontcrunch_X hands back is a fontcrunch_X_report. */
typedef struct fontcrunch_crunch_report {
    uint32_t number; /* of the refusal, or 0 */
    size_t points;   /* points written; 0 where refused */
    size_t pairs;    /* pairs of breaks tried, over all runs worked; 0 where refused */
    size_t fallen;   /* lookups that fell past the samples, over all runs worked; 0 where refused */
} fontcrunch_crunch_report;

typedef struct fontcrunch_chain_report {
    uint32_t number;     /* of the refusal, or 0 */
    size_t pieces;       /* pieces written; 0 where refused, and where the run leaves the contour unchanged */
    size_t pairs;        /* pairs of breaks tried; 0 where refused */
    uint64_t score_bits; /* the score's bits, see fontcrunch_score; 0 (which is 0.0) where there is no piece */
    size_t fallen;       /* lookups of this run that fell past the samples; 0 where refused */
} fontcrunch_chain_report;

typedef struct fontcrunch_check_report {
    uint32_t number;   /* of the refusal, or 0 */
    uint32_t accepted; /* 1: the chain is accepted; 0: it is not, or nothing was checked */
    size_t fallen;     /* lookups that fell as this chain's pieces were measured; 0 where none was, or refused */
} fontcrunch_check_report;

typedef struct fontcrunch_clean_report {
    uint32_t number; /* of the refusal, or 0 */
    size_t kept;     /* points written; 0 where refused */
    size_t dropped;  /* places of list written; 0 where refused */
} fontcrunch_clean_report;

typedef struct fontcrunch_put_back_report {
    uint32_t number; /* of the refusal, or 0 */
    size_t points;   /* points written; 0 where refused */
} fontcrunch_put_back_report;

typedef fontcrunch_clean_report fontcrunch_drop_idle_report;

typedef fontcrunch_put_back_report fontcrunch_put_back_idle_report;

typedef struct fontcrunch_from_cubics_report {
    uint32_t number; /* of the refusal, or 0 */
    size_t points;   /* points written; 0 where refused */
} fontcrunch_from_cubics_report;

typedef struct fontcrunch_explicit_report {
    uint32_t number; /* of the refusal, or 0 */
    size_t points;   /* points written; 0 where refused */
} fontcrunch_explicit_report;

typedef struct fontcrunch_why_report {
    uint32_t number;  /* of the refusal, or 0 */
    uint32_t reasons; /* a bit for each that holds; 0 where there is none, or where refused */
} fontcrunch_why_report;

/*
 * Crunches a contour. Its points are written to the first places of ox, oy and of, and no other place of
 * these rows is touched. Implied points are dropped. A refusal writes no point.
 *
 * An on-curve point between two off-curve ones is implied, in closed mode, where twice each of its coordinates is
 * the sum of theirs, as OpenType has it. In the crate's mode the sum is cut to 16 bits and then halved toward 0.
 *
 * In the crate's mode the points come out in reverse order. In closed mode they come out in order, from the first
 * corner on. This start always stays, also where it is implied, so that what comes out starts on-curve. It is not
 * written again at the end, but stands for the end of the last piece, wherever that break was rounded to.
 *
 * A run for which no chain is found leaves the whole contour unchanged: then its own points come out, in the
 * crate's mode reversed and with the start at both ends, in closed mode as they stand. That is no refusal.
 *
 * Refusals, in this order: 1 2 3 4 5 16 (6 7 8) 9.
 */
fontcrunch_crunch_report fontcrunch_crunch(
    const int16_t *xs, size_t xs_len,
    const int16_t *ys, size_t ys_len,
    const uint8_t *flags, size_t flags_len,
    uint32_t penalty, uint32_t whole_units, uint32_t closed,
    int16_t *ox, size_t ox_len,
    int16_t *oy, size_t oy_len,
    uint8_t *of, size_t of_len,
    double (*samples)[4], size_t samples_len,
    double (*breaks)[6], size_t breaks_len,
    double (*answers)[3], size_t answers_len,
    uint32_t *links, size_t links_len,
    int16_t (*points)[3], size_t points_len);

/*
 * The chain that was found for run k of a contour. Piece i leads from break starts[i] to break ends[i], with
 * the control (cxs[i], cys[i]). It replaces the segments of the contour from spans[i][0] to spans[i][1]: those
 * that hold its start break and its end break. A segment is counted by its start, each on-curve point starting
 * one, from 0; in closed mode a run goes round, so that the last may be before the first. Where a segment ends
 * exactly at a break, the break is in it, not in the next. The first places of these five rows are written, and
 * no other place is touched. A refusal writes none; so does a run that leaves the contour unchanged, with number 0,
 * no piece and the score 0.0. Other runs are not worked, so their refusals do not count.
 *
 * Refusals, in this order: 1 2 3 4 5 16 10 (6 7 8) 9.
 */
fontcrunch_chain_report fontcrunch_chain(
    const int16_t *xs, size_t xs_len,
    const int16_t *ys, size_t ys_len,
    const uint8_t *flags, size_t flags_len,
    size_t k, uint32_t penalty, uint32_t whole_units, uint32_t closed,
    uint32_t *starts, size_t starts_len,
    uint32_t *ends, size_t ends_len,
    double *cxs, size_t cxs_len,
    double *cys, size_t cys_len,
    uint32_t (*spans)[2], size_t spans_len,
    double (*samples)[4], size_t samples_len,
    double (*breaks)[6], size_t breaks_len,
    double (*answers)[3], size_t answers_len,
    uint32_t *links, size_t links_len);

/*
 * Checks a chain for run k of a contour, whoever made it: it is measured anew, and nothing is sought. It is
 * accepted exactly when its pieces lead from the run's first break to its last, each straight or bent as the
 * rules allow, and its score is the sum that they give at these settings. Chain rows of unequal length, or with
 * no piece, are not accepted, which is no refusal. Answers and links are lent for their lengths alone: the
 * checker refuses by 7 where fontcrunch_chain would. `fallen` is that of the pieces as they are measured, whatever
 * their score; 0 where they are not, since rows are of unequal length or pieces do not lead so.
 *
 * Refusals, in this order: 1 2 3 4 5 16 10 6 7 8. Between 7 and 8 the shape is judged: a chain that does not lead so is
 * not accepted, and none of its pieces is measured.
 */
fontcrunch_check_report fontcrunch_check(
    const int16_t *xs, size_t xs_len,
    const int16_t *ys, size_t ys_len,
    const uint8_t *flags, size_t flags_len,
    size_t k, uint32_t penalty, uint32_t whole_units, uint32_t closed,
    const uint32_t *starts, size_t starts_len,
    const uint32_t *ends, size_t ends_len,
    const double *cxs, size_t cxs_len,
    const double *cys, size_t cys_len,
    double score,
    double (*samples)[4], size_t samples_len,
    double (*breaks)[6], size_t breaks_len,
    double (*answers)[3], size_t answers_len,
    uint32_t *links, size_t links_len);

/*
 * Cleans a contour: points that repeat their neighbours are dropped, lowest place first, until none remains.
 * Before and neighbours are those of the row as it is then; place 0 always stays. Equal means x and y. The
 * points kept are written to the first places of ox, oy and of, in order, their flags as 1 or 0. Each drop is
 * written to list, in the order of dropping: the point's place in the contour as it came, and why. No other
 * place is touched, and a refusal writes nothing.
 *
 * Refusals, in this order: 1 2 3 4 5 18 9. Rows as long as the contour always suffice. No scratch is needed.
 *
 * What is left is refused by none of 1 to 5, and cleaning it again drops nothing.
 */
fontcrunch_clean_report fontcrunch_clean(
    const int16_t *xs, size_t xs_len,
    const int16_t *ys, size_t ys_len,
    const uint8_t *flags, size_t flags_len,
    int16_t *ox, size_t ox_len,
    int16_t *oy, size_t oy_len,
    uint8_t *of, size_t of_len,
    uint32_t (*list)[2], size_t list_len);

/*
 * Puts back what fontcrunch_clean dropped: of the points kept and its list, the contour as it came, with flags
 * 1 or 0. The last drop is put back first: for before and both a copy of the point before it, at its number
 * less the drops before it in the list; for first a copy of the first point, at the end. Any list is put back
 * by this rule, also one that no cleaning gave.
 *
 * Refusals, in this order: 1 2 3 9. Here 1 and 2 speak of the points kept, and 3 counts them with those of the list. A
 * refusal writes nothing.
 */
fontcrunch_put_back_report fontcrunch_put_back(
    const int16_t *xs, size_t xs_len,
    const int16_t *ys, size_t ys_len,
    const uint8_t *flags, size_t flags_len,
    const uint32_t (*list)[2], size_t list_len,
    int16_t *ox, size_t ox_len,
    int16_t *oy, size_t oy_len,
    uint8_t *of, size_t of_len);

/*
 * Drops idle controls: off-curve points equal, in x and y, to one of their neighbours, going round. The curve of
 * such a point is the line between its ends; left in, it has no direction at that end, and its run comes out
 * straight. The points kept are written to the first places of ox, oy and of, in order, their flags as 1 or 0.
 * Each drop is written to list, by rising place: its place in the contour as it came, and which neighbour it
 * equals, the one before it where it equals both. No on-curve point is dropped. No other place is touched, and a
 * refusal writes nothing.
 *
 * Refusals, in this order: 1 2 3 4 5 18 9. Rows as long as the contour always suffice. No scratch is needed.
 *
 * The outline stays what it was. What is left is refused by none of 1 to 5, and dropping again drops nothing.
 */
fontcrunch_drop_idle_report fontcrunch_drop_idle(
    const int16_t *xs, size_t xs_len,
    const int16_t *ys, size_t ys_len,
    const uint8_t *flags, size_t flags_len,
    int16_t *ox, size_t ox_len,
    int16_t *oy, size_t oy_len,
    uint8_t *of, size_t of_len,
    uint32_t (*list)[2], size_t list_len);

/*
 * Puts back what fontcrunch_drop_idle dropped: of the points kept and its list, the contour as it came, with flags
 * 1 or 0. Places are filled in order: by the next drop of the list where it names the place, or where no kept
 * point is left, and else by the next kept point. A drop is an off-curve copy of the kept point before it, or, for
 * any second number but FONTCRUNCH_BESIDE_BEFORE, of the kept point after it, going round. Any list is put back by
 * this rule, also one that no dropping gave.
 *
 * Refusals, in this order: 1 2 3 9. Here 1 and 2 speak of the points kept, and 3 counts them with those of the list. A
 * refusal writes nothing.
 */
fontcrunch_put_back_idle_report fontcrunch_put_back_idle(
    const int16_t *xs, size_t xs_len,
    const int16_t *ys, size_t ys_len,
    const uint8_t *flags, size_t flags_len,
    const uint32_t (*list)[2], size_t list_len,
    int16_t *ox, size_t ox_len,
    int16_t *oy, size_t oy_len,
    uint8_t *of, size_t of_len);

/*
 * Makes quads of a contour of cubics. Its off-curve points stand in pairs, the two controls of a cubic; a last
 * pair leads back to the start. A cubic is halved until each coordinate of its third difference, p3 - 3 p2 +
 * 3 p1 - p0, is at most 8 in size; then it is the quad with the control (3 p1 + 3 p2 - p0 - p3) / 4. Each point
 * is rounded once, halves away from zero. The points are written to the first places of ox, oy and of, in
 * order; no other place is touched. After a last pair the start is not written again, so that the row ends
 * off-curve.
 *
 * Refusals, in this order: 1 2 4 5 3 17 9. Here 5 is a stretch of off-curve points that is not two long, and 3 counts
 * the points after replacement. A refusal writes nothing. Rows of FONTCRUNCH_POINTS_IN places always suffice. No
 * scratch is needed.
 *
 * What is written is refused by none of 1 to 5 by the other functions.
 */
fontcrunch_from_cubics_report fontcrunch_from_cubics(
    const int16_t *xs, size_t xs_len,
    const int16_t *ys, size_t ys_len,
    const uint8_t *flags, size_t flags_len,
    int16_t *ox, size_t ox_len,
    int16_t *oy, size_t oy_len,
    uint8_t *of, size_t of_len);

/*
 * Writes out the implied points of a contour as fonts hold it, which the other functions refuse by 4 or 5: from
 * its first on-curve point round to it, with the middle of two off-curve points that follow each other put
 * between them, on-curve. Each coordinate of a middle is half of the sum, halves away from zero. The points are
 * written to the first places of ox, oy and of, in order, flags 1 or 0; no other place is touched.
 *
 * Refusals, in this order: 1 2 21 3 9. Here 3 counts the points with the implied ones. A refusal writes nothing. Rows of
 * FONTCRUNCH_POINTS_IN places always suffice. No scratch is needed.
 *
 * What is written is refused by none of 1 to 5 by the other functions. A contour that they let through is written
 * as it came. Where each middle is whole, the outline is the same.
 */
fontcrunch_explicit_report fontcrunch_explicit(
    const int16_t *xs, size_t xs_len,
    const int16_t *ys, size_t ys_len,
    const uint8_t *flags, size_t flags_len,
    int16_t *ox, size_t ox_len,
    int16_t *oy, size_t oy_len,
    uint8_t *of, size_t of_len);

/*
 * Why segment k of a contour, counted from 0, starts at a corner: all reasons that hold. It is a corner exactly
 * when there is one. A contour has a segment for each on-curve point.
 *
 * Refusals, in this order: 1 2 3 4 5 11. Nothing is written, and no scratch is needed.
 */
fontcrunch_why_report fontcrunch_why(
    const int16_t *xs, size_t xs_len,
    const int16_t *ys, size_t ys_len,
    const uint8_t *flags, size_t flags_len,
    size_t k);

/* The score of a chain. All NaNs have one bit pattern in a report. */
static inline double fontcrunch_score(fontcrunch_chain_report report)
{
    double score;
    memcpy(&score, &report.score_bits, sizeof score);
    return score;
}

/*
 * GLYPH DESCRIPTIONS
 *
 * A simple glyph description is what OpenType's glyf table holds of a glyph that is not composite: the number of
 * contours, a box, the number of each contour's last point (its end), the instructions, and the points as flags
 * and differences. Here a glyph is five rows: `ends`, the points of all contours in `xs`, `ys` and `flags`, and
 * `instructions`. There are as many points as the last end says and one, and none where there is no contour.
 *
 * What is written reads back the same, and what is read can be written again: both are proved. The bytes may
 * differ from those that were read, since each difference gets its shortest coding, a flag that stands three
 * times or more a repeat, and the box is that of the points. Bits 6 and 7 of the flags are lost.
 */

typedef struct fontcrunch_read_glyph_report {
    uint32_t number;     /* of the refusal, or 0 */
    size_t contours;     /* ends read; 0 where refused */
    size_t points;       /* points read; 0 where refused */
    size_t instructions; /* instruction bytes read; 0 where refused */
} fontcrunch_read_glyph_report;

typedef struct fontcrunch_write_glyph_report {
    uint32_t number; /* of the refusal, or 0 */
    size_t bytes;    /* bytes written; 0 where refused */
} fontcrunch_write_glyph_report;

typedef fontcrunch_write_glyph_report fontcrunch_crunch_glyph_report;

/*
 * Reads a description into the first places of the rows, flags 1 or 0; no other place is touched. The box and
 * bytes after the last coordinate are not looked at, and a repeat that runs past the last point is used as far
 * as there are points.
 *
 * Refusals, in this order: 15 12 13 14 9. 15 is given as soon as two bytes stand. A refusal changes no row.
 */
fontcrunch_read_glyph_report fontcrunch_read_glyph(
    const uint8_t *bytes, size_t bytes_len, uint16_t *ends, size_t ends_len, int16_t *xs, size_t xs_len,
    int16_t *ys, size_t ys_len, uint8_t *flags, size_t flags_len,
    uint8_t *instructions, size_t instructions_len);

/*
 * Writes the description to the first places of `out`; no other place is touched. Points after the last end are
 * not written. 12 + 2 * ends_len + instructions_len + 5 * points places always suffice. A description that was read
 * and is written again says the same, but may be longer than it was.
 *
 * Refusals, in this order: 1 12 13 14 9. Here 14 is a difference outside 16 bits, more than 32,767 contours, or more
 * than 65,535 instruction bytes. A refusal writes nothing.
 */
fontcrunch_write_glyph_report fontcrunch_write_glyph(
    const uint16_t *ends, size_t ends_len, const int16_t *xs, size_t xs_len, const int16_t *ys, size_t ys_len,
    const uint8_t *flags, size_t flags_len, const uint8_t *instructions, size_t instructions_len,
    uint8_t *out, size_t out_len);

/*
 * Crunches a description: reads it, crunches each contour in order as fontcrunch_crunch does, and writes what they
 * became to the first places of `out`, with the instructions as they stood; no other place of `out` is touched.
 * Instructions that name points are kept though the points are others now. `penalty`, `whole_units` and `closed`
 * mean what they mean to fontcrunch_crunch, and hold for every contour.
 *
 * All other rows are scratch, as described above, and are zero throughout on every return. The glyph is read into
 * `ends`, `xs`, `ys`, `flags` and `instructions`. The new points are put together in `points` and pass through
 * `xs`, `ys` and `flags`: all contours together have as many places as the shortest of these four, and a contour
 * has those that the ones before it left.
 *
 * Refusals, in this order: 15 12 13 14 9 [1 2 3 4 5 16 (6 7 8) 9] 16 14 9. The first five are those of reading. Those in
 * brackets are what fontcrunch_crunch gives, contour by contour: the first contour that is refused refuses the glyph by
 * its number, whatever it is (4 or 5 where it starts off-curve or has implied points, 9 where its places do not
 * suffice; 1 and 2 are never met here). Then 16 where there is no contour; 14, a difference outside 16 bits or more than
 * 65,536 points; 9, `out` too short. A refusal writes nothing.
 */
fontcrunch_crunch_glyph_report fontcrunch_crunch_glyph(
    const uint8_t *bytes, size_t bytes_len, uint32_t penalty, uint32_t whole_units, uint32_t closed,
    uint8_t *out, size_t out_len, uint16_t *ends, size_t ends_len, int16_t *xs, size_t xs_len,
    int16_t *ys, size_t ys_len, uint8_t *flags, size_t flags_len,
    uint8_t *instructions, size_t instructions_len, double (*samples)[4], size_t samples_len,
    double (*breaks)[6], size_t breaks_len, double (*answers)[3], size_t answers_len,
    uint32_t *links, size_t links_len, int16_t (*points)[3], size_t points_len);

/*
 * UFO GLIF
 *
 * docs/GLIF.md says what is read of a file: its contours, each from its first on-curve point, with the middle of
 * two off-curve points that follow each other, halves away from zero, between them.
 */

typedef struct fontcrunch_read_glif_report {
    uint32_t number; /* of the refusal, or 0 */
    size_t contours; /* ends read; 0 where refused */
    size_t points;   /* points read; 0 where refused */
} fontcrunch_read_glif_report;

/*
 * Reads a file into the first places of the rows: the number of each contour's last point, and the points of all
 * contours, flags 1 or 0. `points` is a scratch row, with a place for each point that stands in the file; what it
 * holds on entry does not matter, and it is zero throughout on every return. bytes_len / 16 + 1 places in `ends`
 * and `points`, and twice as many in the others, always suffice.
 *
 * Refusals, in this order: 19 20 14 21 9. Here 14 is a coordinate outside 16 bits, or more than 65,536 points. A refusal
 * changes no row but the scratch row.
 */
fontcrunch_read_glif_report fontcrunch_read_glif(
    const uint8_t *bytes, size_t bytes_len, uint16_t *ends, size_t ends_len, int16_t *xs, size_t xs_len,
    int16_t *ys, size_t ys_len, uint8_t *flags, size_t flags_len, size_t (*points)[3], size_t points_len);

typedef struct fontcrunch_write_glif_report {
    uint32_t number; /* of the refusal, or 0 */
    size_t bytes;    /* bytes written; 0 where refused */
} fontcrunch_write_glif_report;

typedef fontcrunch_write_glif_report fontcrunch_crunch_glif_report;

/*
 * Writes the file to the first places of `out`, with a contour of the rows in place of the inside of each of its
 * own; every other byte is as it stood, and no other place of `out` is touched. An on-curve point is a line where the
 * point before it, going round, is on-curve, else a qcurve. bytes_len + 48 * xs_len places always suffice.
 *
 * Refusals, in this order: 19 20 14 21 1 2 9. The first four are those of reading the file. Then 1, where xs, ys and
 * flags differ in length, the last end is not that of the last point, or there are not as many ends as contours; 2,
 * where a contour has no point (an end is not above the one before it, or there is no point at all); 9, `out` too short.
 * A refusal writes nothing.
 */
fontcrunch_write_glif_report fontcrunch_write_glif(
    const uint8_t *bytes, size_t bytes_len, const uint16_t *ends, size_t ends_len,
    const int16_t *xs, size_t xs_len, const int16_t *ys, size_t ys_len, const uint8_t *flags, size_t flags_len,
    uint8_t *out, size_t out_len);

/*
 * Crunches a file: reads it, crunches each contour in order as fontcrunch_crunch does, and writes the file to the first
 * places of `out`, with what they became in place of the insides of its contours; every other byte is as it stood,
 * and no other place of `out` is touched. `penalty`, `whole_units` and `closed` mean what they mean to fontcrunch_crunch,
 * and hold for every contour.
 *
 * All other rows are scratch, as described above, and are zero throughout on every return. The file is read into
 * `ends`, `xs`, `ys`, `flags` and `marks`, which has a place for each point that stands in the file. The new points are put
 * together in `points` and pass through `xs`, `ys` and `flags`: all contours together have as many places as the shortest of
 * these four, and a contour has those that the ones before it left.
 *
 * Refusals, in this order: 19 20 14 21 9 [1 2 3 4 5 16 (6 7 8) 9] 16 14 9. The first five are those of reading. Those in
 * brackets are what fontcrunch_crunch gives, contour by contour: the first contour that is refused refuses the file by
 * its number (1, 2, 4 and 5 are never met here). Then 16 where there is no contour; 14, more than 65,536 new points; 9,
 * `out` too short. A refusal writes nothing.
 */
fontcrunch_crunch_glif_report fontcrunch_crunch_glif(
    const uint8_t *bytes, size_t bytes_len, uint32_t penalty, uint32_t whole_units, uint32_t closed,
    uint8_t *out, size_t out_len, uint16_t *ends, size_t ends_len, int16_t *xs, size_t xs_len,
    int16_t *ys, size_t ys_len, uint8_t *flags, size_t flags_len, size_t (*marks)[3], size_t marks_len,
    double (*samples)[4], size_t samples_len, double (*breaks)[6], size_t breaks_len,
    double (*answers)[3], size_t answers_len, uint32_t *links, size_t links_len,
    int16_t (*points)[3], size_t points_len);

/*
 * TWO EDITIONS
 *
 * Crunches a contour into two editions, a and b, each with a penalty of its own; `whole_units` and `closed` hold for
 * both. Each run is sampled once, while any edition's work goes on. `samples` and `breaks` are shared; the other rows
 * are an edition's own, and mean what they mean to fontcrunch_crunch.
 *
 * Each edition's report and rows are what fontcrunch_crunch gives at its penalty, in the shared rows and its own,
 * whichever comes first and whatever becomes of the other. So 1 to 5 go to both and a 16 to its own edition; a 6, or a
 * 7 for want of breaks, goes to each edition whose work has not ended by then; a 7 for want of answers or links, an 8
 * and a 9 go to the edition that met them. Scratch rows are zero throughout on every return, also those of an edition
 * that is refused.
 *
 * Refusals of each edition, in this order: 1 2 3 4 5 16 (6 7 8) 9.
 */
typedef struct fontcrunch_editions_report {
    fontcrunch_crunch_report a;
    fontcrunch_crunch_report b;
} fontcrunch_editions_report;

fontcrunch_editions_report fontcrunch_editions(
    const int16_t *xs, size_t xs_len, const int16_t *ys, size_t ys_len, const uint8_t *flags, size_t flags_len,
    uint32_t penalty_a, uint32_t penalty_b, uint32_t whole_units, uint32_t closed,
    double (*samples)[4], size_t samples_len, double (*breaks)[6], size_t breaks_len,
    double (*answers_a)[3], size_t answers_a_len, uint32_t *links_a, size_t links_a_len,
    int16_t (*points_a)[3], size_t points_a_len, int16_t *ox_a, size_t ox_a_len, int16_t *oy_a, size_t oy_a_len,
    uint8_t *of_a, size_t of_a_len,
    double (*answers_b)[3], size_t answers_b_len, uint32_t *links_b, size_t links_b_len,
    int16_t (*points_b)[3], size_t points_b_len, int16_t *ox_b, size_t ox_b_len, int16_t *oy_b, size_t oy_b_len,
    uint8_t *of_b, size_t of_b_len);

#ifdef __cplusplus
}
#endif

#endif
