/*
 * fontcrunch_easy.h: the functions of fontcrunch.h with few arguments.
 *
 * Each function here lends rows of the full rooms to its namesake and hands back what that says: fontcrunch_easy_crunch
 * calls fontcrunch_crunch, and so on. Numbers, refusals and their order are those of fontcrunch.h. Everything is inline,
 * so that there is nothing more to link.
 *
 * The rows are in structs whose arrays are sized by constants. A fontcrunch_scratch is what runs are worked in. Make one
 * for a thread, once, and lend it to every call; what it holds does not matter. It has most of a megabyte, so it is no
 * variable on the stack:
 *
 *     static fontcrunch_scratch scratch;
 *     static fontcrunch_outline crunched;
 *     fontcrunch_crunch_report report =
 *         fontcrunch_easy_crunch(&scratch, fontcrunch_default_settings(), xs, ys, flags, n, &crunched);
 *     if (report.number != FONTCRUNCH_OK)
 *         fprintf(stderr, "refused %u: %s\n", report.number, fontcrunch_reason(report.number));
 *
 * A contour goes in as xs, ys, flags and n, the number of its points. Its rows, and what comes out, may not overlap.
 */
#ifndef FONTCRUNCH_EASY_H
#define FONTCRUNCH_EASY_H

#include "fontcrunch.h"

#ifdef __cplusplus
extern "C" {
#endif

/* What runs are worked in. */
typedef struct fontcrunch_scratch {
    double samples[FONTCRUNCH_SAMPLES][4];
    double breaks[FONTCRUNCH_BREAKS][6];
    double answers[FONTCRUNCH_ANSWERS][3];
    uint32_t links[FONTCRUNCH_ANSWERS];
    int16_t points[FONTCRUNCH_POINTS_OUT][3];
} fontcrunch_scratch;

/* What a caller chooses; fontcrunch.h says what each means. */
typedef struct fontcrunch_settings {
    uint32_t penalty;
    uint32_t whole_units;
    uint32_t closed;
} fontcrunch_settings;

/* The penalty 2.0, half units, the crate's mode. */
static inline fontcrunch_settings fontcrunch_default_settings(void)
{
    fontcrunch_settings settings = {FONTCRUNCH_DEFAULT_PENALTY, 0, 0};
    return settings;
}

/* Those of the Rust that this follows: the penalty 1.0, half units, the crate's mode. */
static inline fontcrunch_settings fontcrunch_crate_settings(void)
{
    fontcrunch_settings settings = {FONTCRUNCH_CRATE_PENALTY, 0, 0};
    return settings;
}

/* Points that come out: the first report.points places hold them (of fontcrunch_easy_clean, the first report.kept). */
typedef struct fontcrunch_outline {
    int16_t xs[FONTCRUNCH_POINTS_OUT];
    int16_t ys[FONTCRUNCH_POINTS_OUT];
    uint8_t flags[FONTCRUNCH_POINTS_OUT];
} fontcrunch_outline;

/* Crunches a contour. */
static inline fontcrunch_crunch_report fontcrunch_easy_crunch(
    fontcrunch_scratch *scratch, fontcrunch_settings settings,
    const int16_t *xs, const int16_t *ys, const uint8_t *flags, size_t n, fontcrunch_outline *out)
{
    return fontcrunch_crunch(
        xs, n, ys, n, flags, n, settings.penalty, settings.whole_units, settings.closed,
        out->xs, FONTCRUNCH_POINTS_OUT, out->ys, FONTCRUNCH_POINTS_OUT, out->flags, FONTCRUNCH_POINTS_OUT,
        scratch->samples, FONTCRUNCH_SAMPLES, scratch->breaks, FONTCRUNCH_BREAKS,
        scratch->answers, FONTCRUNCH_ANSWERS, scratch->links, FONTCRUNCH_ANSWERS,
        scratch->points, FONTCRUNCH_POINTS_OUT);
}

/* A chain: the first `pieces` places of its rows, and its score. No chain has more pieces than there are places. */
typedef struct fontcrunch_pieces {
    size_t pieces;
    double score;
    uint32_t starts[FONTCRUNCH_PIECES];
    uint32_t ends[FONTCRUNCH_PIECES];
    double cxs[FONTCRUNCH_PIECES];
    double cys[FONTCRUNCH_PIECES];
    uint32_t spans[FONTCRUNCH_PIECES][2];
} fontcrunch_pieces;

/* The chain of run k, with its score and the number of its pieces: 0.0 and 0 where the report has no piece. */
static inline fontcrunch_chain_report fontcrunch_easy_chain(
    fontcrunch_scratch *scratch, fontcrunch_settings settings,
    const int16_t *xs, const int16_t *ys, const uint8_t *flags, size_t n, size_t k, fontcrunch_pieces *chain)
{
    fontcrunch_chain_report report = fontcrunch_chain(
        xs, n, ys, n, flags, n, k, settings.penalty, settings.whole_units, settings.closed,
        chain->starts, FONTCRUNCH_PIECES, chain->ends, FONTCRUNCH_PIECES, chain->cxs, FONTCRUNCH_PIECES,
        chain->cys, FONTCRUNCH_PIECES, chain->spans, FONTCRUNCH_PIECES,
        scratch->samples, FONTCRUNCH_SAMPLES, scratch->breaks, FONTCRUNCH_BREAKS,
        scratch->answers, FONTCRUNCH_ANSWERS, scratch->links, FONTCRUNCH_ANSWERS);
    chain->pieces = report.pieces;
    chain->score = fontcrunch_score(report);
    return report;
}

/* Checks a chain for run k. A number of pieces that its rows do not hold is not accepted. */
static inline fontcrunch_check_report fontcrunch_easy_check(
    fontcrunch_scratch *scratch, fontcrunch_settings settings,
    const int16_t *xs, const int16_t *ys, const uint8_t *flags, size_t n, size_t k, const fontcrunch_pieces *chain)
{
    /* rows of no piece are not accepted, and refused where the run is */
    size_t pieces = chain->pieces <= FONTCRUNCH_PIECES ? chain->pieces : 0;
    return fontcrunch_check(
        xs, n, ys, n, flags, n, k, settings.penalty, settings.whole_units, settings.closed,
        chain->starts, pieces, chain->ends, pieces, chain->cxs, pieces, chain->cys, pieces, chain->score,
        scratch->samples, FONTCRUNCH_SAMPLES, scratch->breaks, FONTCRUNCH_BREAKS,
        scratch->answers, FONTCRUNCH_ANSWERS, scratch->links, FONTCRUNCH_ANSWERS);
}

/* Why segment k starts at a corner. */
static inline fontcrunch_why_report fontcrunch_easy_why(
    const int16_t *xs, const int16_t *ys, const uint8_t *flags, size_t n, size_t k)
{
    return fontcrunch_why(xs, n, ys, n, flags, n, k);
}

/* Points dropped: the first report.dropped places, each the point's number in the contour, and why or by which end. */
typedef struct fontcrunch_drops {
    uint32_t list[FONTCRUNCH_POINTS_IN][2];
} fontcrunch_drops;

/* Cleans a contour. */
static inline fontcrunch_clean_report fontcrunch_easy_clean(
    const int16_t *xs, const int16_t *ys, const uint8_t *flags, size_t n,
    fontcrunch_outline *out, fontcrunch_drops *drops)
{
    return fontcrunch_clean(
        xs, n, ys, n, flags, n, out->xs, FONTCRUNCH_POINTS_OUT, out->ys, FONTCRUNCH_POINTS_OUT,
        out->flags, FONTCRUNCH_POINTS_OUT, drops->list, FONTCRUNCH_POINTS_IN);
}

/* Drops idle controls of a contour. */
static inline fontcrunch_drop_idle_report fontcrunch_easy_drop_idle(
    const int16_t *xs, const int16_t *ys, const uint8_t *flags, size_t n,
    fontcrunch_outline *out, fontcrunch_drops *drops)
{
    return fontcrunch_drop_idle(
        xs, n, ys, n, flags, n, out->xs, FONTCRUNCH_POINTS_OUT, out->ys, FONTCRUNCH_POINTS_OUT,
        out->flags, FONTCRUNCH_POINTS_OUT, drops->list, FONTCRUNCH_POINTS_IN);
}

/* Puts back the first `dropped` places of a list of drops. More than the list has places are refused by 3. */
static inline fontcrunch_put_back_report fontcrunch_easy_put_back(
    const int16_t *xs, const int16_t *ys, const uint8_t *flags, size_t n,
    const fontcrunch_drops *drops, size_t dropped, fontcrunch_outline *out)
{
    /* with a point kept, a full list is one drop too many already */
    size_t listed = dropped <= FONTCRUNCH_POINTS_IN ? dropped : FONTCRUNCH_POINTS_IN;
    return fontcrunch_put_back(
        xs, n, ys, n, flags, n, drops->list, listed, out->xs, FONTCRUNCH_POINTS_OUT,
        out->ys, FONTCRUNCH_POINTS_OUT, out->flags, FONTCRUNCH_POINTS_OUT);
}

/* Puts back idle controls, as fontcrunch_easy_put_back does repeated points. */
static inline fontcrunch_put_back_idle_report fontcrunch_easy_put_back_idle(
    const int16_t *xs, const int16_t *ys, const uint8_t *flags, size_t n,
    const fontcrunch_drops *drops, size_t dropped, fontcrunch_outline *out)
{
    size_t listed = dropped <= FONTCRUNCH_POINTS_IN ? dropped : FONTCRUNCH_POINTS_IN;
    return fontcrunch_put_back_idle(
        xs, n, ys, n, flags, n, drops->list, listed, out->xs, FONTCRUNCH_POINTS_OUT,
        out->ys, FONTCRUNCH_POINTS_OUT, out->flags, FONTCRUNCH_POINTS_OUT);
}

/* Makes quads of a contour of cubics. */
static inline fontcrunch_from_cubics_report fontcrunch_easy_from_cubics(
    const int16_t *xs, const int16_t *ys, const uint8_t *flags, size_t n, fontcrunch_outline *out)
{
    return fontcrunch_from_cubics(
        xs, n, ys, n, flags, n, out->xs, FONTCRUNCH_POINTS_OUT, out->ys, FONTCRUNCH_POINTS_OUT,
        out->flags, FONTCRUNCH_POINTS_OUT);
}

/* Writes out the implied points of a contour. */
static inline fontcrunch_explicit_report fontcrunch_easy_explicit(
    const int16_t *xs, const int16_t *ys, const uint8_t *flags, size_t n, fontcrunch_outline *out)
{
    return fontcrunch_explicit(
        xs, n, ys, n, flags, n, out->xs, FONTCRUNCH_POINTS_OUT, out->ys, FONTCRUNCH_POINTS_OUT,
        out->flags, FONTCRUNCH_POINTS_OUT);
}

/* Two editions of a contour: the points of each, and what b is worked in besides. */
typedef struct fontcrunch_both {
    fontcrunch_outline a;
    fontcrunch_outline b;
    double answers_b[FONTCRUNCH_ANSWERS][3];
    uint32_t links_b[FONTCRUNCH_ANSWERS];
    int16_t points_b[FONTCRUNCH_POINTS_OUT][3];
} fontcrunch_both;

/* Crunches a contour into two editions: a at the settings, and b at another penalty and the same otherwise. */
static inline fontcrunch_editions_report fontcrunch_easy_editions(
    fontcrunch_scratch *scratch, fontcrunch_settings settings, uint32_t penalty_b,
    const int16_t *xs, const int16_t *ys, const uint8_t *flags, size_t n, fontcrunch_both *out)
{
    return fontcrunch_editions(
        xs, n, ys, n, flags, n, settings.penalty, penalty_b, settings.whole_units, settings.closed,
        scratch->samples, FONTCRUNCH_SAMPLES, scratch->breaks, FONTCRUNCH_BREAKS,
        scratch->answers, FONTCRUNCH_ANSWERS, scratch->links, FONTCRUNCH_ANSWERS,
        scratch->points, FONTCRUNCH_POINTS_OUT, out->a.xs, FONTCRUNCH_POINTS_OUT, out->a.ys, FONTCRUNCH_POINTS_OUT,
        out->a.flags, FONTCRUNCH_POINTS_OUT,
        out->answers_b, FONTCRUNCH_ANSWERS, out->links_b, FONTCRUNCH_ANSWERS,
        out->points_b, FONTCRUNCH_POINTS_OUT, out->b.xs, FONTCRUNCH_POINTS_OUT, out->b.ys, FONTCRUNCH_POINTS_OUT,
        out->b.flags, FONTCRUNCH_POINTS_OUT);
}

/* A glyph can have no more than these. */
#define FONTCRUNCH_GLYPH_CONTOURS 65536
#define FONTCRUNCH_GLYPH_POINTS 65536
#define FONTCRUNCH_GLYPH_INSTRUCTIONS 65535

/* A glyph, of a description or of a file of UFO's GLIF, which has no instructions: half a megabyte. What is read fills
   the counts; who makes one fills them. */
typedef struct fontcrunch_glyph {
    size_t contours;
    size_t points;
    size_t instructions;
    uint16_t ends[FONTCRUNCH_GLYPH_CONTOURS];
    int16_t xs[FONTCRUNCH_GLYPH_POINTS];
    int16_t ys[FONTCRUNCH_GLYPH_POINTS];
    uint8_t flags[FONTCRUNCH_GLYPH_POINTS];
    uint8_t code[FONTCRUNCH_GLYPH_INSTRUCTIONS];
} fontcrunch_glyph;

/* Whether the counts of a glyph are such as its rows hold. */
static inline int fontcrunch_glyph_holds(const fontcrunch_glyph *glyph)
{
    return glyph->contours <= FONTCRUNCH_GLYPH_CONTOURS && glyph->points <= FONTCRUNCH_GLYPH_POINTS
        && glyph->instructions <= FONTCRUNCH_GLYPH_INSTRUCTIONS;
}

/* Reads a description. Its rows always suffice, so that 9 is never given. */
static inline fontcrunch_read_glyph_report fontcrunch_easy_read_glyph(
    const uint8_t *bytes, size_t bytes_len, fontcrunch_glyph *glyph)
{
    fontcrunch_read_glyph_report report = fontcrunch_read_glyph(
        bytes, bytes_len, glyph->ends, FONTCRUNCH_GLYPH_CONTOURS, glyph->xs, FONTCRUNCH_GLYPH_POINTS,
        glyph->ys, FONTCRUNCH_GLYPH_POINTS, glyph->flags, FONTCRUNCH_GLYPH_POINTS,
        glyph->code, FONTCRUNCH_GLYPH_INSTRUCTIONS);
    glyph->contours = report.contours;
    glyph->points = report.points;
    glyph->instructions = report.instructions;
    return report;
}

/* Writes a description. Counts that the rows of the glyph do not hold are refused by 14. */
static inline fontcrunch_write_glyph_report fontcrunch_easy_write_glyph(
    const fontcrunch_glyph *glyph, uint8_t *out, size_t out_len)
{
    fontcrunch_write_glyph_report too_large = {FONTCRUNCH_TOO_LARGE, 0};
    if (!fontcrunch_glyph_holds(glyph))
        return too_large;
    return fontcrunch_write_glyph(
        glyph->ends, glyph->contours, glyph->xs, glyph->points, glyph->ys, glyph->points,
        glyph->flags, glyph->points, glyph->code, glyph->instructions, out, out_len);
}

/* Crunches a description, into one. `glyph` is worked in. All contours together may have FONTCRUNCH_POINTS_OUT points. */
static inline fontcrunch_crunch_glyph_report fontcrunch_easy_crunch_glyph(
    fontcrunch_scratch *scratch, fontcrunch_settings settings, const uint8_t *bytes, size_t bytes_len,
    fontcrunch_glyph *glyph, uint8_t *out, size_t out_len)
{
    return fontcrunch_crunch_glyph(
        bytes, bytes_len, settings.penalty, settings.whole_units, settings.closed, out, out_len,
        glyph->ends, FONTCRUNCH_GLYPH_CONTOURS, glyph->xs, FONTCRUNCH_GLYPH_POINTS,
        glyph->ys, FONTCRUNCH_GLYPH_POINTS, glyph->flags, FONTCRUNCH_GLYPH_POINTS,
        glyph->code, FONTCRUNCH_GLYPH_INSTRUCTIONS,
        scratch->samples, FONTCRUNCH_SAMPLES, scratch->breaks, FONTCRUNCH_BREAKS,
        scratch->answers, FONTCRUNCH_ANSWERS, scratch->links, FONTCRUNCH_ANSWERS,
        scratch->points, FONTCRUNCH_POINTS_OUT);
}

/* What files of GLIF are read in besides: a place for each point of a file, one and a half megabytes. */
typedef struct fontcrunch_marks {
    size_t places[FONTCRUNCH_GLYPH_POINTS][3];
} fontcrunch_marks;

/* Reads a file of UFO's GLIF. The rows always suffice, so that 9 is never given. */
static inline fontcrunch_read_glif_report fontcrunch_easy_read_glif(
    fontcrunch_marks *marks, const uint8_t *bytes, size_t bytes_len, fontcrunch_glyph *glyph)
{
    fontcrunch_read_glif_report report = fontcrunch_read_glif(
        bytes, bytes_len, glyph->ends, FONTCRUNCH_GLYPH_CONTOURS, glyph->xs, FONTCRUNCH_GLYPH_POINTS,
        glyph->ys, FONTCRUNCH_GLYPH_POINTS, glyph->flags, FONTCRUNCH_GLYPH_POINTS,
        marks->places, FONTCRUNCH_GLYPH_POINTS);
    glyph->contours = report.contours;
    glyph->points = report.points;
    glyph->instructions = 0;
    return report;
}

/* Writes a file of GLIF with the contours of a glyph. Counts that the glyph's rows do not hold are refused by 14. */
static inline fontcrunch_write_glif_report fontcrunch_easy_write_glif(
    const uint8_t *bytes, size_t bytes_len, const fontcrunch_glyph *glyph, uint8_t *out, size_t out_len)
{
    fontcrunch_write_glif_report too_large = {FONTCRUNCH_TOO_LARGE, 0};
    if (!fontcrunch_glyph_holds(glyph))
        return too_large;
    return fontcrunch_write_glif(
        bytes, bytes_len, glyph->ends, glyph->contours, glyph->xs, glyph->points, glyph->ys, glyph->points,
        glyph->flags, glyph->points, out, out_len);
}

/* What a file of GLIF is crunched in: the rows of runs, those that it is read into, and its marks. */
typedef struct fontcrunch_glif_scratch {
    fontcrunch_scratch runs;
    fontcrunch_glyph glyph;
    fontcrunch_marks marks;
} fontcrunch_glif_scratch;

/* Crunches a file of GLIF. All contours together may have FONTCRUNCH_POINTS_OUT points. */
static inline fontcrunch_crunch_glif_report fontcrunch_easy_crunch_glif(
    fontcrunch_glif_scratch *scratch, fontcrunch_settings settings, const uint8_t *bytes, size_t bytes_len,
    uint8_t *out, size_t out_len)
{
    fontcrunch_glyph *glyph = &scratch->glyph;
    return fontcrunch_crunch_glif(
        bytes, bytes_len, settings.penalty, settings.whole_units, settings.closed, out, out_len,
        glyph->ends, FONTCRUNCH_GLYPH_CONTOURS, glyph->xs, FONTCRUNCH_GLYPH_POINTS,
        glyph->ys, FONTCRUNCH_GLYPH_POINTS, glyph->flags, FONTCRUNCH_GLYPH_POINTS,
        scratch->marks.places, FONTCRUNCH_GLYPH_POINTS,
        scratch->runs.samples, FONTCRUNCH_SAMPLES, scratch->runs.breaks, FONTCRUNCH_BREAKS,
        scratch->runs.answers, FONTCRUNCH_ANSWERS, scratch->runs.links, FONTCRUNCH_ANSWERS,
        scratch->runs.points, FONTCRUNCH_POINTS_OUT);
}

#ifdef __cplusplus
}
#endif

#endif
