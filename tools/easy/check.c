/*
 * Holds each function of fontcrunch_easy.h to its namesake of fontcrunch.h, on contours that are worked, left unchanged and
 * refused: the reports, and the rows up to what came out. The last line is 'N passed, M failed'. tools/easy/selftest
 * builds and runs it, as C and as C++.
 */
#include <stdio.h>
#include <stdlib.h>
#include <string.h>

#include "fontcrunch_easy.h"

enum { OUT = FONTCRUNCH_POINTS_OUT, IN = FONTCRUNCH_POINTS_IN, PIECES = FONTCRUNCH_PIECES, MOST = 2000 };

static fontcrunch_scratch one, other;
static fontcrunch_outline mine, theirs;
static fontcrunch_both both, both_theirs;
static fontcrunch_pieces chain, chain_theirs;
static fontcrunch_drops drops, drops_theirs;
static fontcrunch_glyph glyph, glyph_theirs;
static fontcrunch_marks marks, marks_theirs;
static fontcrunch_glif_scratch file_scratch;
static uint8_t bytes[1 << 20], bytes_theirs[1 << 20], again[1 << 20];

static int16_t xs[MOST], ys[MOST];
static uint8_t flags[MOST];
static size_t n;
static int passed, failed;

static void count(int same, const char *what, const char *of)
{
    if (same)
        passed++;
    else {
        failed++;
        printf("tools/easy/check: %s: %s\n", what, of);
    }
}

#define ROWS(o) (o).xs, OUT, (o).ys, OUT, (o).flags, OUT
#define CONTOUR xs, n, ys, n, flags, n
#define RUNS(s) (s).samples, FONTCRUNCH_SAMPLES, (s).breaks, FONTCRUNCH_BREAKS, (s).answers, FONTCRUNCH_ANSWERS, (s).links, FONTCRUNCH_ANSWERS
#define GLYPH(g) (g).ends, FONTCRUNCH_GLYPH_CONTOURS, POINTS(g)
#define POINTS(g) (g).xs, FONTCRUNCH_GLYPH_POINTS, (g).ys, FONTCRUNCH_GLYPH_POINTS, (g).flags, FONTCRUNCH_GLYPH_POINTS
#define SETTINGS(s) (s).penalty, (s).whole_units, (s).closed

static int outlines(const fontcrunch_outline *a, const fontcrunch_outline *b, size_t k)
{
    return !memcmp(a->xs, b->xs, 2 * k) && !memcmp(a->ys, b->ys, 2 * k) && !memcmp(a->flags, b->flags, k);
}

static int crunches(fontcrunch_crunch_report a, fontcrunch_crunch_report b)
{
    return a.number == b.number && a.points == b.points && a.pairs == b.pairs && a.fallen == b.fallen;
}

static void runs(fontcrunch_settings s, const char *of)
{
    fontcrunch_crunch_report a = fontcrunch_easy_crunch(&one, s, xs, ys, flags, n, &mine);
    fontcrunch_crunch_report b = fontcrunch_crunch(CONTOUR, SETTINGS(s), ROWS(theirs), RUNS(other), other.points, OUT);
    count(crunches(a, b) && outlines(&mine, &theirs, b.points), "crunch", of);

    fontcrunch_editions_report e = fontcrunch_easy_editions(&one, s, 48, xs, ys, flags, n, &both);
    fontcrunch_editions_report f = fontcrunch_editions(
        CONTOUR, s.penalty, 48, s.whole_units, s.closed, other.samples, FONTCRUNCH_SAMPLES, other.breaks, FONTCRUNCH_BREAKS,
        other.answers, FONTCRUNCH_ANSWERS, other.links, FONTCRUNCH_ANSWERS, other.points, OUT, ROWS(both_theirs.a),
        both_theirs.answers_b, FONTCRUNCH_ANSWERS, both_theirs.links_b, FONTCRUNCH_ANSWERS, both_theirs.points_b, OUT, ROWS(both_theirs.b));
    count(crunches(e.a, f.a) && crunches(e.b, f.b) && crunches(e.a, b) && outlines(&both.a, &both_theirs.a, f.a.points)
              && outlines(&both.b, &both_theirs.b, f.b.points), "editions", of);
}

static void chains(fontcrunch_settings s, size_t k, const char *of)
{
    fontcrunch_chain_report a = fontcrunch_easy_chain(&one, s, xs, ys, flags, n, k, &chain);
    fontcrunch_pieces *t = &chain_theirs;
    fontcrunch_chain_report b = fontcrunch_chain(CONTOUR, k, SETTINGS(s), t->starts, PIECES, t->ends, PIECES, t->cxs, PIECES, t->cys, PIECES,
                                                 t->spans, PIECES, RUNS(other));
    count(a.number == b.number && a.pieces == b.pieces && a.pairs == b.pairs && a.score_bits == b.score_bits && a.fallen == b.fallen
              && chain.pieces == b.pieces && !memcmp(chain.starts, t->starts, 4 * b.pieces) && !memcmp(chain.ends, t->ends, 4 * b.pieces)
              && !memcmp(chain.cxs, t->cxs, 8 * b.pieces) && !memcmp(chain.cys, t->cys, 8 * b.pieces)
              && !memcmp(chain.spans, t->spans, 8 * b.pieces), "chain", of);
    fontcrunch_check_report v = fontcrunch_easy_check(&one, s, xs, ys, flags, n, k, &chain);
    fontcrunch_check_report w = fontcrunch_check(CONTOUR, k, SETTINGS(s), t->starts, b.pieces, t->ends, b.pieces, t->cxs, b.pieces,
                                                 t->cys, b.pieces, fontcrunch_score(b), RUNS(other));
    count(v.number == w.number && v.accepted == w.accepted && v.fallen == w.fallen && v.accepted == (b.pieces > 0), "check", of);
    chain.pieces = PIECES + 1;
    count(!fontcrunch_easy_check(&one, s, xs, ys, flags, n, k, &chain).accepted, "check of too many pieces", of);
}

static void uploads(const char *of)
{
    fontcrunch_why_report a = fontcrunch_easy_why(xs, ys, flags, n, 1), b = fontcrunch_why(CONTOUR, 1);
    count(a.number == b.number && a.reasons == b.reasons, "why", of);

    fontcrunch_clean_report c = fontcrunch_easy_clean(xs, ys, flags, n, &mine, &drops);
    fontcrunch_clean_report d = fontcrunch_clean(CONTOUR, ROWS(theirs), drops_theirs.list, IN);
    count(c.number == d.number && c.kept == d.kept && c.dropped == d.dropped && outlines(&mine, &theirs, d.kept)
              && !memcmp(drops.list, drops_theirs.list, 8 * d.dropped), "clean", of);
    if (c.number == FONTCRUNCH_OK) {
        fontcrunch_put_back_report p = fontcrunch_easy_put_back(theirs.xs, theirs.ys, theirs.flags, d.kept, &drops, d.dropped, &mine);
        count(p.number == 0 && p.points == n && !memcmp(mine.xs, xs, 2 * n) && !memcmp(mine.ys, ys, 2 * n), "put back", of);
        p = fontcrunch_easy_put_back(theirs.xs, theirs.ys, theirs.flags, d.kept, &drops, IN + 1, &mine);
        count(p.number == FONTCRUNCH_TOO_MANY_POINTS, "put back too many", of);
    }
    c = fontcrunch_easy_drop_idle(xs, ys, flags, n, &mine, &drops);
    d = fontcrunch_drop_idle(CONTOUR, ROWS(theirs), drops_theirs.list, IN);
    count(c.number == d.number && c.kept == d.kept && c.dropped == d.dropped && outlines(&mine, &theirs, d.kept)
              && !memcmp(drops.list, drops_theirs.list, 8 * d.dropped), "drop idle", of);
    if (c.number == FONTCRUNCH_OK) {
        fontcrunch_put_back_idle_report p =
            fontcrunch_easy_put_back_idle(theirs.xs, theirs.ys, theirs.flags, d.kept, &drops, d.dropped, &mine);
        count(p.number == 0 && p.points == n && !memcmp(mine.xs, xs, 2 * n) && !memcmp(mine.ys, ys, 2 * n), "put back idle", of);
        p = fontcrunch_easy_put_back_idle(theirs.xs, theirs.ys, theirs.flags, d.kept, &drops, IN + 1, &mine);
        count(p.number == FONTCRUNCH_TOO_MANY_POINTS, "put back too many idle", of);
    }
    fontcrunch_from_cubics_report g = fontcrunch_easy_from_cubics(xs, ys, flags, n, &mine);
    fontcrunch_from_cubics_report h = fontcrunch_from_cubics(CONTOUR, ROWS(theirs));
    count(g.number == h.number && g.points == h.points && outlines(&mine, &theirs, h.points), "from cubics", of);
    fontcrunch_explicit_report i = fontcrunch_easy_explicit(xs, ys, flags, n, &mine);
    fontcrunch_explicit_report j = fontcrunch_explicit(CONTOUR, ROWS(theirs));
    count(i.number == j.number && i.points == j.points && outlines(&mine, &theirs, j.points), "explicit", of);
}

static void glyphs(fontcrunch_settings s, const char *of)
{
    glyph.contours = 1;
    glyph.points = n;
    glyph.instructions = 3;
    glyph.ends[0] = (uint16_t)(n - 1);
    memcpy(glyph.xs, xs, 2 * n);
    memcpy(glyph.ys, ys, 2 * n);
    memcpy(glyph.flags, flags, n);
    memcpy(glyph.code, "abc", 3);
    fontcrunch_write_glyph_report a = fontcrunch_easy_write_glyph(&glyph, bytes, sizeof bytes);
    fontcrunch_write_glyph_report b = fontcrunch_write_glyph(glyph.ends, 1, CONTOUR, glyph.code, 3, bytes_theirs, sizeof bytes_theirs);
    count(a.number == b.number && a.bytes == b.bytes && !memcmp(bytes, bytes_theirs, b.bytes), "write glyph", of);

    size_t length = b.bytes;
    fontcrunch_read_glyph_report c = fontcrunch_easy_read_glyph(bytes, length, &glyph);
    fontcrunch_read_glyph_report d = fontcrunch_read_glyph(bytes, length, GLYPH(glyph_theirs), glyph_theirs.code, FONTCRUNCH_GLYPH_INSTRUCTIONS);
    count(c.number == d.number && c.contours == d.contours && c.points == d.points && c.instructions == d.instructions
              && glyph.contours == d.contours && glyph.points == d.points && glyph.instructions == d.instructions
              && !memcmp(glyph.ends, glyph_theirs.ends, 2 * d.contours) && !memcmp(glyph.xs, glyph_theirs.xs, 2 * d.points)
              && !memcmp(glyph.ys, glyph_theirs.ys, 2 * d.points) && !memcmp(glyph.flags, glyph_theirs.flags, d.points)
              && !memcmp(glyph.code, glyph_theirs.code, d.instructions), "read glyph", of);

    fontcrunch_crunch_glyph_report e = fontcrunch_easy_crunch_glyph(&one, s, bytes, length, &glyph, again, sizeof again);
    fontcrunch_crunch_glyph_report f = fontcrunch_crunch_glyph(bytes, length, SETTINGS(s), bytes_theirs, sizeof bytes_theirs, GLYPH(glyph_theirs),
                                                               glyph_theirs.code, FONTCRUNCH_GLYPH_INSTRUCTIONS, RUNS(other), other.points, OUT);
    count(e.number == f.number && e.bytes == f.bytes && !memcmp(again, bytes_theirs, f.bytes), "crunch glyph", of);
    glyph.contours = FONTCRUNCH_GLYPH_CONTOURS + 1;
    count(fontcrunch_easy_write_glyph(&glyph, bytes, sizeof bytes).number == FONTCRUNCH_TOO_LARGE, "write a glyph of too many contours", of);
}

static void files(fontcrunch_settings s, const char *text)
{
    const uint8_t *file = (const uint8_t *)text;
    size_t length = strlen(text);
    fontcrunch_read_glif_report a = fontcrunch_easy_read_glif(&marks, file, length, &glyph);
    fontcrunch_read_glif_report b = fontcrunch_read_glif(file, length, GLYPH(glyph_theirs), marks_theirs.places, FONTCRUNCH_GLYPH_POINTS);
    count(a.number == b.number && a.contours == b.contours && a.points == b.points && glyph.contours == b.contours && glyph.points == b.points
              && !memcmp(glyph.ends, glyph_theirs.ends, 2 * b.contours) && !memcmp(glyph.xs, glyph_theirs.xs, 2 * b.points)
              && !memcmp(glyph.flags, glyph_theirs.flags, b.points), "read GLIF", text);
    fontcrunch_write_glif_report c = fontcrunch_easy_write_glif(file, length, &glyph, bytes, sizeof bytes);
    fontcrunch_write_glif_report d = fontcrunch_write_glif(file, length, glyph.ends, glyph.contours, glyph.xs, glyph.points, glyph.ys, glyph.points,
                                                           glyph.flags, glyph.points, bytes_theirs, sizeof bytes_theirs);
    count(c.number == d.number && c.bytes == d.bytes && !memcmp(bytes, bytes_theirs, d.bytes), "write GLIF", text);
    fontcrunch_crunch_glif_report e = fontcrunch_easy_crunch_glif(&file_scratch, s, file, length, bytes, sizeof bytes);
    fontcrunch_crunch_glif_report f = fontcrunch_crunch_glif(file, length, SETTINGS(s), bytes_theirs, sizeof bytes_theirs, GLYPH(glyph_theirs),
                                                             marks_theirs.places, FONTCRUNCH_GLYPH_POINTS, RUNS(other), other.points, OUT);
    count(e.number == f.number && e.bytes == f.bytes && !memcmp(bytes, bytes_theirs, f.bytes), "crunch GLIF", text);
}

static void read_contour(const char *line)
{
    char *end;
    for (n = 0; n < MOST; n++) {
        long x = strtol(line, &end, 10);
        if (end == line)
            return;
        xs[n] = (int16_t)x;
        ys[n] = (int16_t)strtol(end, &end, 10);
        flags[n] = (uint8_t)strtol(end, &end, 10);
        line = end;
    }
}

static void contour(const char *of)
{
    fontcrunch_settings closed = {16, 0, 1}, whole = {64, 1, 0}, none = {0, 0, 0};
    fontcrunch_settings each[] = {fontcrunch_default_settings(), fontcrunch_crate_settings(), closed, whole, none};
    for (size_t i = 0; i < sizeof each / sizeof *each; i++) {
        runs(each[i], of);
        chains(each[i], 0, of);
        chains(each[i], 1, of);
        glyphs(each[i], of);
    }
    uploads(of);
}

int main(void)
{
    /* worked, one point, unchanged, lookups that fell, cubics, repeated points, implied points, and each of 2, 4, 5, 7, 8 */
    const char *lines[] = {
        "0 0 1 0 60 0 40 90 1 80 120 0 130 120 1 200 -40 1", "7 9 1", "5 5 1 5 5 0 5 5 1", "-1795 0 1 -1794 0 1 143 -4 0 -3 7 1 -1795 -900 1",
        "0 0 1 0 0 0 0 0 0 9 0 1", "0 0 1 0 0 1 5 0 1", "10 0 0 10 7 0 0 7 1", "", "0 0 0", "0 0 1 1 1 0 2 2 0", "0 0 1 700 0 0 700 700 1",
        "0 0 1 432 433 0 410 410 1 -300 900 1",
    };
    const char *texts[] = {
        "<glyph><outline><contour><point x='0' y='0' type='line'/><point x='9' y='0' type='line'/><point x='9' y='9'/></contour></outline></glyph>",
        "<glyph><outline/></glyph>", "no glyph", "<glyph><outline><contour><point x='0' y='0'/></contour></outline></glyph>",
    };
    for (size_t i = 0; i < sizeof lines / sizeof *lines; i++) {
        read_contour(lines[i]);
        contour(lines[i]);
    }
    for (n = 0; n < IN + 1; n++) {
        xs[n] = (int16_t)(n % 512);
        ys[n] = (int16_t)(40 * (n % 2));
        flags[n] = 1;
    }
    contour("1,025 points");
    for (size_t i = 0; i < sizeof texts / sizeof *texts; i++) {
        files(fontcrunch_default_settings(), texts[i]);
        fontcrunch_settings none = {0, 0, 0};
        files(none, texts[i]);
    }
    printf("%d passed, %d failed\n", passed, failed);
    return failed != 0;
}
