/*
 * Reads cases from standard input and answers each by fontcrunch_read_glyph, fontcrunch_write_glyph or fontcrunch_crunch_glyph. Every row is a block
 * of its own, filled with a mark first, so that memcheck sees an access outside it and the other end sees every place that was touched. Numbers are in
 * the machine's order:
 *
 *   'r' u32 rooms of ends, x, y, flags, instructions; u32 count, bytes
 *       -> u32 number, contours, points, instructions; the five rows whole
 *   'w' u32 room of the output; u32 counts of ends, x, y, flags, instructions; the five rows
 *       -> u32 number, bytes; the output row whole
 *   'c' u32 penalty, whole units, closed; u32 rooms of the output, ends, x, y, flags, instructions, samples, breaks, answers, links, points; u32 count, bytes
 *       -> u32 number, bytes, whether every other row is zero; the output row whole
 */
#include <stdint.h>
#include <stdio.h>
#include <stdlib.h>
#include <string.h>

#include "fontcrunch.h"

enum { MARK = 0xA5 };

/* A block of its own, never null. */
static void *row(size_t places, size_t size) {
    void *p = malloc(places > 0 ? places * size : 1);
    if (!p)
        exit(3);
    memset(p, MARK, places * size);
    return p;
}

static void take(void *p, size_t n) {
    if (n && fread(p, 1, n, stdin) != n)
        exit(3);
}

static uint32_t number(void) {
    uint32_t v;
    take(&v, 4);
    return v;
}

static void give(const void *p, size_t n) { fwrite(p, 1, n, stdout); }

static void give_number(size_t n) {
    uint32_t v = (uint32_t)n;
    give(&v, 4);
}

static void answer_read(void) {
    size_t e = number(), x = number(), y = number(), f = number(), i = number(), n = number();
    uint8_t *bytes = row(n, 1), *flags = row(f, 1), *code = row(i, 1);
    uint16_t *ends = row(e, 2);
    int16_t *xs = row(x, 2), *ys = row(y, 2);
    take(bytes, n);
    fontcrunch_read_glyph_report r = fontcrunch_read_glyph(bytes, n, ends, e, xs, x, ys, y, flags, f, code, i);
    give_number(r.number), give_number(r.contours), give_number(r.points), give_number(r.instructions);
    give(ends, 2 * e), give(xs, 2 * x), give(ys, 2 * y), give(flags, f), give(code, i);
    free(bytes), free(flags), free(code), free(ends), free(xs), free(ys);
}

static void answer_write(void) {
    size_t n = number(), e = number(), x = number(), y = number(), f = number(), i = number();
    uint8_t *out = row(n, 1), *flags = row(f, 1), *code = row(i, 1);
    uint16_t *ends = row(e, 2);
    int16_t *xs = row(x, 2), *ys = row(y, 2);
    take(ends, 2 * e), take(xs, 2 * x), take(ys, 2 * y), take(flags, f), take(code, i);
    fontcrunch_write_glyph_report r = fontcrunch_write_glyph(ends, e, xs, x, ys, y, flags, f, code, i, out, n);
    give_number(r.number), give_number(r.bytes), give(out, n);
    free(out), free(flags), free(code), free(ends), free(xs), free(ys);
}

static int zero(const void *p, size_t n) {
    const unsigned char *b = p;
    while (n > 0 && b[n - 1] == 0)
        n--;
    return n == 0;
}

static void answer_crunch(void) {
    uint32_t penalty = number(), whole_units = number(), closed = number();
    size_t o = number(), e = number(), x = number(), y = number(), f = number(), i = number();
    size_t s = number(), b = number(), a = number(), l = number(), p = number(), n = number();
    uint8_t *bytes = row(n, 1), *out = row(o, 1), *flags = row(f, 1), *code = row(i, 1);
    uint16_t *ends = row(e, 2);
    int16_t *xs = row(x, 2), *ys = row(y, 2), (*points)[3] = row(p, sizeof *points);
    double (*samples)[4] = row(s, sizeof *samples), (*breaks)[6] = row(b, sizeof *breaks), (*answers)[3] = row(a, sizeof *answers);
    uint32_t *links = row(l, 4);
    take(bytes, n);
    fontcrunch_crunch_glyph_report r = fontcrunch_crunch_glyph(bytes, n, penalty, whole_units, closed, out, o, ends, e, xs, x, ys, y, flags, f, code, i, samples, s,
                                                 breaks, b, answers, a, links, l, points, p);
    int clear = zero(ends, 2 * e) && zero(xs, 2 * x) && zero(ys, 2 * y) && zero(flags, f) && zero(code, i) && zero(samples, s * sizeof *samples) &&
                zero(breaks, b * sizeof *breaks) && zero(answers, a * sizeof *answers) && zero(links, 4 * l) && zero(points, p * sizeof *points);
    give_number(r.number), give_number(r.bytes), give_number(clear), give(out, o);
    free(bytes), free(out), free(flags), free(code), free(ends), free(xs), free(ys), free(points), free(samples), free(breaks), free(answers), free(links);
}

int main(void) {
    for (int kind; (kind = getchar()) != EOF;)
        kind == 'r' ? answer_read() : kind == 'w' ? answer_write() : answer_crunch();
    return 0;
}
