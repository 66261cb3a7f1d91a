/* edges CONTOURS: fontcrunch_from_cubics through C, for a file of contours, one a line, `x y f x y f ...`. Writes a line for each,
 * `ok x y f ...` or `refused K`, and tries every length of row that matters: each output row one place short, just long enough, and one place
 * longer, rows that held something else, input rows of unequal length. A place that is not to be written must hold what it held. The last
 * line is `N calls, M wrong`.
 */
#include <stdint.h>
#include <stdio.h>
#include <stdlib.h>
#include <string.h>

#include "fontcrunch.h"

enum { MOST = 8192, ROOM = 1100 };

static int16_t xs[MOST], ys[MOST];
static uint8_t flags[MOST];
static long calls, wrong;

/* what an output row holds before the call */
static int16_t held(size_t i, int salt) { return (int16_t)(i * 7919 + (size_t)salt * 104729 + 13); }

struct rows {
    int16_t *ox, *oy;
    uint8_t *of;
    size_t nx, ny, nf;
};

/* Rows of exactly these lengths, so that a write past the end is seen by a memory checker. */
static struct rows lend(size_t nx, size_t ny, size_t nf, int salt) {
    struct rows r = {malloc((nx + 1) * 2), malloc((ny + 1) * 2), malloc(nf + 1), nx, ny, nf};
    for (size_t i = 0; i <= nx; i++) r.ox[i] = held(i, salt);
    for (size_t i = 0; i <= ny; i++) r.oy[i] = held(i, salt);
    for (size_t i = 0; i <= nf; i++) r.of[i] = (uint8_t)held(i, salt);
    return r;
}

static void drop(struct rows r) {
    free(r.ox);
    free(r.oy);
    free(r.of);
}

static fontcrunch_from_cubics_report call(size_t nx, size_t ny, size_t nf, struct rows r) {
    calls++;
    return fontcrunch_from_cubics(xs, nx, ys, ny, flags, nf, r.ox, r.nx, r.oy, r.ny, r.of, r.nf);
}

/* The places from n on, and one past the end, hold what they held. */
static void untouched(struct rows r, size_t n, int salt) {
    for (size_t i = n; i <= r.nx; i++) wrong += r.ox[i] != held(i, salt);
    for (size_t i = n; i <= r.ny; i++) wrong += r.oy[i] != held(i, salt);
    for (size_t i = n; i <= r.nf; i++) wrong += r.of[i] != (uint8_t)held(i, salt);
}

static void same(struct rows a, struct rows b, size_t n) {
    wrong += memcmp(a.ox, b.ox, n * 2) || memcmp(a.oy, b.oy, n * 2) || memcmp(a.of, b.of, n);
}

static void edges(size_t n, fontcrunch_from_cubics_report whole, struct rows first) {
    size_t p = whole.points;
    for (int k = 0; k < 8; k++) {
        /* each of the three rows long enough to the place, or one place longer */
        struct rows r = lend(p + (k & 1), p + (k >> 1 & 1), p + (k >> 2 & 1), k);
        fontcrunch_from_cubics_report got = call(n, n, n, r);
        wrong += got.number != 0 || got.points != p;
        same(r, first, p);
        untouched(r, p, k);
        drop(r);
        /* one of them, or more, one place short */
        if (k == 0) continue;
        r = lend(p - (k & 1), p - (k >> 1 & 1), p - (k >> 2 & 1), k);
        got = call(n, n, n, r);
        wrong += got.number != 9 || got.points != 0;
        untouched(r, 0, k);
        drop(r);
    }
}

static void uneven(size_t n) {
    for (int k = 1; k < 7; k++) {
        size_t a = n + (k & 1), b = n + (k >> 1 & 1), c = n + (k >> 2 & 1);
        struct rows r = lend(4, 4, 4, k);
        fontcrunch_from_cubics_report got = call(a, b, c, r);
        wrong += got.number != 1 || got.points != 0;
        untouched(r, 0, k);
        drop(r);
    }
}

int main(int count, char **words) {
    static char line[1 << 20];
    FILE *in = count == 2 ? fopen(words[1], "r") : NULL;
    if (!in) return fprintf(stderr, "usage: edges CONTOURS\n"), 2;
    while (fgets(line, sizeof line, in)) {
        size_t n = 0;
        char *at = line, *end;
        for (;;) {
            long x = strtol(at, &end, 10);
            if (end == at) break;
            long y = strtol(end, &at, 10), f = strtol(at, &at, 10);
            xs[n] = (int16_t)x, ys[n] = (int16_t)y, flags[n] = (uint8_t)f;
            n++;
        }
        struct rows first = lend(ROOM, ROOM + 1, ROOM + 2, 99);
        fontcrunch_from_cubics_report whole = call(n, n, n, first);
        if (whole.number) {
            printf("refused %u\n", whole.number);
            wrong += whole.points != 0;
            untouched(first, 0, 99);
        } else {
            printf("ok");
            for (size_t i = 0; i < whole.points; i++) printf(" %d %d %d", first.ox[i], first.oy[i], first.of[i]);
            printf("\n");
            untouched(first, whole.points, 99);
            edges(n, whole, first);
        }
        uneven(n);
        drop(first);
    }
    printf("%ld calls, %ld wrong\n", calls, wrong);
    return wrong != 0;
}
