/* edges FILE: for each contour of a file, cleaning in rows of every length that matters: one place short, exact, and more. Nothing may be
   written by a refusal, nor past the counts; and putting back must give the upload, in exact rows, and 9 in shorter ones.
   edges --lists FILE: what is put back of points and a list, whoever made it: lines of `n x y f ... place why ... = x y f ...`, n points first.
   edges --time: microseconds against points, where all but one are dropped.
   Made with -DDROP=fontcrunch_drop_idle -DPUT=fontcrunch_put_back_idle it is of idle controls, as tools/idle/compare makes it. */
#include "fontcrunch.h"
#include <stdio.h>
#include <stdlib.h>
#include <time.h>

#ifndef DROP
#define DROP fontcrunch_clean
#define PUT fontcrunch_put_back
#endif

enum { MOST = 1024, MARK = 77 };
typedef struct Rows {
    int16_t x[MOST + 2], y[MOST + 2];
    uint8_t f[MOST + 2];
    uint32_t list[MOST + 2][2];
} Rows;

static int16_t xs[MOST], ys[MOST];
static uint8_t fs[MOST];
static size_t n;
static long faults, calls;

static void marked(Rows *r)
{
    for (size_t i = 0; i < MOST + 2; i++) {
        r->x[i] = r->y[i] = MARK, r->f[i] = MARK;
        r->list[i][0] = r->list[i][1] = MARK;
    }
}

static int kept_from(const Rows *r, size_t points, size_t drops)
{
    for (size_t i = points; i < MOST + 2; i++)
        if (r->x[i] != MARK || r->y[i] != MARK || r->f[i] != MARK) return 0;
    for (size_t i = drops; i < MOST + 2; i++)
        if (r->list[i][0] != MARK || r->list[i][1] != MARK) return 0;
    return 1;
}

static fontcrunch_clean_report cleaned(Rows *r, size_t x, size_t y, size_t f, size_t list)
{
    calls++;
    marked(r);
    return DROP(xs, n, ys, n, fs, n, r->x, x, r->y, y, r->f, f, r->list, list);
}

static void expect(int right, const char *what)
{
    if (right) return;
    faults++;
    if (faults < 10) fprintf(stderr, "edges: %s, a contour of %zu points, first %d %d\n", what, n, xs[0], ys[0]);
}

static void refused(size_t x, size_t y, size_t f, size_t list, uint32_t number, const char *what)
{
    static Rows r;
    fontcrunch_clean_report c = cleaned(&r, x, y, f, list);
    expect(c.number == number && c.kept == 0 && c.dropped == 0 && kept_from(&r, 0, 0), what);
}

static void edges(void)
{
    static Rows r, s, b;
    fontcrunch_clean_report c = cleaned(&r, MOST, MOST, MOST, MOST);
    if (c.number) {
        /* 1 to 5 come first, whatever the rooms */
        refused(0, 0, 0, 0, c.number, "another refusal in no room");
        return;
    }
    size_t k = c.kept, d = c.dropped;
    expect(k + d == n && kept_from(&r, k, d), "counts");
    fontcrunch_clean_report e = cleaned(&s, k, k, k, d);
    expect(e.number == 0 && e.kept == k && e.dropped == d && kept_from(&s, k, d) && !memcmp(&r, &s, sizeof r), "exact rows");
    if (d > 0) {
        refused(k, k, k, d - 1, 18, "18");
        refused(0, 0, 0, d - 1, 18, "18 before 9");
        refused(k, k, k, 0, 18, "18 in no room");
    }
    refused(k - 1, k, k, d, 9, "9 by x");
    refused(k, k - 1, k, d, 9, "9 by y");
    refused(k, k, k - 1, d, 9, "9 by flags");
    /* put back */
    calls += 2;
    marked(&b);
    fontcrunch_put_back_report p = PUT(r.x, k, r.y, k, r.f, k, r.list, d, b.x, n, b.y, n, b.f, n);
    expect(p.number == 0 && p.points == n && kept_from(&b, n, 0), "put back");
    for (size_t i = 0; i < n; i++)
        if (b.x[i] != xs[i] || b.y[i] != ys[i] || b.f[i] != (fs[i] & 1)) { expect(0, "a point put back"); break; }
    marked(&b);
    p = PUT(r.x, k, r.y, k, r.f, k, r.list, d, b.x, n, b.y, n - 1, b.f, n);
    expect(p.number == 9 && p.points == 0 && kept_from(&b, 0, 0), "9 of put back");
}

static double seconds(void)
{
    struct timespec t;
    clock_gettime(CLOCK_MONOTONIC, &t);
    return t.tv_sec + t.tv_nsec * 1e-9;
}

static int times(void)
{
    static Rows r, b;
    for (n = 64; n <= MOST; n *= 2) {
        for (size_t i = 0; i < n; i++) xs[i] = 7, ys[i] = 9, fs[i] = 1;
        enum { ROUNDS = 2000 };
        fontcrunch_clean_report c = {0};
        fontcrunch_put_back_report p = {0};
        double start = seconds();
        for (int i = 0; i < ROUNDS; i++) c = DROP(xs, n, ys, n, fs, n, r.x, n, r.y, n, r.f, n, r.list, n);
        double middle = seconds();
        for (int i = 0; i < ROUNDS / 20; i++)
            p = PUT(r.x, c.kept, r.y, c.kept, r.f, c.kept, r.list, c.dropped, b.x, n, b.y, n, b.f, n);
        double end = seconds();
        printf("%5zu points, %4zu dropped: clean %7.2f us, put back %8.2f us (%zu points)\n", n, c.dropped, (middle - start) / ROUNDS * 1e6,
               (end - middle) / (ROUNDS / 20) * 1e6, p.points);
    }
    return 0;
}

/* A number of a line, if one stands there. */
static int next(char **at, long *number)
{
    char *end;
    *number = strtol(*at, &end, 10);
    if (end == *at) return 0;
    *at = end;
    return 1;
}

/* So many points of a line, or as many as there are. */
static void points(char **at, size_t most)
{
    long x, y, f;
    for (n = 0; n < most && next(at, &x) && next(at, &y) && next(at, &f); n++) xs[n] = (int16_t)x, ys[n] = (int16_t)y, fs[n] = (uint8_t)f;
}

static void listed(char *at)
{
    static Rows r, b;
    long count, place, why;
    size_t d = 0;
    if (!next(&at, &count)) return;
    points(&at, (size_t)count);
    size_t k = n;
    for (size_t i = 0; i < k; i++) r.x[i] = xs[i], r.y[i] = ys[i], r.f[i] = fs[i];
    for (; next(&at, &place) && next(&at, &why); d++) r.list[d][0] = (uint32_t)place, r.list[d][1] = (uint32_t)why;
    at = strchr(at, '=') + 1;
    points(&at, MOST);
    calls++;
    marked(&b);
    fontcrunch_put_back_report p = PUT(r.x, k, r.y, k, r.f, k, r.list, d, b.x, n, b.y, n, b.f, n);
    expect(p.number == 0 && p.points == n && n == k + d && kept_from(&b, n, 0), "a list put back");
    expect(!memcmp(b.x, xs, n * sizeof *xs) && !memcmp(b.y, ys, n * sizeof *ys) && !memcmp(b.f, fs, n), "points of a list put back");
}

int main(int argc, char **argv)
{
    if (argc == 2 && !strcmp(argv[1], "--time")) return times();
    int lists = argc == 3 && !strcmp(argv[1], "--lists");
    FILE *in = argc == 2 + lists ? fopen(argv[1 + lists], "r") : NULL;
    if (!in) { fprintf(stderr, "usage: edges [--lists] FILE | --time\n"); return 2; }
    static char line[1 << 17];
    long lines = 0;
    while (fgets(line, sizeof line, in)) {
        char *at = line;
        if (lists) {
            listed(at), lines++;
            continue;
        }
        points(&at, MOST);
        if (n > 0) edges(), lines++;
    }
    printf("%ld %s, %ld calls, %ld faults\n", lines, lists ? "lists" : "contours", calls, faults);
    return faults > 0;
}
