/* Calls the three entries with random rows of random lengths, each a block of its own of just its size, filled with anything.
   usage: entries SECONDS SEED. Stops where an answer breaks what the header says: scratch rows not zero, an output place written
   that should stay, a chain that the checker does not accept. Memory faults are for the tool it runs under to see. */
#include <stdio.h>
#include <stdlib.h>
#include <string.h>
#include <time.h>

#include "fontcrunch.h"

static uint64_t state;

static uint64_t any(void) {
    state ^= state << 13;
    state ^= state >> 7;
    return state ^= state << 17;
}

static size_t below(size_t n) { return any() % n; }

typedef struct {
    void *at, *lent; /* the row, and a copy of it as it was lent */
    size_t places, size;
} Row;

/* an empty row still has an address that is not null */
static Row row(size_t places, size_t size) {
    Row r = {malloc(places * size + (places == 0)), malloc(places * size + 1), places, size};
    for (size_t i = 0; i < places * size; i++) ((uint8_t *)r.at)[i] = (uint8_t)any();
    memcpy(r.lent, r.at, places * size);
    return r;
}

static void done(Row *r, size_t n) {
    for (size_t i = 0; i < n; i++) free(r[i].at), free(r[i].lent);
}

static void demand(int holds, const char *what) {
    if (!holds) {
        printf("FAILS: %s\n", what);
        exit(1);
    }
}

static int zero(Row r) {
    for (size_t i = 0; i < r.places * r.size; i++)
        if (((uint8_t *)r.at)[i] != 0) return 0;
    return 1;
}

static int kept(Row r, size_t from) {
    return from <= r.places && memcmp((uint8_t *)r.at + from * r.size, (uint8_t *)r.lent + from * r.size, (r.places - from) * r.size) == 0;
}

/* most lengths are what a contour needs, some too short by a little, some anything */
static size_t length(size_t usual) {
    switch (below(8)) {
    case 0: return below(usual + 1);
    case 1: return below(4);
    case 2: return usual - below(3);
    default: return usual;
    }
}

static void contour(Row rows[3]) {
    size_t n = below(12), differ = below(20) == 0;
    rows[0] = row(n + (differ ? below(2) : 0), 2);
    rows[1] = row(n, 2);
    rows[2] = row(n, 1);
    int16_t wide = below(3) == 0 ? 2000 : 40;
    int16_t *x = rows[0].at, *y = rows[1].at;
    uint8_t *flag = rows[2].at;
    for (size_t i = 0; i < rows[0].places; i++)
        if (below(40)) x[i] = (int16_t)(x[i] % wide);
    for (size_t i = 0; i < n; i++)
        if (below(40)) y[i] = (int16_t)(y[i] % wide);
    for (size_t i = 0; i < n; i++)
        if (below(30)) flag[i] = (uint8_t)(i % 2 == 0 || below(2));
}

static void scratch(Row rows[4]) {
    size_t breaks = length(300);
    rows[0] = row(length(500), 32);
    rows[1] = row(breaks, 48);
    rows[2] = row(length(600), 24);
    rows[3] = row(length(600), 4);
}

#define IN(r) (r)[0].at, (r)[0].places, (r)[1].at, (r)[1].places, (r)[2].at, (r)[2].places
#define WORK(r) (r)[0].at, (r)[0].places, (r)[1].at, (r)[1].places, (r)[2].at, (r)[2].places, (r)[3].at, (r)[3].places

static void cleared(Row rows[4]) {
    for (int i = 0; i < 4; i++) demand(zero(rows[i]), "scratch rows are zero");
}

/* most penalties are allowed, some are one of the bounds or next to them */
static uint32_t penalty(void) {
    static const uint32_t bounds[] = {0, 1, 256, 257, UINT32_MAX};
    return below(6) == 0 ? bounds[below(5)] : (uint32_t)(1 + below(256));
}

/* 0 no, any other number yes */
static uint32_t choice(void) { return below(2) ? 0 : (uint32_t)any(); }

static void crunch(Row in[3]) {
    Row out[3] = {row(length(60), 2), row(length(60), 2), row(length(60), 1)}, work[4], points = row(length(60), 6);
    scratch(work);
    fontcrunch_crunch_report r = fontcrunch_crunch(IN(in), penalty(), choice(), choice(), out[0].at, out[0].places, out[1].at, out[1].places, out[2].at,
                                       out[2].places, WORK(work), points.at, points.places);
    demand(r.number <= 9 || r.number == 16, "a number of the documents");
    demand(r.number == 0 || (r.points == 0 && r.pairs == 0 && r.fallen == 0), "a refusal reports nothing else");
    for (int i = 0; i < 3; i++) demand(kept(out[i], r.points), "places beyond the points stay");
    cleared(work);
    demand(zero(points), "scratch points are zero");
    done(out, 3), done(work, 4), done(&points, 1);
}

static void chain(Row in[3], size_t run) {
    Row rows[5] = {row(length(20), 4), row(length(20), 4), row(length(20), 8), row(length(20), 8), row(length(20), 8)}, work[4];
    uint32_t cost = penalty(), whole_units = choice(), closed = choice();
    scratch(work);
    fontcrunch_chain_report r = fontcrunch_chain(IN(in), run, cost, whole_units, closed, WORK(rows), rows[4].at, rows[4].places, WORK(work));
    demand(r.number <= 10 || r.number == 16, "a number of the documents");
    demand(r.number == 0 || (r.pieces == 0 && r.pairs == 0 && r.score_bits == 0 && r.fallen == 0), "a refusal reports nothing else");
    for (int i = 0; i < 5; i++) demand(kept(rows[i], r.pieces), "places beyond the pieces stay");
    for (size_t i = 0; i < 2 * r.pieces; i++) demand(((uint32_t *)rows[4].at)[i] < in[2].places, "a segment of the contour");
    cleared(work);
    size_t n = r.pieces ? r.pieces : below(4);
    Row given[4];
    for (int i = 0; i < 4; i++) {
        given[i] = row(n + (r.pieces == 0 && below(3) == 0), rows[i].size);
        if (r.pieces) memcpy(given[i].at, rows[i].at, n * rows[i].size);
    }
    for (int i = 0; i < 4; i++)
        for (size_t k = 0; k < work[i].places * work[i].size; k++) ((uint8_t *)work[i].at)[k] = (uint8_t)any();
    fontcrunch_check_report v = fontcrunch_check(IN(in), run, cost, whole_units, closed, WORK(given), fontcrunch_score(r), WORK(work));
    demand(r.pieces == 0 || (v.number == 0 && v.accepted == 1), "a chain is accepted");
    demand(v.number == 0 || (v.accepted == 0 && v.fallen == 0), "a refusal accepts nothing and counts nothing");
    demand(r.pieces == 0 || v.fallen <= r.fallen, "the pieces of a chain are some of the attempts");
    cleared(work);
    done(rows, 5), done(work, 4), done(given, 4);
}

int main(int count, char **words) {
    if (count != 3) return fprintf(stderr, "usage: entries SECONDS SEED\n"), 2;
    time_t end = time(NULL) + atol(words[1]);
    state = strtoull(words[2], NULL, 10) * 2 + 1;
    unsigned long calls = 0;
    for (; time(NULL) < end; calls += 3) {
        Row in[3];
        contour(in);
        crunch(in);
        chain(in, below(4));
        done(in, 3);
    }
    printf("%lu calls, nothing to report\n", calls);
    return 0;
}
