/*
 * Crunches the contours of a letter: letter FILE, one contour a line, `x y f x y f ...`.
 *
 * For each contour it prints the points that come out at the penalty of the Rust, and how many lookups fell past
 * the samples; then, for the first run that has one, the chain of pieces that was found, and what the checker says
 * of it, and of the same chain with another score.
 */
#include <inttypes.h>
#include <math.h>
#include <stdbool.h>
#include <stdio.h>
#include <stdlib.h>

#include "fontcrunch.h"

enum { IN = FONTCRUNCH_POINTS_IN, OUT = FONTCRUNCH_POINTS_OUT, PIECES = FONTCRUNCH_PIECES };

/* By its name, and not by the default: these are the points that the Rust gives. It has breaks on half
   units, and does not write what lies outside the corners. */
enum { PENALTY = FONTCRUNCH_CRATE_PENALTY, WHOLE_UNITS = 0, CLOSED = 0 };

/* A line takes at most 64 KiB, and is followed by its end. */
enum { LINE = 65536 + 2 };

/* The scratch rows with their full rooms: most of a megabyte, so they are not on the stack. */
static double samples[FONTCRUNCH_SAMPLES][4];
static double breaks[FONTCRUNCH_BREAKS][6];
static double answers[FONTCRUNCH_ANSWERS][3];
static uint32_t links[FONTCRUNCH_ANSWERS];
static int16_t points[OUT][3];

static struct {
    int16_t xs[IN], ys[IN];
    uint8_t flags[IN];
    size_t n;
} contour;

static struct {
    int16_t xs[OUT], ys[OUT];
    uint8_t flags[OUT];
} crunched;

static struct {
    uint32_t starts[PIECES], ends[PIECES];
    double cxs[PIECES], cys[PIECES];
    uint32_t spans[PIECES][2];
} chain;

/* A whole number from low to high at *text, which is moved past it. */
static bool read_number(char **text, long low, long high, long *number)
{
    char *end;
    *number = strtol(*text, &end, 10);
    bool found = end != *text && low <= *number && *number <= high;
    *text = end;
    return found;
}

static bool read_contour(char *line)
{
    contour.n = 0;
    while (*line != '\n' && *line != '\0') {
        long x, y, flag;
        if (contour.n == IN || !read_number(&line, INT16_MIN, INT16_MAX, &x)
            || !read_number(&line, INT16_MIN, INT16_MAX, &y) || !read_number(&line, 0, 255, &flag))
            return false;
        contour.xs[contour.n] = (int16_t)x;
        contour.ys[contour.n] = (int16_t)y;
        contour.flags[contour.n] = (uint8_t)flag;
        contour.n++;
    }
    return true;
}

static fontcrunch_crunch_report crunch(void)
{
    return fontcrunch_crunch(
        contour.xs, contour.n, contour.ys, contour.n, contour.flags, contour.n, PENALTY, WHOLE_UNITS, CLOSED,
        crunched.xs, OUT, crunched.ys, OUT, crunched.flags, OUT,
        samples, FONTCRUNCH_SAMPLES, breaks, FONTCRUNCH_BREAKS,
        answers, FONTCRUNCH_ANSWERS, links, FONTCRUNCH_ANSWERS, points, OUT);
}

static fontcrunch_chain_report chain_of_run(size_t k)
{
    return fontcrunch_chain(
        contour.xs, contour.n, contour.ys, contour.n, contour.flags, contour.n, k, PENALTY, WHOLE_UNITS, CLOSED,
        chain.starts, PIECES, chain.ends, PIECES, chain.cxs, PIECES, chain.cys, PIECES, chain.spans, PIECES,
        samples, FONTCRUNCH_SAMPLES, breaks, FONTCRUNCH_BREAKS,
        answers, FONTCRUNCH_ANSWERS, links, FONTCRUNCH_ANSWERS);
}

static fontcrunch_check_report check_of_run(size_t k, size_t pieces, double score)
{
    return fontcrunch_check(
        contour.xs, contour.n, contour.ys, contour.n, contour.flags, contour.n, k, PENALTY, WHOLE_UNITS, CLOSED,
        chain.starts, pieces, chain.ends, pieces, chain.cxs, pieces, chain.cys, pieces, score,
        samples, FONTCRUNCH_SAMPLES, breaks, FONTCRUNCH_BREAKS,
        answers, FONTCRUNCH_ANSWERS, links, FONTCRUNCH_ANSWERS);
}

static void print_points(fontcrunch_crunch_report report)
{
    printf("%zu points in, %zu out, %zu pairs tried, %zu lookups fell\n", contour.n, report.points, report.pairs, report.fallen);
    for (size_t i = 0; i < report.points; i++)
        printf("  %6" PRId16 " %6" PRId16 "  %s\n", crunched.xs[i], crunched.ys[i], crunched.flags[i] ? "on" : "off");
}

static void print_chain(size_t k, fontcrunch_chain_report report)
{
    printf("run %zu: score %.17g, %zu pairs tried, %zu lookups fell\n", k, fontcrunch_score(report), report.pairs, report.fallen);
    for (size_t i = 0; i < report.pieces; i++)
        printf("  from break %" PRIu32 " to %" PRIu32 ", control %g %g, for segments %" PRIu32 " to %" PRIu32 "\n", chain.starts[i],
               chain.ends[i], chain.cxs[i], chain.cys[i], chain.spans[i][0], chain.spans[i][1]);
}

static const char *verdict(fontcrunch_check_report report)
{
    return report.accepted ? "accepted" : "not accepted";
}

/* The first run that is not copied. There are fewer runs than points, and 10 says no such run, or a copied one. */
static bool find_chain(size_t *k, fontcrunch_chain_report *report)
{
    for (*k = 0; *k < contour.n; (*k)++) {
        *report = chain_of_run(*k);
        if (report->number == FONTCRUNCH_OK && report->pieces > 0)
            return true;
    }
    return false;
}

static void show_chain(void)
{
    size_t k;
    fontcrunch_chain_report report;
    if (!find_chain(&k, &report)) {
        printf("no run with a chain\n");
        return;
    }
    print_chain(k, report);
    double score = fontcrunch_score(report);
    printf("  this chain is %s\n", verdict(check_of_run(k, report.pieces, score)));
    double other = nextafter(score, INFINITY);
    printf("  with the score %.17g it is %s\n", other, verdict(check_of_run(k, report.pieces, other)));
}

static void show_contour(void)
{
    fontcrunch_crunch_report report = crunch();
    if (report.number != FONTCRUNCH_OK) {
        printf("refused %" PRIu32 "\n", report.number);
        return;
    }
    print_points(report);
    show_chain();
}

int main(int argc, char **argv)
{
    static char line[LINE];
    if (argc != 2) {
        fprintf(stderr, "usage: letter FILE\n");
        return 2;
    }
    FILE *file = fopen(argv[1], "r");
    if (file == NULL) {
        perror(argv[1]);
        return 2;
    }
    while (fgets(line, LINE, file) != NULL) {
        if (!read_contour(line)) {
            fprintf(stderr, "letter: %s: not threes of numbers, or more than %d points\n", argv[1], IN);
            return 2;
        }
        show_contour();
    }
    fclose(file);
    return 0;
}
