/*
 * The same as letter.c by way of fontcrunch_easy.h: easy FILE prints of each contour what letter FILE prints. Beside it a
 * refusal is told in words.
 */
#include <inttypes.h>
#include <math.h>
#include <stdio.h>
#include <stdlib.h>

#include "fontcrunch_easy.h"

enum { IN = FONTCRUNCH_POINTS_IN, LINE = 65536 + 2 };

/* Made once, and lent to every call. */
static fontcrunch_scratch scratch;
static fontcrunch_outline crunched;
static fontcrunch_pieces chain;

static int16_t xs[IN], ys[IN];
static uint8_t flags[IN];
static size_t n;

/* Threes of whole numbers; what letter.c has to say of a line that is none is not said here. */
static void read_contour(char *line)
{
    char *end;
    for (n = 0; n < IN; n++) {
        long x = strtol(line, &end, 10);
        if (end == line)
            return;
        xs[n] = (int16_t)x;
        ys[n] = (int16_t)strtol(end, &end, 10);
        flags[n] = (uint8_t)strtol(end, &line, 10);
    }
}

static const char *verdict(fontcrunch_settings settings, size_t k)
{
    return fontcrunch_easy_check(&scratch, settings, xs, ys, flags, n, k, &chain).accepted ? "accepted" : "not accepted";
}

static void show_chain(fontcrunch_settings settings)
{
    fontcrunch_chain_report report = {0};
    size_t k;
    for (k = 0; k < n && report.pieces == 0; k++)
        report = fontcrunch_easy_chain(&scratch, settings, xs, ys, flags, n, k, &chain);
    if (report.pieces == 0) {
        printf("no run with a chain\n");
        return;
    }
    k--;
    printf("run %zu: score %.17g, %zu pairs tried, %zu lookups fell\n", k, chain.score, report.pairs, report.fallen);
    for (size_t i = 0; i < chain.pieces; i++)
        printf("  from break %" PRIu32 " to %" PRIu32 ", control %g %g, for segments %" PRIu32 " to %" PRIu32 "\n",
               chain.starts[i], chain.ends[i], chain.cxs[i], chain.cys[i], chain.spans[i][0], chain.spans[i][1]);
    printf("  this chain is %s\n", verdict(settings, k));
    chain.score = nextafter(chain.score, INFINITY);
    printf("  with the score %.17g it is %s\n", chain.score, verdict(settings, k));
}

int main(int argc, char **argv)
{
    static char line[LINE];
    FILE *file = argc == 2 ? fopen(argv[1], "r") : NULL;
    if (file == NULL) {
        fprintf(stderr, "usage: easy FILE\n");
        return 2;
    }
    fontcrunch_settings settings = fontcrunch_crate_settings();
    while (fgets(line, LINE, file) != NULL) {
        read_contour(line);
        fontcrunch_crunch_report report = fontcrunch_easy_crunch(&scratch, settings, xs, ys, flags, n, &crunched);
        if (report.number != FONTCRUNCH_OK) {
            printf("refused %" PRIu32 ": %s\n", report.number, fontcrunch_reason(report.number));
            continue;
        }
        printf("%zu points in, %zu out, %zu pairs tried, %zu lookups fell\n", n, report.points, report.pairs, report.fallen);
        for (size_t i = 0; i < report.points; i++)
            printf("  %6" PRId16 " %6" PRId16 "  %s\n", crunched.xs[i], crunched.ys[i], crunched.flags[i] ? "on" : "off");
        show_chain(settings);
    }
    fclose(file);
    return 0;
}
