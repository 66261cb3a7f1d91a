// doubles make COUNT SEED: writes COUNT doubles, 8 bytes each, lowest first.
// doubles judge COUNT SEED: makes the same doubles, reads for each the bit patterns of two roots, and compares both with this processor's.
#include <inttypes.h>
#include <math.h>
#include <stdio.h>
#include <stdlib.h>
#include <string.h>

enum { FIXED, ANY, EXPONENT, SUBNORMAL, SQUARE, ABOVE, BELOW, NEAR, MIDDLE, KINDS };

static const char *const names[KINDS] = {
    "chosen values",
    "any bits",
    "each exponent in turn, both signs",
    "subnormals",
    "exact squares",
    "squares, one unit in the last place up",
    "squares, one unit in the last place down",
    "rounded squares, and their neighbours",
    "near the middle between two doubles, squared",
};

static const uint64_t chosen[] = {
    0x0000000000000000, 0x8000000000000000, // zeros
    0x0000000000000001, 0x8000000000000001, 0x0000000000000002, 0x0000000000000003, // least subnormals
    0x000fffffffffffff, 0x0010000000000000, 0x0010000000000001, // where the subnormals end
    0x3fefffffffffffff, 0x3ff0000000000000, 0x3ff0000000000001, 0x3fffffffffffffff, // about 1
    0x4000000000000000, 0x4010000000000000, 0x3fd0000000000000, 0x3fb999999999999a, 0xbff0000000000000, // 2, 4, 1/4, 0.1, -1
    0x7fefffffffffffff, 0xffefffffffffffff, // the greatest
    0x7ff0000000000000, 0xfff0000000000000, // infinities
    0x7ff0000000000001, 0x7ff8000000000000, 0x7fffffffffffffff, 0xfff0000000000001, 0xffffffffffffffff, // NaNs
};
enum { CHOSEN = sizeof chosen / sizeof chosen[0] };

static uint64_t state;

// splitmix64
static uint64_t next(void)
{
    uint64_t z = state += 0x9e3779b97f4a7c15;
    z = (z ^ (z >> 30)) * 0xbf58476d1ce4e5b9;
    z = (z ^ (z >> 27)) * 0x94d049bb133111eb;
    return z ^ (z >> 31);
}

static double of_bits(uint64_t b)
{
    double x;
    memcpy(&x, &b, sizeof x);
    return x;
}

static uint64_t bits(double x)
{
    uint64_t b;
    memcpy(&b, &x, sizeof b);
    return b;
}

// A double with that many digits, whose square is a normal double.
static double factor(int digits)
{
    double x = of_bits(0x3ff0000000000000 | (next() >> 12 >> (53 - digits) << (53 - digits)));
    return ldexp(x, (int)(next() % 1022) - 510);
}

static uint64_t make(uint64_t i, int *kind)
{
    if (i < CHOSEN) {
        *kind = FIXED;
        return chosen[i];
    }
    *kind = ANY + (int)(i % (KINDS - ANY));
    uint64_t turn = i / (KINDS - ANY);
    switch (*kind) {
    case ANY:
        return next();
    case EXPONENT:
        return (turn % 4096 << 52) | (next() >> 12);
    case SUBNORMAL:
        return next() >> 12 >> (turn % 52);
    case NEAR: {
        double y = factor(53);
        return bits(y * y) + next() % 3 - 1;
    }
    case MIDDLE: {
        // (y + half a step)^2 is y * (y + step) and a quarter of step^2
        double y = factor(53), step = nextafter(y, INFINITY) - y;
        return bits(fma(y, y, y * step)) + next() % 3 - 1;
    }
    default: {
        double y = factor(26);
        return bits(y * y) + (*kind == ABOVE) - (*kind == BELOW);
    }
    }
}

static uint64_t root(uint64_t b)
{
    double r = sqrt(of_bits(b));
    return r != r ? 0x7ff8000000000000 : bits(r);
}

static void put(uint64_t w, unsigned char *at)
{
    for (int k = 0; k < 8; k++)
        at[k] = (unsigned char)(w >> (8 * k));
}

static uint64_t get(const unsigned char *at)
{
    uint64_t w = 0;
    for (int k = 8; k-- > 0;)
        w = w << 8 | at[k];
    return w;
}

static int judge(uint64_t count)
{
    static uint64_t of_kind[KINDS], wrong[KINDS], exponents[2048];
    uint64_t failed = 0, seen = 0;
    unsigned char pair[16];
    for (uint64_t i = 0; i < count; i++) {
        int kind;
        uint64_t b = make(i, &kind), want = root(b);
        if (fread(pair, sizeof pair, 1, stdin) != 1) {
            printf("no answer to double %" PRIu64 " and later\n", i);
            failed += count - i;
            break;
        }
        of_kind[kind]++;
        exponents[b >> 52 & 2047]++;
        uint64_t stepped = get(pair), quick = get(pair + 8);
        if (stepped != want || quick != want) {
            wrong[kind]++;
            if (failed++ < 10)
                printf("%016" PRIx64 ": root %016" PRIx64 ", stepped %016" PRIx64 ", quick %016" PRIx64 "\n", b, want, stepped, quick);
        }
    }
    if (getchar() != EOF) {
        printf("more answers than doubles\n");
        failed++;
    }
    for (int k = 0; k < KINDS; k++)
        printf("%10" PRIu64 " %s, %" PRIu64 " mismatches\n", of_kind[k], names[k], wrong[k]);
    for (int e = 0; e < 2048; e++)
        seen += exponents[e] > 0;
    printf("%10" PRIu64 " of 2048 exponent fields\n", seen);
    printf("%" PRIu64 " passed, %" PRIu64 " failed\n", count > failed ? count - failed : 0, failed);
    return failed != 0;
}

int main(int argc, char **argv)
{
    if (argc != 4)
        return 2;
    uint64_t count = strtoull(argv[2], NULL, 10);
    state = strtoull(argv[3], NULL, 10);
    if (strcmp(argv[1], "judge") == 0)
        return judge(count);
    for (uint64_t i = 0; i < count; i++) {
        int kind;
        unsigned char word[8];
        put(make(i, &kind), word);
        if (fwrite(word, sizeof word, 1, stdout) != 1)
            return 1;
    }
    return 0;
}
