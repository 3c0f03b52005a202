/* Times the library beside C for the same job, in one run on one machine, and prints ratios: below 1 the library is faster. */
#define _POSIX_C_SOURCE 199309L
#include <time.h>

#include "bench.h"

typedef ek_taken take_fn(uint32_t);
typedef ek_point nearest_fn(const int32_t *, size_t, int32_t);
typedef ek_point code_fn(ek_settings, const int32_t *, size_t, uint8_t *, size_t);
typedef ek_point decode_fn(ek_settings, const uint8_t *, size_t);

#define C_VERSIONS(cc) \
    take_fn cc##_take_double, cc##_take_shift; \
    nearest_fn cc##_fast, cc##_plain; \
    code_fn cc##_digits_of_point; \
    decode_fn cc##_point_of_digits;
C_VERSIONS(gcc)
#ifdef CLANG
C_VERSIONS(clang)
#endif

/* How many rounds of runs: fewer where they take longer than two seconds. */
enum { LEAST_ROUNDS = 5, ROUNDS = 200, MOST_TIME = 2000000000 };

static int32_t input[BLOCKS][8];
static uint8_t digits[BLOCKS][32];
static uint32_t patterns[8 * BLOCKS];
static uint64_t state = 88172645463325252ULL;
volatile double sink;

uint64_t next(void) {
    state ^= state << 13;
    state ^= state >> 7;
    state ^= state << 17;
    return state;
}

double now(void) {
    struct timespec t;
    clock_gettime(CLOCK_MONOTONIC, &t);
    return t.tv_sec * 1e9 + t.tv_nsec;
}

void measure(struct way *ways, int n) {
    double start = now();
    for (int k = 0; k < n; k++) ways[k].best = 1e30;
    for (int r = 0; r < LEAST_ROUNDS || (r < ROUNDS && now() - start < MOST_TIME); r++)
        for (int k = 0; k < n; k++) {
            double t = ways[k].run();
            if (t < ways[k].best) ways[k].best = t;
        }
}

void compare(const char *job, struct way *ways, int n) {
    measure(ways, n);
    printf("%s\n", job);
    for (int k = 0; k < n; k++) printf("  %-20s %7.2f ns   library / this: %.2f\n", ways[k].name, ways[k].best, ways[0].best / ways[k].best);
}

/* A run of a function that answers a point, over every block i. */
#define POINT_RUN(f, ...) \
    static double run_##f(void) { \
        double start = now(); \
        int64_t sum = 0; \
        for (int i = 0; i < BLOCKS; i++) sum += f(__VA_ARGS__).e[3]; \
        sink += sum; \
        return (now() - start) / BLOCKS; \
    }

/* Prints that C answers another point than the library. */
static void look_for_difference(const char *job, int i, ek_point library, ek_point c) {
    if (memcmp(&library, &c, sizeof c) != 0) printf("%s DIFFERS at block %d\n", job, i);
}

/* ---- taking a reading */

#define TAKE_RUN(f) \
    static double run_##f(void) { \
        double start = now(), sum = 0; \
        for (int i = 0; i < 8 * BLOCKS; i++) sum += f(patterns[i]).value; \
        sink += sum; \
        return (now() - start) / (8 * BLOCKS); \
    }

TAKE_RUN(ek_take_bits)
TAKE_RUN(gcc_take_double)
TAKE_RUN(gcc_take_shift)
#ifdef CLANG
TAKE_RUN(clang_take_double)
TAKE_RUN(clang_take_shift)
#endif

static void taking(void) {
    for (int i = 0; i < 8 * BLOCKS; i++) {
        float f = (float)((int64_t)(next() % 33554433) - 16777216) / 1024.0f / (1 + next() % 8);
        memcpy(&patterns[i], &f, sizeof f);
        ek_taken a = ek_take_bits(patterns[i]), b = gcc_take_double(patterns[i]), c = gcc_take_shift(patterns[i]);
        if (a.number != b.number || memcmp(&a.value, &b.value, 4) != 0) printf("taking DIFFERS from double at %08x\n", patterns[i]);
        if (a.number != c.number || memcmp(&a.value, &c.value, 4) != 0) printf("taking DIFFERS from shift at %08x\n", patterns[i]);
    }
    struct way ways[] = {
        {"library", run_ek_take_bits, 0},
        {"double, gcc -O3", run_gcc_take_double, 0},
        {"shift, gcc -O3", run_gcc_take_shift, 0},
#ifdef CLANG
        {"double, clang -O3", run_clang_take_double, 0},
        {"shift, clang -O3", run_clang_take_shift, 0},
#endif
    };
    compare("taking a reading", ways, sizeof ways / sizeof *ways);
}

/* ---- the nearest point */

static int32_t step;

#define NEAREST_RUN(f) POINT_RUN(f, input[i], 8, step)

NEAREST_RUN(ek_nearest)
NEAREST_RUN(gcc_fast)
NEAREST_RUN(gcc_plain)
#ifdef CLANG
NEAREST_RUN(clang_fast)
NEAREST_RUN(clang_plain)
#endif

static void nearest_point(int32_t s, int32_t most) {
    char job[64];
    step = s;
    for (int i = 0; i < BLOCKS; i++) {
        for (int j = 0; j < 8; j++) input[i][j] = (int32_t)(next() % (2 * (uint64_t)most + 1)) - most;
        ek_point a = ek_nearest(input[i], 8, s);
        look_for_difference("nearest point", i, a, gcc_fast(input[i], 8, s));
        look_for_difference("nearest point", i, a, gcc_plain(input[i], 8, s));
#ifdef CLANG
        look_for_difference("nearest point", i, a, clang_fast(input[i], 8, s));
        look_for_difference("nearest point", i, a, clang_plain(input[i], 8, s));
#endif
    }
    struct way ways[] = {
        {"library", run_ek_nearest, 0},
        {"fast, gcc -O3", run_gcc_fast, 0},
        {"plain, gcc -O3", run_gcc_plain, 0},
#ifdef CLANG
        {"fast, clang -O3", run_clang_fast, 0},
        {"plain, clang -O3", run_clang_plain, 0},
#endif
    };
    snprintf(job, sizeof job, "nearest point, s = %d, |d| up to %d", s, most);
    compare(job, ways, sizeof ways / sizeof *ways);
}

/* ---- decoding and coding a point */

static ek_settings settings;

#define DECODE_RUN(f) POINT_RUN(f, settings, digits[i], 8 * settings.m)
#define CODE_RUN(f) POINT_RUN(f, settings, input[i], 8, digits[i], 32)

DECODE_RUN(ek_point_of_digits)
DECODE_RUN(gcc_point_of_digits)
CODE_RUN(ek_digits_of_point)
CODE_RUN(gcc_digits_of_point)
#ifdef CLANG
DECODE_RUN(clang_point_of_digits)
CODE_RUN(clang_digits_of_point)
#endif

static void compare_layers(const char *name, struct way *ways) {
    char job[64];
    snprintf(job, sizeof job, "%s, q = %d, M = %d", name, settings.q, settings.m);
    compare(job, ways, WAY_COUNT);
}

static void whole_decoding(int32_t q, int32_t m) {
    settings = (ek_settings){q, m};
    for (int i = 0; i < BLOCKS; i++) {
        for (int j = 0; j < 8 * m; j++) digits[i][j] = next() % q;
        ek_point a = ek_point_of_digits(settings, digits[i], 8 * m);
        look_for_difference("whole decoding", i, a, gcc_point_of_digits(settings, digits[i], 8 * m));
#ifdef CLANG
        look_for_difference("whole decoding", i, a, clang_point_of_digits(settings, digits[i], 8 * m));
#endif
    }
    struct way ways[] = WAYS(point_of_digits);
    compare_layers("whole decoding", ways);
}

/* Looks whether C codes a block as the library does. */
static void look_at_coding(code_fn *c, int i) {
    uint8_t other[32];
    memcpy(other, digits[i], sizeof other);
    ek_point a = ek_digits_of_point(settings, input[i], 8, digits[i], 32);
    look_for_difference("coding a point", i, a, c(settings, input[i], 8, other, 32));
    if (memcmp(digits[i], other, sizeof other) != 0) printf("coding a point DIFFERS in digits at block %d\n", i);
}

static void coding(int32_t q, int32_t m, int32_t most) {
    settings = (ek_settings){q, m};
    for (int i = 0; i < BLOCKS; i++) {
        int32_t d[8];
        for (int j = 0; j < 8; j++) d[j] = (int32_t)(next() % (2 * (uint64_t)most + 1)) - most;
        memcpy(input[i], ek_nearest(d, 8, 1).e, sizeof input[i]);
        look_at_coding(gcc_digits_of_point, i);
#ifdef CLANG
        look_at_coding(clang_digits_of_point, i);
#endif
    }
    struct way ways[] = WAYS(digits_of_point);
    compare_layers("coding a point", ways);
}

int main(void) {
    taking();
    nearest_point(37, 20000);
    nearest_point(1, 1000);
    nearest_point(1024, 67108864);
    whole_decoding(2, 4);
    whole_decoding(16, 3);
    coding(16, 3, 8000);
    records();
    scores();
    stores();
    return 0;
}
