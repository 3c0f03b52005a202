/* The jobs over records. Each goes over the same number of blocks, in records of K blocks, and its times are for a block. */
#include "bench.h"

typedef ek_answer record_fn(ek_settings, const int32_t *, size_t, const uint8_t *, size_t, uint8_t *, size_t);
typedef ek_answer units_fn(ek_settings, const int32_t *, size_t, const int32_t *, size_t, uint8_t *, size_t);
typedef ek_report_answer report_fn(ek_settings, const int32_t *, size_t, const int32_t *, size_t);

#define C_VERSIONS(cc) \
    record_fn cc##_encode, cc##_decode; \
    units_fn cc##_encode_units; \
    report_fn cc##_report;
C_VERSIONS(gcc)
#ifdef CLANG
C_VERSIONS(clang)
#endif

static const int32_t steps[3] = {20, 60, 180};
static ek_settings settings;
static size_t blocks, code_bytes, reading_bytes;
static int32_t units[8 * BLOCKS];
static uint8_t codes[BLOCKS * 37], readings[BLOCKS * 36], room[4 + 64 * 33];

/* ---- inputs */

/* Draws blocks about the points of drawn digits, each step as often, in no order. */
static void draw_blocks(ek_settings drawn) {
    settings = drawn;
    for (int i = 0; i < BLOCKS; i++) {
        uint8_t digits[32];
        int32_t s = steps[next() % 3];
        for (int j = 0; j < 8 * settings.m; j++) digits[j] = next() % settings.q;
        ek_point p = ek_point_of_digits(settings, digits, 8 * settings.m);
        for (int j = 0; j < 8; j++) units[8 * i + j] = s * p.e[j] / 2 + (int32_t)(next() % (s / 3)) - s / 6;
    }
}

/* Makes records of k blocks out of the drawn ones, and prints how many blocks have each step. */
static void make_records(size_t k) {
    uint32_t count = 8 * (uint32_t)k;
    int by_step[3] = {0}, refused = 0;
    blocks = k;
    code_bytes = 4 + k * (8 * settings.m + 1);
    reading_bytes = 4 + 32 * k;
    for (size_t i = 0; i < BLOCKS / k; i++) {
        uint8_t *record = readings + i * reading_bytes, *code = codes + i * code_bytes;
        memcpy(record, &count, 4);
        for (size_t j = 0; j < count; j++) {
            float reading = units[i * count + j] / 1024.0f;
            memcpy(record + 4 + 4 * j, &reading, 4);
        }
        refused += ek_encode(settings, steps, 3, record, reading_bytes, code, code_bytes).number != 0;
        for (size_t b = 0; b < k; b++) by_step[code[4 + b * (8 * settings.m + 1)] % 3]++;
    }
    printf("records, q = %d, M = %d, K = %zu: blocks by step %d %d %d\n", settings.q, settings.m, k, by_step[0], by_step[1], by_step[2]);
    if (refused > 0) printf("%d records REFUSED\n", refused);
}

/* ---- that C answers and writes what the library does */

/* Whether C answers or writes something else than the library for a record. */
static int records_differ(record_fn *library, record_fn *c, const uint8_t *in, size_t in_len) {
    static uint8_t other[sizeof room];
    ek_answer a = library(settings, steps, 3, in, in_len, room, sizeof room), b = c(settings, steps, 3, in, in_len, other, sizeof room);
    return memcmp(&a, &b, sizeof a) != 0 || memcmp(room, other, (size_t)a.value) != 0;
}

/* The same for units. */
static int units_differ(units_fn *library, units_fn *c, const int32_t *in) {
    static uint8_t other[sizeof room];
    ek_answer a = library(settings, steps, 3, in, 8 * blocks, room, sizeof room), b = c(settings, steps, 3, in, 8 * blocks, other, sizeof room);
    return memcmp(&a, &b, sizeof a) != 0 || memcmp(room, other, (size_t)a.value) != 0;
}

/* The same for a report. */
static int reports_differ(report_fn *c, const int32_t *in) {
    ek_report_answer a = ek_report(settings, steps, 3, in, 8), b = c(settings, steps, 3, in, 8);
    return memcmp(&a, &b, sizeof a) != 0;
}

/* Counts the differences of one compiler's C. */
#define DIFFERENCES(cc) \
    for (size_t i = 0; i < BLOCKS / blocks; i++) { \
        differences += records_differ(ek_encode, cc##_encode, readings + i * reading_bytes, reading_bytes); \
        differences += records_differ(ek_decode, cc##_decode, codes + i * code_bytes, code_bytes); \
        differences += units_differ(ek_encode_units, cc##_encode_units, units + 8 * i * blocks); \
        differences += reports_differ(cc##_report, units + 8 * i); \
    }

/* Prints how many answers differ, if any do. */
static void look_for_differences(void) {
    int differences = 0;
    DIFFERENCES(gcc)
#ifdef CLANG
    DIFFERENCES(clang)
#endif
    if (differences > 0) printf("%d answers DIFFER\n", differences);
}

/* ---- runs */

/* A run of a function over every record i. */
#define RECORD_RUN(f, ...) \
    static double run_##f(void) { \
        double start = now(); \
        int64_t sum = 0; \
        for (size_t i = 0; i < BLOCKS / blocks; i++) sum += f(settings, steps, 3, __VA_ARGS__, room, sizeof room).value + room[4]; \
        sink += sum; \
        return (now() - start) / BLOCKS; \
    }
/* A run of a report over every block i. */
#define REPORT_RUN(f) \
    static double run_##f(void) { \
        double start = now(), sum = 0; \
        for (int i = 0; i < BLOCKS; i++) sum += f(settings, steps, 3, units + 8 * i, 8).reading[3].difference; \
        sink += sum; \
        return (now() - start) / BLOCKS; \
    }
/* All runs of the library or of one compiler's C. */
#define RUNS(cc) \
    RECORD_RUN(cc##_encode, readings + i * reading_bytes, reading_bytes) \
    RECORD_RUN(cc##_encode_units, units + 8 * i * blocks, 8 * blocks) \
    RECORD_RUN(cc##_decode, codes + i * code_bytes, code_bytes) \
    REPORT_RUN(cc##_report)
RUNS(ek)
RUNS(gcc)
#ifdef CLANG
RUNS(clang)
#endif

/* Prints the ways of a job with its settings and K. */
static void compare_records(const char *name, struct way *ways) {
    char job[80];
    snprintf(job, sizeof job, "%s, q = %d, M = %d, K = %zu, a block", name, settings.q, settings.m, blocks);
    compare(job, ways, WAY_COUNT);
}

/* All jobs at these settings, encoding and decoding with each K. */
static void at_settings(ek_settings drawn) {
    static const size_t ks[] = {64, 8, 1};
    struct way encode[] = WAYS(encode), encode_units[] = WAYS(encode_units), decode[] = WAYS(decode), report[] = WAYS(report);
    draw_blocks(drawn);
    for (int j = 0; j < 3; j++) {
        make_records(ks[j]);
        look_for_differences();
        compare_records("encoding readings", encode);
        compare_records("encoding units", encode_units);
        compare_records("decoding", decode);
    }
    compare_records("report", report);
}

void records(void) {
    at_settings((ek_settings){4, 3});
    at_settings((ek_settings){2, 4});
}
