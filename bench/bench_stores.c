/* The best hour over stores of records, plain and with a table. Times are for a record. */
#include "bench.h"

typedef ek_hour best_fn(ek_settings, const int32_t *, size_t, const uint8_t *, size_t, const uint8_t *, size_t);
typedef ek_hour best_with_table_fn(ek_settings, const int32_t *, size_t, const uint8_t *, size_t, const uint8_t *, size_t, int32_t *, size_t);

#define C_VERSIONS(cc) \
    best_fn cc##_best_hour; \
    best_with_table_fn cc##_best_hour_with_table;
C_VERSIONS(gcc)
#ifdef CLANG
C_VERSIONS(clang)
#endif

enum { MOST = 10000, ENTRIES = 8 * 65536 };

static const int32_t steps[3] = {20, 60, 180};
static ek_settings settings;
static size_t hours, code_bytes, query_bytes;
static uint8_t store[MOST * (4 + 8 * 33)], query[4 + 32 * 64];
static int32_t table[ENTRIES], other_table[ENTRIES];

/* Draws a query of k blocks and a store of so many records. */
static void draw(ek_settings drawn, size_t k, size_t count) {
    settings = drawn;
    hours = count;
    code_bytes = 4 + k * (8 * (size_t)drawn.m + 1);
    query_bytes = 4 + 32 * k;
    draw_query(k, query);
    for (size_t h = 0; h < count; h++) draw_record(drawn, 3, k, store + h * code_bytes);
}

#define SEARCH settings, steps, 3, query, query_bytes, store, hours *code_bytes
#define BEST_HOUR(f) f(SEARCH)
#define BEST_HOUR_WITH_TABLE(f, table) f(SEARCH, table, ENTRIES)

/* ---- that C answers and writes what the library does */

/* How often C differs from the library: without a table, with one, in the table. */
#define DIFFERENCES(cc) \
    a = BEST_HOUR(cc##_best_hour); \
    b = BEST_HOUR_WITH_TABLE(cc##_best_hour_with_table, other_table); \
    count += memcmp(&a, &plain, sizeof a) != 0; \
    count += memcmp(&b, &by_table, sizeof b) != 0; \
    count += memcmp(table, other_table, sizeof table) != 0;

static void look_for_differences(void) {
    ek_hour plain = BEST_HOUR(ek_best_hour), by_table = BEST_HOUR_WITH_TABLE(ek_best_hour_with_table, table), a, b;
    int count = memcmp(&plain, &by_table, sizeof plain) != 0;
    DIFFERENCES(gcc)
#ifdef CLANG
    DIFFERENCES(clang)
#endif
    if (count > 0) printf("%d answers DIFFER\n", count);
}

/* ---- runs */

#define RUN(f, call) \
    static double run_##f(void) { \
        double start = now(); \
        sink += (double)call.score; \
        return (now() - start) / (double)hours; \
    }
#define RUNS(cc) \
    RUN(cc##_best_hour, BEST_HOUR(cc##_best_hour)) \
    RUN(cc##_best_hour_with_table, BEST_HOUR_WITH_TABLE(cc##_best_hour_with_table, table))
RUNS(ek)
RUNS(gcc)
#ifdef CLANG
RUNS(clang)
#endif

/* Prints the ways of the best hour over a store, and what a table gains. */
static void best_hour(ek_settings drawn) {
    struct way plain[] = WAYS(best_hour), by_table[] = WAYS(best_hour_with_table);
    char job[80];
    draw(drawn, 8, MOST);
    look_for_differences();
    snprintf(job, sizeof job, "best hour, q = %d, M = %d, K = 8, %d records, a record", drawn.q, drawn.m, MOST);
    compare(job, plain, WAY_COUNT);
    snprintf(job, sizeof job, "best hour with a table, q = %d, M = %d, K = 8, %d records, a record", drawn.q, drawn.m, MOST);
    compare(job, by_table, WAY_COUNT);
    for (int k = 0; k < WAY_COUNT; k++) printf("  %-20s plain / with a table: %.2f\n", plain[k].name, plain[k].best / by_table[k].best);
}

/* Prints a line of times, plain and with a table, for each way. */
static void growth(int32_t q, int32_t m, size_t k, size_t count) {
    struct way plain[] = WAYS(best_hour), by_table[] = WAYS(best_hour_with_table);
    draw((ek_settings){q, m}, k, count);
    look_for_differences();
    measure(plain, WAY_COUNT);
    measure(by_table, WAY_COUNT);
    printf("  q = %d, M = %d, K = %2zu, %5zu records:", q, m, k, count);
    for (int i = 0; i < WAY_COUNT; i++) printf("   %s %.1f and %.1f", plain[i].name, plain[i].best, by_table[i].best);
    printf("\n");
}

void stores(void) {
    best_hour((ek_settings){4, 3});
    best_hour((ek_settings){2, 4});
    printf("best hour as it grows, ns a record, plain and with a table\n");
    growth(4, 3, 8, 1000);
    growth(4, 3, 8, MOST);
    growth(4, 1, 8, MOST);
    growth(4, 4, 8, MOST);
    growth(3, 3, 8, 1000);
    growth(3, 3, 8, MOST);
    growth(2, 4, 1, 1000);
    growth(2, 4, 8, 1000);
    growth(2, 4, 64, 1000);
}
