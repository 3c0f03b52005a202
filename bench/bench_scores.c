/* The jobs of scores and tables, over records of eight blocks. A score's times are for a block, those of filling for an entry. */
#include "bench.h"

typedef ek_answer pair_fn(ek_settings, const int32_t *, size_t, const uint8_t *, size_t, const int32_t *, size_t, const uint8_t *, size_t);
typedef ek_answer query_fn(ek_settings, const int32_t *, size_t, const uint8_t *, size_t, const uint8_t *, size_t);
typedef ek_answer pair_by_table_fn(ek_settings, const int32_t *, size_t, const uint8_t *, size_t, const int32_t *, size_t, const uint8_t *,
                                   size_t, const int8_t *, size_t);
typedef ek_answer query_by_table_fn(ek_settings, const int32_t *, size_t, const uint8_t *, size_t, const int32_t *, size_t);
typedef ek_answer fill_pair_fn(ek_settings, int8_t *, size_t);
typedef ek_answer fill_query_fn(ek_settings, const uint8_t *, size_t, int32_t *, size_t);

#define C_VERSIONS(cc) \
    pair_fn cc##_pair_score; \
    query_fn cc##_query_score; \
    pair_by_table_fn cc##_pair_score_by_table; \
    query_by_table_fn cc##_query_score_by_table; \
    fill_pair_fn cc##_fill_pair_table; \
    fill_query_fn cc##_fill_query_table;
C_VERSIONS(gcc)
#ifdef CLANG
C_VERSIONS(clang)
#endif

enum { K = 8, RECORDS = BLOCKS / K, QUERY_BYTES = 4 + 32 * K, PAIR_ENTRIES = 65536, QUERY_ENTRIES = K * 65536 };

static const int32_t steps0[3] = {20, 60, 180}, steps1[2] = {7, 300};
static ek_settings settings;
static size_t code_bytes;
static uint8_t codes0[RECORDS * (4 + K * 33)], codes1[sizeof codes0], queries[RECORDS * QUERY_BYTES];
static int8_t pair_table[PAIR_ENTRIES], other_pair_table[PAIR_ENTRIES];
static int32_t query_table[QUERY_ENTRIES], other_query_table[QUERY_ENTRIES];

/* ---- inputs */

void draw_record(ek_settings drawn, size_t steps, size_t k, uint8_t *record) {
    uint32_t block = 8 * (uint32_t)drawn.m + 1, bytes = block * (uint32_t)k;
    memcpy(record, &bytes, 4);
    for (uint32_t i = 0; i < bytes; i++) record[4 + i] = next() % (i % block == 0 ? steps : (size_t)drawn.q);
}

void draw_query(size_t k, uint8_t *query) {
    uint32_t count = 8 * (uint32_t)k;
    memcpy(query, &count, 4);
    for (uint32_t i = 0; i < count; i++) {
        float reading = (float)((int64_t)(next() % 33554433) - 16777216) / 1024.0f;
        memcpy(query + 4 + 4 * i, &reading, 4);
    }
}

/* Draws all records and queries at these settings. */
static void draw(int32_t q, int32_t m) {
    settings = (ek_settings){q, m};
    code_bytes = 4 + K * (8 * (size_t)m + 1);
    for (int i = 0; i < RECORDS; i++) {
        draw_record(settings, 3, K, codes0 + i * code_bytes);
        draw_record(settings, 2, K, codes1 + i * code_bytes);
        draw_query(K, queries + i * QUERY_BYTES);
    }
}

/* ---- the calls */

#define RECORD0(i) steps0, 3, codes0 + (i)*code_bytes, code_bytes
#define RECORD1(i) steps1, 2, codes1 + (i)*code_bytes, code_bytes
#define PAIR_SCORE(f, i) f(settings, RECORD0(i), RECORD1(i))
#define PAIR_SCORE_BY_TABLE(f, i) f(settings, RECORD0(i), RECORD1(i), pair_table, PAIR_ENTRIES)
#define QUERY_SCORE(f, i) f(settings, steps0, 3, queries + (i)*QUERY_BYTES, QUERY_BYTES, codes0 + (i)*code_bytes, code_bytes)
#define QUERY_SCORE_BY_TABLE(f, i) f(settings, RECORD0(i), query_table, QUERY_ENTRIES)
#define FILL_PAIR_TABLE(f, table) f(settings, table, PAIR_ENTRIES)
#define FILL_QUERY_TABLE(f, table) f(settings, queries, QUERY_BYTES, table, QUERY_ENTRIES)

/* ---- that C answers and writes what the library does */

static int answers_differ(ek_answer a, ek_answer b) {
    return memcmp(&a, &b, sizeof a) != 0;
}

/* Prints how many answers differ, if any do. */
static void differences(const char *name, int count) {
    if (count > 0) printf("%s: %d answers DIFFER\n", name, count);
}

/* Looks for differences of a call over all records. */
#define LOOK_WITH(cc, CALL, f) \
    { \
        int count = 0; \
        for (int i = 0; i < RECORDS; i++) count += answers_differ(CALL(ek_##f, i), CALL(cc##_##f, i)); \
        differences(#cc "_" #f, count); \
    }
/* Looks for differences of a filled table. The library's stays filled. */
#define LOOK_WHEN_FILLED_WITH(cc, CALL, f, table) \
    { \
        int count = answers_differ(CALL(ek_##f, table), CALL(cc##_##f, other_##table)); \
        differences(#cc "_" #f, count + (memcmp(table, other_##table, sizeof table) != 0)); \
    }
#ifdef CLANG
#define LOOK(CALL, f) LOOK_WITH(gcc, CALL, f) LOOK_WITH(clang, CALL, f)
#define LOOK_WHEN_FILLED(CALL, f, table) LOOK_WHEN_FILLED_WITH(gcc, CALL, f, table) LOOK_WHEN_FILLED_WITH(clang, CALL, f, table)
#else
#define LOOK(CALL, f) LOOK_WITH(gcc, CALL, f)
#define LOOK_WHEN_FILLED(CALL, f, table) LOOK_WHEN_FILLED_WITH(gcc, CALL, f, table)
#endif

/* ---- runs */

/* A run over every record. */
#define SCORE_RUN(CALL, f) \
    static double run_##f(void) { \
        double start = now(); \
        int64_t sum = 0; \
        for (int i = 0; i < RECORDS; i++) sum += CALL(f, i).value; \
        sink += (double)sum; \
        return (now() - start) / BLOCKS; \
    }
/* A run that fills a table once. */
#define FILL_RUN(CALL, f, table) \
    static double run_##f(void) { \
        double start = now(), filled = (double)CALL(f, table).value; \
        sink += table[77]; \
        return (now() - start) / filled; \
    }
/* All runs of the library or of one compiler's C. */
#define RUNS(cc) \
    SCORE_RUN(PAIR_SCORE, cc##_pair_score) \
    SCORE_RUN(QUERY_SCORE, cc##_query_score) \
    SCORE_RUN(PAIR_SCORE_BY_TABLE, cc##_pair_score_by_table) \
    SCORE_RUN(QUERY_SCORE_BY_TABLE, cc##_query_score_by_table) \
    FILL_RUN(FILL_PAIR_TABLE, cc##_fill_pair_table, pair_table) \
    FILL_RUN(FILL_QUERY_TABLE, cc##_fill_query_table, query_table)
RUNS(ek)
RUNS(gcc)
#ifdef CLANG
RUNS(clang)
#endif

/* Prints the ways of a job with its settings. */
static void compare_scores(const char *name, const char *unit, struct way *ways) {
    char job[80];
    snprintf(job, sizeof job, "%s, q = %d, M = %d, K = %d, %s", name, settings.q, settings.m, K, unit);
    compare(job, ways, WAY_COUNT);
}

/* Scores without a table. */
static void plain(void) {
    struct way pair[] = WAYS(pair_score), query[] = WAYS(query_score);
    LOOK(PAIR_SCORE, pair_score)
    LOOK(QUERY_SCORE, query_score)
    compare_scores("pair score", "a block", pair);
    compare_scores("query score", "a block", query);
}

/* Filling the pair table and scoring by it. */
static void by_pair_table(void) {
    struct way fill[] = WAYS(fill_pair_table), score[] = WAYS(pair_score_by_table);
    LOOK_WHEN_FILLED(FILL_PAIR_TABLE, fill_pair_table, pair_table)
    LOOK(PAIR_SCORE_BY_TABLE, pair_score_by_table)
    compare_scores("filling the pair table", "an entry", fill);
    compare_scores("pair score by table", "a block", score);
}

/* Filling a query table and scoring by it. */
static void by_query_table(void) {
    struct way fill[] = WAYS(fill_query_table), score[] = WAYS(query_score_by_table);
    LOOK_WHEN_FILLED(FILL_QUERY_TABLE, fill_query_table, query_table)
    LOOK(QUERY_SCORE_BY_TABLE, query_score_by_table)
    compare_scores("filling the query table", "an entry", fill);
    compare_scores("query score by table", "a block", score);
}

void scores(void) {
    draw(4, 3);
    plain();
    by_query_table();
    draw(3, 3);
    by_query_table();
    draw(2, 4);
    plain();
    by_pair_table();
    by_query_table();
}
