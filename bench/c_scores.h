/* What scores, tables and the store check in C. */
#include "c_records.h"

/* ---- two records */

/* Settings and two step lists: accepted, or their refusal. */
static inline ek_answer asked_of_pair(ek_settings settings, const int32_t *steps0, size_t n0, const int32_t *steps1, size_t n1) {
    if (!allowed(settings)) return refused(1, 0);
    if (!rising(steps0, n0)) return refused(2, 0);
    if (!rising(steps1, n1)) return refused(2, 1);
    return answered(0);
}

/* Two code records of as many blocks, the first checked whole before the second: accepted, or their refusal. */
static inline ek_answer pair_checked(ek_settings settings, size_t n0, const uint8_t *record0, size_t len0, size_t n1,
                                     const uint8_t *record1, size_t len1) {
    size_t k = block_count(settings, record0, len0);
    if (k == 0) return refused(10, 0);
    ek_answer a = record_checked(settings, n0, record0, len0, k);
    return a.number != 0 ? a : record_checked(settings, n1, record1, len1, k);
}

/* ---- a query */

/* The X of a query. */
struct query {
    size_t count;
    int32_t x[512];
};

/* The readings of an fvecs record: taken, or their refusal. */
static inline ek_answer query_taken(const uint8_t *in, size_t len, struct query *q) {
    q->count = reading_count(in, len);
    if (q->count == 0) return refused(10, 0);
    if (!all_in_range(in + 4, q->count)) return first_refused(in + 4);
    take(in + 4, q->count, q->x);
    return answered(0);
}

/* ---- a store */

/* A refusal for a best hour. */
static inline ek_hour no_hour(ek_answer a) {
    ek_hour h = {a.number, a.place, 0, 0};
    return h;
}

/* A store of records with k blocks each: accepted, or its refusal. */
static inline ek_answer store_checked(ek_settings settings, size_t n, size_t k, const uint8_t *store, size_t len) {
    if (len == 0) return refused(11, 0);
    for (size_t at = 0; at < len; at += 4 + k * block_bytes(settings)) {
        ek_answer a = record_checked(settings, n, store + at, len - at, k);
        if (a.number != 0) return refused(a.number, a.number == 7 ? at + 4 + a.place : at);
    }
    return answered(0);
}

/* The better of the best hour so far and hour h, the earlier of equals. */
static inline ek_hour better(ek_hour best, uint64_t h, int64_t score) {
    ek_hour hour = {0, 0, h, score};
    return score > best.score ? hour : best;
}
