/* Scores and the best hour in C. Compiled several times, each under its own PREFIX. */
#include "c_scores.h"

/* The inner product of eight numbers and eight. Compilers know an instruction for it where it stands alone. */
APART int32_t product(const int16_t *one, const int16_t *other) {
    int32_t sum = 0;
    for (int j = 0; j < 8; j++) sum += one[j] * other[j];
    return sum;
}

/* ---- two records */

/* The pair score of the k blocks of two records for q = 2. The product of two whole points is divisible by 4. */
static inline int64_t pair_of_2(int32_t m, const int32_t *steps0, const uint8_t *blocks0, const int32_t *steps1, const uint8_t *blocks1,
                                size_t k) {
    int64_t score = 0;
    int16_t e0[8], e1[8];
    for (size_t b = 0; b < k; b++, blocks0 += 8 * m + 1, blocks1 += 8 * m + 1) {
        whole_point_of_2(m, blocks0 + 1, e0);
        whole_point_of_2(m, blocks1 + 1, e1);
        score += (int64_t)(steps0[blocks0[0]] * steps1[blocks1[0]]) * (product(e0, e1) / 4);
    }
    return score;
}

/* The same for any q. */
static inline int64_t pair_of_any(ek_settings settings, const int32_t *steps0, const uint8_t *blocks0, const int32_t *steps1,
                                  const uint8_t *blocks1, size_t k) {
    size_t block = block_bytes(settings);
    int64_t score = 0;
    int16_t e0[8][8], e1[8][8];
    for (size_t first = 0; first < k; first += 8) {
        size_t n = k - first < 8 ? k - first : 8;
        whole_points(settings, blocks0, n, e0);
        whole_points(settings, blocks1, n, e1);
        for (size_t b = 0; b < n; b++, blocks0 += block, blocks1 += block) {
            int32_t product = 0;
            for (int j = 0; j < 8; j++) product += e0[j][b] * e1[j][b];
            score += (int64_t)(steps0[blocks0[0]] * steps1[blocks1[0]]) * (product / 4);
        }
    }
    return score;
}

/* As ek_pair_score. */
ek_answer NAME(PREFIX, _pair_score)(ek_settings settings, const int32_t *steps0, size_t n0, const uint8_t *record0, size_t len0,
                                    const int32_t *steps1, size_t n1, const uint8_t *record1, size_t len1) {
    ek_answer a = asked_of_pair(settings, steps0, n0, steps1, n1);
    if (a.number == 0) a = pair_checked(settings, n0, record0, len0, n1, record1, len1);
    if (a.number != 0) return a;
    size_t k = word(record0, 0) / block_bytes(settings);
    return answered(settings.q == 2 ? pair_of_2(settings.m, steps0, record0 + 4, steps1, record1 + 4, k)
                                    : pair_of_any(settings, steps0, record0 + 4, steps1, record1 + 4, k));
}

/* ---- a query */

/* A query prepared: all X, and for q = 2 their parts, X = 4096 high + low. */
struct prepared {
    struct query q;
    int16_t high[512], low[512];
};

/* The readings of an fvecs record: taken and prepared, or their refusal. */
static inline ek_answer query_prepared(ek_settings settings, const uint8_t *in, size_t len, struct prepared *p) {
    ek_answer a = query_taken(in, len, &p->q);
    if (a.number != 0 || settings.q != 2) return a;
    for (size_t i = 0; i < p->q.count; i++) {
        p->high[i] = (int16_t)(p->q.x[i] >> 12);
        p->low[i] = p->q.x[i] & 4095;
    }
    return a;
}

/* The query score of the k blocks of a record for q = 2. */
static inline int64_t scored_of_2(int32_t m, const int32_t *steps, const struct prepared *p, const uint8_t *blocks, size_t k) {
    int64_t score = 0;
    for (size_t b = 0; b < k; b++, blocks += 8 * m + 1) {
        int16_t e[8];
        whole_point_of_2(m, blocks + 1, e);
        score += steps[blocks[0]] * (4096 * (int64_t)product(p->high + 8 * b, e) + product(p->low + 8 * b, e));
    }
    return score;
}

/* The same for any q. */
static inline int64_t scored_of_any(ek_settings settings, const int32_t *steps, const int32_t *x, const uint8_t *blocks, size_t k) {
    int64_t score = 0;
    int16_t e[8][8];
    for (size_t first = 0; first < k; first += 8) {
        size_t n = k - first < 8 ? k - first : 8;
        whole_points(settings, blocks, n, e);
        for (size_t b = 0; b < n; b++, blocks += block_bytes(settings), x += 8) {
            int64_t sum = 0;
            for (int j = 0; j < 8; j++) sum += (int64_t)x[j] * e[j][b];
            score += steps[blocks[0]] * sum;
        }
    }
    return score;
}

/* The query score of the blocks of a record. */
static inline int64_t scored(ek_settings settings, const int32_t *steps, const struct prepared *p, const uint8_t *blocks) {
    size_t k = p->q.count / 8;
    return settings.q == 2 ? scored_of_2(settings.m, steps, p, blocks, k) : scored_of_any(settings, steps, p->q.x, blocks, k);
}

/* As ek_query_score. */
ek_answer NAME(PREFIX, _query_score)(ek_settings settings, const int32_t *steps, size_t n, const uint8_t *query, size_t query_len,
                                     const uint8_t *record, size_t len) {
    struct prepared p;
    uint64_t number = asked(settings, steps, n);
    if (number != 0) return refused(number, 0);
    ek_answer a = query_prepared(settings, query, query_len, &p);
    if (a.number == 0) a = record_checked(settings, n, record, len, p.q.count / 8);
    return a.number != 0 ? a : answered(scored(settings, steps, &p, record + 4));
}

/* ---- the best hour */

/* As ek_best_hour. */
ek_hour NAME(PREFIX, _best_hour)(ek_settings settings, const int32_t *steps, size_t n, const uint8_t *query, size_t query_len,
                                 const uint8_t *store, size_t len) {
    struct prepared p;
    uint64_t number = asked(settings, steps, n);
    if (number != 0) return no_hour(refused(number, 0));
    ek_answer a = query_prepared(settings, query, query_len, &p);
    if (a.number == 0) a = store_checked(settings, n, p.q.count / 8, store, len);
    if (a.number != 0) return no_hour(a);
    size_t bytes = 4 + p.q.count / 8 * block_bytes(settings);
    ek_hour best = {0, 0, 0, INT64_MIN};
    for (size_t h = 0; h < len / bytes; h++) best = better(best, h, scored(settings, steps, &p, store + h * bytes + 4));
    return best;
}
