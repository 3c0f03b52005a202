/* Tables, and scores and the best hour by tables, in C. Compiled several times, each under its own PREFIX. */
#include "c_scores.h"

enum { PAIR_ENTRIES = 65536 };

/* q^8. */
static inline size_t entries(int32_t q) {
    return (size_t)(q * q * q * q) * (size_t)(q * q * q * q);
}

/* The entry number of eight digits below q, first digit least. q is a constant where this is called. */
static inline size_t entry(int32_t q, uint64_t c) {
    if (q == 2) return c * 0x0102040810204080 >> 56;
    if (q == 4) return ((c | c >> 6) & 0x000f000f000f000f) * 0x0001001001001000 >> 48;
    uint64_t pairs = (c + 3 * (c >> 8)) & 0x00ff00ff00ff00ff, fours = (pairs + 9 * (pairs >> 16)) & 0x0000ffff0000ffff;
    return (uint32_t)(fours + 81 * (fours >> 32));
}

/* ---- filling */

enum { TILE = 256 };

/* The layer points of some q^low entries that follow each other, coordinate by coordinate. */
struct tile {
    int32_t q, low;
    size_t size;
    int16_t digits[8][TILE], l[8][TILE];
};

/* A tile with its low digits set: as many as there is room for. */
static inline void start_tile(int32_t q, struct tile *tile) {
    memset(tile->digits, 0, sizeof tile->digits);
    tile->q = q;
    tile->low = q == 2 ? 8 : q == 3 ? 5 : 4;
    tile->size = 1;
    for (int j = 0; j < tile->low; j++, tile->size *= (size_t)q)
        for (int d = 1; d < q; d++)
            for (size_t t = 0, at = (size_t)d * tile->size; t < tile->size; t++, at++) {
                for (int i = 0; i < j; i++) tile->digits[i][at] = tile->digits[i][t];
                tile->digits[j][at] = (int16_t)d;
            }
}

/* Sets the other digits, those of this number, and finds the layer points. */
static inline void set_tile(struct tile *tile, size_t number) {
    for (int j = tile->low; j < 8; j++, number /= (size_t)tile->q)
        for (int t = 0; t < TILE; t++) tile->digits[j][t] = (int16_t)(number % (size_t)tile->q);
    layer_points((int16_t)tile->q, TILE, tile->digits, tile->l);
}

/* As ek_fill_pair_table. */
ek_answer NAME(PREFIX, _fill_pair_table)(ek_settings settings, int8_t *table, size_t len) {
    struct tile tile;
    if (!allowed(settings)) return refused(1, 0);
    if (settings.q != 2) return refused(8, 0);
    if (len < PAIR_ENTRIES) return refused(3, 2);
    start_tile(2, &tile);
    set_tile(&tile, 0);
    for (int i = 0; i < 256; i++)
        for (int t = 0; t < 256; t++) {
            int16_t product = 0;
            for (int j = 0; j < 8; j++) product += tile.l[j][i] * tile.l[j][t];
            table[256 * i + t] = (int8_t)(product >> 2);
        }
    return answered(PAIR_ENTRIES);
}

/* The entries of one block. X has three parts, so that every sum of products has 16 bits. */
APART void fill_tile(const struct tile *restrict tile, const int32_t *x, int32_t *restrict table) {
    int16_t high[8], middle[8], low[8], by_high[TILE], by_middle[TILE], by_low[TILE];
    for (int j = 0; j < 8; j++) {
        high[j] = (int16_t)(x[j] >> 16);
        middle[j] = x[j] >> 8 & 255;
        low[j] = x[j] & 255;
    }
    for (int t = 0; t < TILE; t++) {
        by_high[t] = by_middle[t] = by_low[t] = 0;
        for (int j = 0; j < 8; j++) {
            by_high[t] += high[j] * tile->l[j][t];
            by_middle[t] += middle[j] * tile->l[j][t];
            by_low[t] += low[j] * tile->l[j][t];
        }
    }
    for (size_t t = 0; t < tile->size; t++) table[t] = 65536 * by_high[t] + 256 * by_middle[t] + by_low[t];
}

/* Fills the table of all X: a tile's layer points serve every block. */
static void fill(int32_t q, const struct query *x, int32_t *table) {
    struct tile tile;
    start_tile(q, &tile);
    for (size_t number = 0, first = 0; first < entries(q); number++, first += tile.size) {
        set_tile(&tile, number);
        for (size_t b = 0; b < x->count / 8; b++) fill_tile(&tile, x->x + 8 * b, table + b * entries(q) + first);
    }
}

/* As ek_fill_query_table. */
ek_answer NAME(PREFIX, _fill_query_table)(ek_settings settings, const uint8_t *query, size_t query_len, int32_t *table, size_t len) {
    struct query x;
    if (!allowed(settings)) return refused(1, 0);
    if (settings.q > 4) return refused(8, 0);
    size_t needed = reading_count(query, query_len) / 8 * entries(settings.q);
    if (needed == 0) return refused(10, 0);
    if (len < needed) return refused(3, 2);
    ek_answer a = query_taken(query, query_len, &x);
    if (a.number != 0) return a;
    fill(settings.q, &x, table);
    return answered((int64_t)needed);
}

/* ---- two records */

/* The sum over the layers of two blocks for q = 2. */
static inline int64_t pair_by_table(int32_t m, const uint8_t *digits0, const uint8_t *digits1, const int8_t *table) {
    size_t at[4] = {0};
    int32_t sum = 0;
    EACH_LAYER(i, m) at[i] = entry(2, eight(digits1 + 8 * i));
    EACH_LAYER(k, m) {
        const int8_t *row = table + 256 * entry(2, eight(digits0 + 8 * k));
        int32_t of_row = 0;
        EACH_LAYER(i, m) of_row = 2 * of_row + row[at[i]];
        sum = 2 * sum + of_row;
    }
    return sum;
}

/* As ek_pair_score_by_table. */
ek_answer NAME(PREFIX, _pair_score_by_table)(ek_settings settings, const int32_t *steps0, size_t n0, const uint8_t *record0,
                                             size_t len0, const int32_t *steps1, size_t n1, const uint8_t *record1, size_t len1,
                                             const int8_t *table, size_t len) {
    ek_answer a = asked_of_pair(settings, steps0, n0, steps1, n1);
    if (a.number != 0) return a;
    if (settings.q != 2) return refused(8, 0);
    if (len < PAIR_ENTRIES) return refused(3, 2);
    a = pair_checked(settings, n0, record0, len0, n1, record1, len1);
    if (a.number != 0) return a;
    size_t bytes = word(record0, 0);
    int64_t score = 0;
    for (size_t i = 4; i < 4 + bytes; i += block_bytes(settings)) {
        int32_t s = steps0[record0[i]] * steps1[record1[i]];
        score += s * pair_by_table(settings.m, record0 + i + 1, record1 + i + 1, table);
    }
    return answered(score);
}

/* ---- a query */

/* The query score of the k blocks of a record by table; q is a constant where this is called. */
static inline int64_t scored_for(int32_t q, int32_t m, const int32_t *steps, const uint8_t *blocks, size_t k, const int32_t *table) {
    int64_t score = 0;
    for (size_t b = 0; b < k; b++, blocks += 8 * m + 1, table += entries(q)) {
        int64_t sum = 0;
        EACH_LAYER(i, m) sum = q * sum + table[entry(q, eight(blocks + 1 + 8 * i))];
        score += steps[blocks[0]] * sum;
    }
    return score;
}

/* The same for the q of the settings. */
static inline int64_t scored(ek_settings settings, const int32_t *steps, const uint8_t *blocks, size_t k, const int32_t *table) {
    if (settings.q == 2) return scored_for(2, settings.m, steps, blocks, k, table);
    if (settings.q == 3) return scored_for(3, settings.m, steps, blocks, k, table);
    return scored_for(4, settings.m, steps, blocks, k, table);
}

/* As ek_query_score_by_table. */
ek_answer NAME(PREFIX, _query_score_by_table)(ek_settings settings, const int32_t *steps, size_t n, const uint8_t *record,
                                              size_t record_len, const int32_t *table, size_t len) {
    uint64_t number = asked(settings, steps, n);
    if (number != 0) return refused(number, 0);
    if (settings.q > 4) return refused(8, 0);
    size_t k = block_count(settings, record, record_len);
    if (k == 0) return refused(10, 0);
    if (len < k * entries(settings.q)) return refused(3, 2);
    ek_answer a = record_checked(settings, n, record, record_len, k);
    return a.number != 0 ? a : answered(scored(settings, steps, record + 4, k, table));
}

/* As ek_best_hour_with_table. */
ek_hour NAME(PREFIX, _best_hour_with_table)(ek_settings settings, const int32_t *steps, size_t n, const uint8_t *query,
                                            size_t query_len, const uint8_t *store, size_t len, int32_t *table, size_t table_len) {
    struct query x;
    uint64_t number = asked(settings, steps, n);
    if (number == 0 && settings.q > 4) number = 8;
    if (number != 0) return no_hour(refused(number, 0));
    size_t k = reading_count(query, query_len) / 8, bytes = 4 + k * block_bytes(settings);
    if (k == 0) return no_hour(refused(10, 0));
    if (table_len < k * entries(settings.q)) return no_hour(refused(3, 2));
    ek_answer a = query_taken(query, query_len, &x);
    if (a.number == 0) a = store_checked(settings, n, k, store, len);
    if (a.number != 0) return no_hour(a);
    fill(settings.q, &x, table);
    ek_hour best = {0, 0, 0, INT64_MIN};
    for (size_t h = 0; h < len / bytes; h++) best = better(best, h, scored(settings, steps, store + h * bytes + 4, k, table));
    return best;
}
