/* What a record is, in C on little-endian machines: what all functions over records check first, readings, code records. */
#include "c_points.h"

/* A refusal. */
static inline ek_answer refused(uint64_t number, uint64_t place) {
    ek_answer a = {number, place, 0};
    return a;
}

/* An accepted answer. */
static inline ek_answer answered(int64_t value) {
    ek_answer a = {0, 0, value};
    return a;
}

/* ---- settings and steps */

/* Whether a step list keeps its rule. */
static inline int rising(const int32_t *steps, size_t n) {
    if (n < 1 || n > 4) return 0;
    int32_t last = 0;
    for (size_t t = 0; t < n; t++) {
        if (steps[t] <= last || steps[t] > 1024) return 0;
        last = steps[t];
    }
    return 1;
}

/* The first of settings and steps at fault, or 0. */
static inline uint64_t asked(ek_settings settings, const int32_t *steps, size_t n) {
    return !allowed(settings) ? 1 : !rising(steps, n) ? 2 : 0;
}

/* The bytes of a coded block. */
static inline size_t block_bytes(ek_settings settings) {
    return 8 * (size_t)settings.m + 1;
}

/* ---- readings */

/* The four bytes at i as a word. */
static inline uint32_t word(const uint8_t *bytes, size_t i) {
    uint32_t w;
    memcpy(&w, bytes + i, sizeof w);
    return w;
}

/* Whether a vector may have so many readings. */
static inline int count_allowed(size_t count) {
    return count >= 8 && count <= 512 && count % 8 == 0;
}

/* The count of an fvecs record's readings, or 0 if the record has a wrong one or is cut short. */
static inline size_t reading_count(const uint8_t *in, size_t in_len) {
    size_t count = in_len < 4 ? 0 : word(in, 0);
    return count_allowed(count) && in_len >= 4 + 4 * count ? count : 0;
}

/* Whether no magnitude is above 16384, NaNs and infinities among those that are. */
static inline int all_in_range(const uint8_t *readings, size_t count) {
    uint32_t bad = 0;
    for (size_t i = 0; i < count; i++) bad |= (word(readings, 4 * i) & 0x7fffffff) > 0x46800000;
    return !bad;
}

/* The refusal of the first reading that has one. */
static inline ek_answer first_refused(const uint8_t *readings) {
    size_t i = 0;
    while ((word(readings, 4 * i) & 0x7fffffff) <= 0x46800000) i++;
    return refused((word(readings, 4 * i) & 0x7fffffff) > 0x7f800000 ? 4 : 5, i);
}

/* Takes readings that are in range: what is cut off says whether one more or one less is nearer, a half goes down. */
static inline void take(const uint8_t *readings, size_t count, int32_t *x) {
    for (size_t i = 0; i < count; i++) {
        float reading;
        memcpy(&reading, readings + 4 * i, sizeof reading);
        int32_t whole = (int32_t)(1024.0f * reading);
        float rest = 1024.0f * reading - (float)whole;
        x[i] = whole + (rest > 0.5f) - (rest <= -0.5f);
    }
}

/* ---- code records */

/* K of a code record, or 0 if it is cut short or its dimension is no K(8M+1) with K from 1 to 64. */
static inline size_t block_count(ek_settings settings, const uint8_t *record, size_t len) {
    size_t bytes = len < 4 ? 0 : word(record, 0), k = bytes / block_bytes(settings);
    return k <= 64 && bytes % block_bytes(settings) == 0 && len >= 4 + bytes ? k : 0;
}

/* The same byte eight times. */
#define EACH(byte) ((byte) * 0x0101010101010101u)

/* Whether some T of k blocks is not below n or some digit not below q, eight digits at a time: none may reach 128, with 128 - q added. */
static inline int some_bad(ek_settings settings, size_t n, const uint8_t *blocks, size_t k) {
    uint64_t added = EACH(128 - (uint64_t)settings.q), bad = 0;
    int64_t past = 0;
    for (size_t b = 0; b < k; b++, blocks += block_bytes(settings)) {
        past |= (int64_t)n - 1 - blocks[0];
        EACH_LAYER(i, settings.m) bad |= eight(blocks + 1 + 8 * i) | (eight(blocks + 1 + 8 * i) + added);
    }
    return past < 0 || (bad & EACH(128)) != 0;
}

/* The place of the first T not below n or digit not below q in blocks that have one. */
static inline size_t first_bad(ek_settings settings, size_t n, const uint8_t *blocks) {
    size_t i = 0, block = block_bytes(settings);
    while (blocks[i] < (i % block == 0 ? n : (size_t)settings.q)) i++;
    return i;
}

/* A code record that must have k blocks: accepted, or its refusal. */
static inline ek_answer record_checked(ek_settings settings, size_t n, const uint8_t *record, size_t len, size_t k) {
    size_t bytes = k * block_bytes(settings);
    if (len < 4 + bytes || word(record, 0) != bytes) return refused(10, 0);
    if (some_bad(settings, n, record + 4, k)) return refused(7, first_bad(settings, n, record + 4));
    return answered(0);
}
