/* Encoding, decoding and reporting in C, for little-endian machines. A record is coded aside and copied when every block has its step, so
 * that a refusal leaves the room as found. Compiled several times, each under its own PREFIX. */
#include "c_records.h"

/* ---- a block and its step */

/* What a call prepares once: settings, steps, the greatest coordinate of a decoded point, and the inverses of q and of each step. */
struct code {
    ek_settings settings;
    const int32_t *steps;
    size_t count;
    int32_t width;
    struct inverse of_q, of_step[4];
};

/* What is prepared for allowed settings and steps. */
static struct code prepared(ek_settings settings, const int32_t *steps, size_t count) {
    struct code c = {settings, steps, count, 0, inverse(settings.q), {{0, 0}}};
    for (int k = 0; k < settings.m; k++) c.width = settings.q * (c.width + 2);
    for (size_t t = 0; t < count; t++) c.of_step[t] = inverse(steps[t]);
    return c;
}

/* Whether step t leaves nothing over for the eight X at x; if so, their point and its digits. The nearest point is within 2 of every
 * coordinate, so far X are turned away at once. */
static inline int fits(const struct code *c, size_t t, const int32_t *x, int32_t *e, uint8_t *digits) {
    int32_t q = c->settings.q, m = c->settings.m, s = c->steps[t], most = s * (c->width + 2), far = 0, left = 0, v[8], rests[4][8];
    for (int i = 0; i < 8; i++) {
        v[i] = 2 * x[i];
        far |= v[i] < -most || v[i] > most;
    }
    if (far) return 0;
    struct near n = nearest_in_loop(v, s, c->of_step[t]);
    memcpy(e, n.e, sizeof n.e);
    for (int k = 0; k < m; k++) {
        memcpy(v, n.e, sizeof v);
        n = nearest_in_loop(v, q, c->of_q);
        memcpy(rests[k], n.r, sizeof n.r);
    }
    for (int i = 0; i < 8; i++) left |= n.e[i];
    if (left) return 0;
    for (int k = 0; k < m; k++) layer_digits(q, rests[k], digits + 8 * k);
    return 1;
}

/* The place of the first step that fits, with the point and its digits, or the number of steps. */
static size_t first_fitting_step(const struct code *c, const int32_t *x, int32_t *e, uint8_t *digits) {
    size_t t = 0;
    while (t < c->count && !fits(c, t, x, e, digits)) t++;
    return t;
}

/* ---- encoding */

/* The length of the code record of so many readings. */
static size_t record_bytes(ek_settings settings, size_t count) {
    return 4 + count / 8 * block_bytes(settings);
}

/* Codes the X of all blocks, each within 2^24, and copies the record. */
static ek_answer encoded(ek_settings settings, const int32_t *steps, size_t n, const int32_t *x, size_t count, uint8_t *out) {
    struct code c = prepared(settings, steps, n);
    size_t block = block_bytes(settings), bytes = record_bytes(settings, count);
    uint32_t d = (uint32_t)(bytes - 4);
    uint8_t record[4 + 64 * 33];
    int32_t e[8];
    memcpy(record, &d, sizeof d);
    for (size_t b = 0; b < count / 8; b++) {
        uint8_t *at = record + 4 + b * block;
        size_t t = first_fitting_step(&c, x + 8 * b, e, at + 1);
        if (t == n) return refused(6, b);
        *at = (uint8_t)t;
    }
    memcpy(out, record, bytes);
    return answered((int64_t)bytes);
}

/* As ek_encode. */
ek_answer NAME(PREFIX, _encode)(ek_settings settings, const int32_t *steps, size_t n, const uint8_t *in, size_t in_len,
                                uint8_t *out, size_t room) {
    int32_t x[512];
    uint64_t number = asked(settings, steps, n);
    if (number != 0) return refused(number, 0);
    size_t count = reading_count(in, in_len);
    if (count == 0) return refused(10, 0);
    if (room < record_bytes(settings, count)) return refused(3, 1);
    if (!all_in_range(in + 4, count)) return first_refused(in + 4);
    take(in + 4, count, x);
    return encoded(settings, steps, n, x, count, out);
}

/* The index of the first X past 2^24 in magnitude, or their count. */
static size_t first_past(const int32_t *units, size_t count) {
    int32_t bad = 0;
    size_t i = 0;
    for (size_t k = 0; k < count; k++) bad |= units[k] < -16777216 || units[k] > 16777216;
    if (!bad) return count;
    while (units[i] >= -16777216 && units[i] <= 16777216) i++;
    return i;
}

/* As ek_encode_units. */
ek_answer NAME(PREFIX, _encode_units)(ek_settings settings, const int32_t *steps, size_t n, const int32_t *units, size_t count,
                                      uint8_t *out, size_t room) {
    uint64_t number = asked(settings, steps, n);
    if (number != 0) return refused(number, 0);
    if (!count_allowed(count)) return refused(3, 0);
    if (room < record_bytes(settings, count)) return refused(3, 1);
    size_t past = first_past(units, count);
    if (past < count) return refused(5, past);
    return encoded(settings, steps, n, units, count, out);
}

/* ---- decoding */

/* Writes the readings of a block as binary32; its coordinates are so many places apart. */
static inline void put_readings(int32_t s, const int16_t *e, size_t apart, uint8_t *out) {
    float readings[8];
    for (int j = 0; j < 8; j++) readings[j] = (float)e[j * apart] * ((float)s / 2048.0f);
    memcpy(out, readings, sizeof readings);
}

/* Writes the readings of n blocks, at most eight. */
static inline void put_blocks(ek_settings settings, const int32_t *steps, const uint8_t *blocks, size_t n, uint8_t *out) {
    int16_t e[8][8];
    if (settings.q == 2 || n == 1)
        for (size_t b = 0; b < n; b++) {
            whole_point(settings, blocks + b * block_bytes(settings) + 1, e[0]);
            put_readings(steps[blocks[b * block_bytes(settings)]], e[0], 1, out + 32 * b);
        }
    else {
        whole_points(settings, blocks, n, e);
        for (size_t b = 0; b < n; b++) put_readings(steps[blocks[b * block_bytes(settings)]], &e[0][b], 8, out + 32 * b);
    }
}

/* As ek_decode. */
ek_answer NAME(PREFIX, _decode)(ek_settings settings, const int32_t *steps, size_t n, const uint8_t *in, size_t in_len,
                                uint8_t *out, size_t room) {
    uint64_t number = asked(settings, steps, n);
    if (number != 0) return refused(number, 0);
    size_t block = block_bytes(settings), blocks = block_count(settings, in, in_len);
    if (blocks == 0) return refused(10, 0);
    if (room < 4 + 32 * blocks) return refused(3, 1);
    if (some_bad(settings, n, in + 4, blocks)) return refused(7, first_bad(settings, n, in + 4));
    uint32_t count = 8 * (uint32_t)blocks;
    memcpy(out, &count, sizeof count);
    for (size_t b = 0; b < blocks; b += 8)
        put_blocks(settings, steps, in + 4 + b * block, blocks - b < 8 ? blocks - b : 8, out + 4 + 32 * b);
    return answered(4 + 32 * (int64_t)blocks);
}

/* ---- the report */

/* A report of zeros. */
static ek_report_answer report(uint64_t number, uint64_t place) {
    ek_report_answer r;
    memset(&r, 0, sizeof r);
    r.number = number;
    r.place = place;
    return r;
}

/* As ek_report. */
ek_report_answer NAME(PREFIX, _report)(ek_settings settings, const int32_t *steps, size_t n, const int32_t *units, size_t count) {
    uint64_t number = asked(settings, steps, n);
    if (number != 0) return report(number, 0);
    if (count != 8) return report(3, 0);
    size_t past = first_past(units, 8);
    if (past < 8) return report(5, past);
    struct code c = prepared(settings, steps, n);
    uint8_t digits[32];
    int32_t e[8];
    size_t t = first_fitting_step(&c, units, e, digits);
    if (t == n) return report(6, 0);
    ek_report_answer r = report(0, 0);
    for (int i = 0; i < 8; i++) {
        r.reading[i].taken = (float)units[i] * (1.0f / 1024.0f);
        r.reading[i].decoded = (float)(steps[t] * e[i]) * (1.0f / 2048.0f);
        r.reading[i].difference = (float)(2 * units[i] - steps[t] * e[i]) * (1.0f / 2048.0f);
    }
    return r;
}
