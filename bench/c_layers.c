/* Coding and decoding a point in C. Compiled several times, each under its own PREFIX. */
#include "c_points.h"

/* An answer with zeros for its point. */
static ek_point answer(uint64_t number, uint64_t place) {
    ek_point p = {number, place, {0}};
    return p;
}

/* ---- decoding */

/* The index of the first digit that is not below q, or n if all are. */
static inline size_t first_bad(int32_t q, const uint8_t *digits, size_t n) {
    uint8_t bad = 0;
    for (size_t i = 0; i < n; i++) bad |= digits[i] >= (uint8_t)q;
    if (!bad) return n;
    size_t i = 0;
    while (digits[i] < q) i++;
    return i;
}

/* As ek_point_of_digits. */
ek_point NAME(PREFIX, _point_of_digits)(ek_settings settings, const uint8_t *digits, size_t n) {
    if (!allowed(settings)) return answer(1, 0);
    if (n != 8 * (size_t)settings.m) return answer(3, 0);
    size_t bad = first_bad(settings.q, digits, n);
    if (bad < n) return answer(7, bad);
    ek_point p = answer(0, 0);
    int16_t e[8];
    whole_point(settings, digits, e);
    for (int i = 0; i < 8; i++) p.e[i] = e[i];
    return p;
}

/* ---- coding */

/* Whether e is a doubled point within 2^26. */
static int is_point(const int32_t *e) {
    int bad = 0;
    uint32_t sum = 0;
    for (int i = 0; i < 8; i++) {
        bad |= e[i] < -67108864 || e[i] > 67108864 || ((e[i] ^ e[0]) & 1);
        sum += (uint32_t)e[i];
    }
    return !bad && sum % 4 == 0;
}

/* As ek_digits_of_point. */
ek_point NAME(PREFIX, _digits_of_point)(ek_settings settings, const int32_t *e, size_t n, uint8_t *out, size_t room) {
    if (!allowed(settings)) return answer(1, 0);
    if (n != 8) return answer(3, 0);
    if (room < 8 * (size_t)settings.m) return answer(3, 1);
    if (!is_point(e)) return answer(9, 0);
    ek_point p = answer(0, 0);
    struct inverse w = inverse(settings.q);
    memcpy(p.e, e, sizeof p.e);
    for (int k = 0; k < settings.m; k++) {
        struct near near = nearest_in_loop(p.e, settings.q, w);
        layer_digits(settings.q, near.r, out + 8 * k);
        memcpy(p.e, near.e, sizeof p.e);
    }
    return p;
}
