/* Layer points and whole points in C, on little-endian machines. */
#include "c_layers.h"
#include "c_table.h"

/* ---- layer points, many at once */

/* -1 where x is below y, else 0. */
static inline int16_t below(int16_t x, int16_t y) {
    return (int16_t)((int16_t)(x - y) >> 15);
}

static inline int16_t greater(int16_t x, int16_t y) {
    return x > y ? x : y;
}

static inline int16_t lesser(int16_t x, int16_t y) {
    return x < y ? x : y;
}

/* The n layer points l[.][t] of the digits c[.][t]: the rests that `nearest` leaves of their points p, found in the same way. No coordinate
 * of p is below -2q or above 5q. Compilers do eight at once, as nothing here branches and nothing needs more than 16 bits; half is 0 for
 * the even half and -1 for the odd one. */
APART void layer_points(int16_t q, size_t n, int16_t (*restrict c)[n], int16_t (*restrict l)[n]) {
    for (size_t t = 0; t < n; t++) {
        int16_t p[8], a[8], key[8], greatest = 0, least = 32767, sum = 0, ups = 0, sizes = 0;
        for (int j = 0; j < 8; j++) p[j] = (int16_t)((j < 7 ? 2 * c[j][t] : 0) - (j < 6 ? 2 * c[j + 1][t] : 0) + c[7][t]);
        p[0] += 2 * c[0][t];
        for (int j = 0; j < 8; j++) {
            int16_t f = below(p[j], 1 - q) - below(q, p[j]) - below(3 * q, p[j]);
            a[j] = p[j] - 2 * q * f;
            int16_t up = 16 * a[j] + j, down = 15 - up;
            key[j] = greater(up, down);
            greatest = greater(greatest, key[j]);
            least = lesser(least, key[j]);
            sum += f;
            ups += below(down, 0);
            sizes += key[j] >> 4;
        }
        int16_t odd0 = -(sum & 1), odd1 = -((sum + ups) & 1), at0 = greatest & odd0, at1 = least & odd1;
        int16_t cost0 = (q - (greatest >> 4)) & odd0, cost1 = least >> 4 & odd1;
        int16_t apart = 1 - 2 * (key[0] == at1) - 2 * (key[0] == at0), before = below(apart, 0) ^ below(a[0], 1);
        int16_t half = below(2 * (4 * q - sizes + 2 * cost1 - 2 * cost0) + before, 0), at = at0 ^ ((at0 ^ at1) & half);
        int16_t mended = 2 + 4 * half;
        for (int j = 0; j < 8; j++) {
            int16_t steps = (key[j] == at ? mended : 0) - half, by = q * steps, down = below(a[j], 1);
            l[j][t] = a[j] - ((by ^ down) - down);
        }
    }
}

/* ---- whole points */

/* The m layers i of a block, from the top down, written so that compilers unroll it. */
#define EACH_LAYER(i, m) \
    for (int i = 3; i >= 0; i--) \
        if (i < (m))

/* Eight bytes as a word. */
static inline uint64_t eight(const uint8_t *bytes) {
    uint64_t x;
    memcpy(&x, bytes, sizeof x);
    return x;
}

/* The layer point of eight digits below 2 by the table: the multiplication gathers their bits in the highest byte. */
static inline const int16_t *table_point(uint64_t digits) {
    return layer_points_of_2[digits * 0x0102040810204080 >> 56];
}

/* The point of the digits of all layers for q = 2, from the top layer down. */
static inline void whole_point_of_2(int32_t m, const uint8_t *digits, int16_t *e) {
    int16_t sum[8] = {0};
    EACH_LAYER(k, m) {
        const int16_t *l = table_point(eight(digits + 8 * k));
        for (int j = 0; j < 8; j++) sum[j] = (int16_t)(2 * sum[j] + l[j]);
    }
    memcpy(e, sum, sizeof sum);
}

/* The same for any q, all layers at once. */
static inline void whole_point_of_any(ek_settings settings, const uint8_t *digits, int16_t *e) {
    int16_t c[8][8] = {{0}}, l[8][8];
    for (int k = 0; k < settings.m; k++)
        for (int j = 0; j < 8; j++) c[j][k] = digits[8 * k + j];
    layer_points((int16_t)settings.q, 8, c, l);
    for (int j = 0; j < 8; j++) {
        int32_t sum = 0;
        for (int k = settings.m - 1; k >= 0; k--) sum = settings.q * sum + l[j][k];
        e[j] = (int16_t)sum;
    }
}

/* The point of the digits of all layers. */
static inline void whole_point(ek_settings settings, const uint8_t *digits, int16_t *e) {
    if (settings.q == 2) whole_point_of_2(settings.m, digits, e);
    else whole_point_of_any(settings, digits, e);
}

/* The whole points e[.][b] of n coded blocks, at most eight, at once: for any q. */
static inline void whole_points(ek_settings settings, const uint8_t *blocks, size_t n, int16_t (*e)[8]) {
    int16_t q = (int16_t)settings.q, one[8], c[8][8] = {{0}}, l[8][8];
    if (n == 1) {
        whole_point_of_any(settings, blocks + 1, one);
        for (int j = 0; j < 8; j++) e[j][0] = one[j];
        return;
    }
    memset(e, 0, sizeof c);
    for (int k = settings.m - 1; k >= 0; k--) {
        for (size_t b = 0; b < n; b++)
            for (int j = 0; j < 8; j++) c[j][b] = blocks[b * (8 * (size_t)settings.m + 1) + 1 + 8 * k + j];
        layer_points(q, 8, c, l);
        for (int j = 0; j < 8; j++)
            for (int b = 0; b < 8; b++) e[j][b] = (int16_t)(q * e[j][b] + l[j][b]);
    }
}
