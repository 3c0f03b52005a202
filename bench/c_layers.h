/* Layers in C, for points and for records, on little-endian machines: the nearest point, digits, layer points. */
#include <string.h>

#include "c_names.h"
#include "enkhovrag.h"

/* Whether q, m and q^m keep their limits. */
static inline int allowed(ek_settings settings) {
    int32_t q = settings.q, m = settings.m;
    return q >= 2 && q <= 16 && m >= 1 && m <= (q <= 8 ? 4 : 3);
}

/* ---- the nearest point */

/* A function that the compiler leaves as it stands. */
#define APART static __attribute__((noinline, unused))

/* The inverse of 4s: n / 4s, rounded down, is n times it, shifted, for odd n below 2^28. */
struct inverse {
    int64_t times;
    int shift;
};

static inline struct inverse inverse(int32_t s) {
    int shift = s > 64 ? 41 : 37;
    struct inverse w = {((int64_t)1 << shift) / (4 * s), shift};
    return w;
}

/* How a half is mended: what that adds to its sum of squares, over 4s, and whether it is at the first coordinate. */
struct mending {
    int32_t cost, first;
};

/* The nearer half, 0 for even and 1 for odd, and of equals the one that comes first. The even half's rests have this sum of sizes; down:
 * its first rest is not above 0. The sizes of a coordinate's two rests make s, so the odd squares are more by 2s(4s - sizes). */
static inline int32_t nearer_half(int32_t s, int32_t sizes, int32_t down, struct mending even, struct mending odd) {
    int32_t apart = 1 - 2 * odd.first - 2 * even.first, before = down ? apart > 0 : apart < 0;
    return 2 * (4 * s - sizes + 2 * odd.cost) < 4 * even.cost + before;
}

/* The nearest point e to v / s and r = v - s e. */
struct near {
    int32_t e[8], r[8];
};

/* The nearest point to v / s, w the inverse of s, for v up to 2^26 and s up to 1024. Each coordinate is rounded once, to 2f in the even
 * half, and a is the rest; the odd half is one step further to the side of a. A half whose sum is odd is mended, by two steps, where its
 * rest is greatest, of equals at the first that goes down, else at the last that goes up. That is the greatest key in the even half and
 * the least in the odd one. */
static inline struct near nearest(const int32_t *v, int32_t s, struct inverse w) {
    struct near n;
    int32_t f[8], a[8], key[8], greatest = 0, least = 1 << 20, sum = 0, ups = 0, sizes = 0;
    for (int i = 0; i < 8; i++) {
        f[i] = (int32_t)((2 * v[i] + 2 * s - 1) * w.times >> w.shift);
        a[i] = v[i] - 2 * s * f[i];
        int32_t up = 16 * a[i] + i, down = 15 - up;
        key[i] = up > down ? up : down;
        greatest = greatest < key[i] ? key[i] : greatest;
        least = least < key[i] ? least : key[i];
        sum += f[i];
        ups += a[i] > 0;
        sizes += key[i] >> 4;
    }
    int32_t odd0 = -(sum & 1), odd1 = -((sum + ups) & 1), at0 = greatest & odd0, at1 = least & odd1;
    struct mending even = {(s - (greatest >> 4)) & odd0, key[0] == at0}, odd = {least >> 4 & odd1, key[0] == at1};
    int32_t p = nearer_half(s, sizes, a[0] <= 0, even, odd), at = at0 ^ ((at0 ^ at1) & -p), mended = 2 - 4 * p;
    for (int i = 0; i < 8; i++) {
        int32_t steps = p + (mended & -(key[i] == at)), up = a[i] > 0 ? steps : -steps;
        n.e[i] = 2 * f[i] + up;
        n.r[i] = a[i] - s * up;
    }
    return n;
}

/* The same for loops. In a loop clang makes branches of the choices, which no processor foresees here. */
#ifdef __clang__
APART
#else
static inline
#endif
struct near nearest_in_loop(const int32_t *v, int32_t s, struct inverse w) {
    return nearest(v, s, w);
}

/* ---- digits */

/* The coefficients modulo q. No coordinate is past 2q, so no coefficient is past 12q. */
static inline void layer_digits(int32_t base, const int32_t *l, uint8_t *digits) {
    uint32_t c[8], q = (uint32_t)base, w = 65536 / q + 1, up = 12 * q;
    int32_t sum = 0;
    for (int k = 6; k >= 0; k--) {
        sum += l[k] - l[7];
        c[k] = (uint32_t)(sum / (k == 0 ? 4 : 2)) + up;
    }
    c[7] = (uint32_t)l[7] + up;
    for (int k = 0; k < 8; k++) digits[k] = (uint8_t)(c[k] - q * (c[k] * w >> 16));
}

