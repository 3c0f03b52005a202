/* The nearest point in C, twice. "fast": as the layers find it, each coordinate rounded once and the nearer half mended. "plain": as a C
 * programmer would first write it, a signed division a coordinate. Compiled several times, each under its own PREFIX. */
#include "c_layers.h"

typedef int64_t i64;

static int asked(const int32_t *d, size_t n, int32_t s, ek_point *p) {
    for (int i = 0; i < 8; i++) p->e[i] = 0;
    p->number = 0;
    p->place = 0;
    if (n != 8) {
        p->number = 3;
        return 0;
    }
    int bad = s < 1 || s > 1024;
    for (int i = 0; i < 8; i++) bad |= d[i] < -67108864 || d[i] > 67108864;
    if (bad) p->number = 9;
    return !bad;
}

ek_point NAME(PREFIX, _fast)(const int32_t *d, size_t n, int32_t s) {
    ek_point p;
    if (!asked(d, n, s, &p)) return p;
    struct near near = nearest(d, s, inverse(s));
    memcpy(p.e, near.e, sizeof p.e);
    return p;
}

static i64 down(i64 a, i64 b) {
    i64 q = a / b;
    return q - (a % b < 0);
}

static i64 half(const int32_t *d, i64 s, int p, int32_t *e) {
    i64 sum = 0, c = 0, best = -1, left = 0;
    int j = 0;
    for (int i = 0; i < 8; i++) {
        i64 x = d[i] - s * p, f = down(x + s - 1, 2 * s), r = x - 2 * s * f, a = r < 0 ? -r : r;
        e[i] = (int32_t)(2 * f + p);
        sum += f;
        c += r * r;
        if (a > best || (a == best && left > 0)) {
            best = a;
            left = r;
            j = i;
        }
    }
    if (sum % 2 != 0) {
        e[j] += left > 0 ? 2 : -2;
        c += 4 * s * (s - best);
    }
    return c;
}

ek_point NAME(PREFIX, _plain)(const int32_t *d, size_t n, int32_t s) {
    ek_point p;
    if (!asked(d, n, s, &p)) return p;
    int32_t e[8], o[8];
    i64 a = half(d, s, 0, e), b = half(d, s, 1, o);
    const int32_t *c = a < b || (a == b && e[0] < o[0]) ? e : o;
    for (int i = 0; i < 8; i++) p.e[i] = c[i];
    return p;
}
