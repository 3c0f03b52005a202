/* Taking a reading in C, twice. "double": by double-precision arithmetic, which holds every step exactly. "shift": by the pattern's
 * own digits. Compiled several times, each under its own PREFIX. */
#include <math.h>
#include <string.h>

#include "c_names.h"
#include "enkhovrag.h"

ek_taken NAME(PREFIX, _take_double)(uint32_t bits) {
    ek_taken t = {0, 0.0f};
    float f;
    memcpy(&f, &bits, sizeof f);
    if (f != f) {
        t.number = 4;
        return t;
    }
    if (f > 16384.0f || f < -16384.0f) {
        t.number = 5;
        return t;
    }
    t.value = (float)(ceil(1024.0 * f - 0.5) / 1024.0) + 0.0f;
    return t;
}

ek_taken NAME(PREFIX, _take_shift)(uint32_t bits) {
    ek_taken t = {0, 0.0f};
    uint32_t size = bits & 0x7fffffff, exponent = size >> 23;
    if (size > 0x46800000) {
        t.number = size > 0x7f800000 ? 4 : 5;
        return t;
    }
    if (exponent < 116) return t;
    uint32_t negative = bits >> 31, digits = (size & 0x7fffff) | 0x800000;
    int32_t n = exponent == 141 ? 16777216 : (int32_t)((2 * digits + (1u << (140 - exponent)) - 1 + negative) >> (141 - exponent));
    t.value = (float)(negative ? -n : n) / 1024.0f;
    return t;
}
