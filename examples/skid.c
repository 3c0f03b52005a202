/* A skid's software over Enkhovrag: three hours arrive from a gateway, one of them with a null for pH. The good ones are coded into
 * a store, the other is refused by its place; then the stored hour that is most like a new one is asked for. */
#include <stdio.h>
#include <string.h>

#include "enkhovrag.h"

enum { READINGS = 8, HOURS = 3, RECORD = 4 + 4 * READINGS, CODE = 4 + 8 * 4 + 1, ENTRIES = 65536 };

static const ek_settings settings = {4, 4};
static const int32_t steps[] = {64, 256, 1024};
enum { STEPS = sizeof steps / sizeof steps[0] };

static const char *const probes[READINGS] = {"pH", "temperature", "flow", "silica", "conductivity", "pressure", "acid", "level"};

/* The gateway's null: it sends a binary32 that is no number. */
static const uint32_t null_pattern = 0x7FC00000;

/* Writes a 32-bit word, least byte first. */
static void put_word(uint8_t *at, uint32_t word) {
    for (int i = 0; i < 4; i++) at[i] = (uint8_t)(word >> 8 * i);
}

/* An hour as an fvecs record: the count, then the readings. A null stands where the pH is lost. */
static void put_hour(uint8_t *record, const float *readings, int ph_lost) {
    put_word(record, READINGS);
    for (int i = 0; i < READINGS; i++) {
        uint32_t pattern;
        memcpy(&pattern, &readings[i], sizeof pattern);
        put_word(record + 4 + 4 * i, i == 0 && ph_lost ? null_pattern : pattern);
    }
}

/* Codes an hour to the end of the store and says what came of it; answers the store's new length. A refused hour leaves it as it is. */
static size_t keep_hour(int hour, const uint8_t *record, uint8_t *store, size_t used, size_t room) {
    ek_answer a = ek_encode(settings, steps, STEPS, record, RECORD, store + used, room - used);
    if (a.number == 4) {
        printf("hour %d refused: no reading from the %s probe (4, place %d)\n", hour, probes[a.place], (int)a.place);
        return used;
    }
    if (a.number != 0) {
        printf("hour %d refused (%d, place %d)\n", hour, (int)a.number, (int)a.place);
        return used;
    }
    printf("hour %d kept in %d bytes, step %d\n", hour, (int)a.value, (int)steps[store[used + 4]]);
    return used + (size_t)a.value;
}

/* Says which stored hour is the best. */
static void print_hour(const char *how, ek_hour a) {
    if (a.number != 0) printf("%s: refused (%d, place %d)\n", how, (int)a.number, (int)a.place);
    else printf("%s: record %d, score %lld\n", how, (int)a.hour, (long long)a.score);
}

int main(void) {
    static const float hours[HOURS][READINGS] = {
        {7.25f, 61.5f, 12.0f, 34.5f, 41.0f, 3.5f, 1.75f, 55.0f},
        {7.0f, 60.0f, 12.5f, 36.0f, 40.5f, 3.5f, 1.5f, 54.0f},
        {8.5f, 48.0f, 9.0f, 52.0f, 45.5f, 2.75f, 2.5f, 61.0f},
    };
    static const float now[READINGS] = {8.25f, 49.5f, 9.5f, 50.0f, 45.0f, 3.0f, 2.25f, 60.0f};
    static int32_t table[ENTRIES];
    uint8_t record[RECORD], query[RECORD], store[HOURS * CODE];
    size_t used = 0;

    for (int hour = 0; hour < HOURS; hour++) {
        put_hour(record, hours[hour], hour == 1);
        used = keep_hour(hour, record, store, used, sizeof store);
    }
    put_hour(query, now, 0);
    print_hour("best hour", ek_best_hour(settings, steps, STEPS, query, RECORD, store, used));
    print_hour("best hour by table", ek_best_hour_with_table(settings, steps, STEPS, query, RECORD, store, used, table, ENTRIES));
    return 0;
}
