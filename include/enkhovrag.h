/* Enkhovrag: a verified dosing coder. Link libenkhovrag.a; nothing else is needed.
 *
 * Every answer has a number: 0 is accepted; any other is the refusal of that number, with its place, and all values 0. Of several
 * faults the one answered is the first in the order that a function's comment names them in. A refusal leaves all lent memory as it
 * was, and what a function only reads it never changes. Pointers must be good for their lengths and lent buffers must not overlap:
 * that is the caller's duty, which no proof covers.
 *
 *     ek_settings settings = {3, 1};
 *     int32_t steps[2] = {1, 1000}, units[8] = {0, 1, 0, 0, 0, 0, 0, 0};
 *     uint8_t record[13];
 *     ek_answer a = ek_encode_units(settings, steps, 2, units, 8, record, sizeof record);
 *     if (a.number != 0) printf("refused %llu %llu\n", (unsigned long long)a.number, (unsigned long long)a.place);
 *     else printf("%lld bytes, step %d\n", (long long)a.value, steps[record[4]]);    // 13 bytes, step 1
 */
#ifndef ENKHOVRAG_H
#define ENKHOVRAG_H

#include <stddef.h>
#include <stdint.h>

#ifdef __cplusplus
extern "C" {
#endif

/* The settings of a code: digits from 0 to q - 1, and m layers of eight digits to a block. They are allowed where q is 2 to 16, m is
 * 1 to 4 and q^m is at most 4096. */
typedef struct {
    int32_t q, m;
} ek_settings;

/* ---- one reading */

/* A reading as taken: number 0 and its value, 4 if it is missing, 5 if it is out of range. */
typedef struct {
    uint64_t number;
    float value;
} ek_taken;

/* Takes a reading that arrives as an IEEE 754 binary32 pattern. Every NaN is missing; infinities and magnitudes above 16384 are
 * out of range; otherwise the value is X/1024, X the whole number nearest to 1024 times the reading, an exact half to the lower. */
ek_taken ek_take_bits(uint32_t bits);

/* Takes a reading that arrives as X whole units of 1/1024. Past 2^24 in magnitude it is out of range. */
ek_taken ek_take_units(int32_t x);

/* ---- one point */

/* A doubled point of E8: eight signed numbers of equal parity with a sum divisible by 4. */
typedef struct {
    uint64_t number, place;
    int32_t e[8];
} ek_point;

/* The doubled point e nearest to d / s: no point of E8 has a smaller sum of (d[i] - s e[i])^2, and of equals e comes first,
 * coordinate 1 deciding first.
 * Refuses 3 (place 0) if d_len is not 8; 9 (place 0) if some d[i] is past 2^26 in magnitude or s is not 1 to 1024. */
ek_point ek_nearest(const int32_t *d, size_t d_len, int32_t s);

/* Codes the doubled point e: writes its 8m digits, each below q, to the front of out, layer 0 first, and answers what is left over
 * after m layers: e is the point of the digits plus q^m times the answer. No point is refused for what is left over. Bytes of out
 * past 8m stay; a refusal leaves all of out as found.
 * Refuses 1 (place 0) unless the settings are allowed; 3 (place 0) if e_len is not 8; 3 (place 1) if out_len is below 8m;
 * 9 (place 0) if some e[i] is past 2^26 in magnitude or e is not a doubled point of E8. */
ek_point ek_digits_of_point(ek_settings settings, const int32_t *e, size_t e_len, uint8_t *out, size_t out_len);

/* The doubled point of 8m digits, layer 0 first: the sum of q^k times the layer point of layer k.
 * Refuses 1 (place 0) unless the settings are allowed; 3 (place 0) if digits_len is not 8m; 7 (place i) if digits[i] is the first
 * digit that is not below q. */
ek_point ek_point_of_digits(ek_settings settings, const uint8_t *digits, size_t digits_len);

/* ---- records
 *
 * A step list has 1 to 4 steps, each from 1 to 1024 units of 1/1024 and each greater than the one before it. A vector has 8 to 512
 * readings, a multiple of 8, which are K blocks of eight. For each block the point nearest to its X over a step is coded, with the
 * first step on the list that leaves nothing over after m layers; T is that step's place on the list, from 0.
 *
 * Records begin with a dimension of four bytes, least byte first. An fvecs record holds readings: their count, then each as a
 * binary32 of four bytes, least byte first. A bvecs record holds codes: K(8m+1), then for each block T and its 8m digits, layer 0
 * first. Bytes of an input past its record are not read; bytes of out past the record that is written stay. */

/* An answer that is one whole number: how many bytes or entries were written, or a score. */
typedef struct {
    uint64_t number, place;
    int64_t value;
} ek_answer;

/* Encodes the readings of an fvecs record into a bvecs record at the front of out, 4 + K(8m+1) bytes.
 * Refuses 1 (place 0) unless the settings are allowed; 2 (place 0) unless the step list keeps its rule; 10 (place 0) if in_len is
 * below 4, the count is not allowed or in_len is below 4 + 4 times the count; 3 (place 1) if out_len is below 4 + K(8m+1);
 * 4 (place i) if reading i is missing or 5 (place i) if it is out of range, i the first reading that is either; 6 (place b) if
 * block b is the first that no step of the list fits. */
ek_answer ek_encode(ek_settings settings, const int32_t *steps, size_t steps_len, const uint8_t *in, size_t in_len, uint8_t *out,
                    size_t out_len);

/* Encodes readings that arrive as whole units of 1/1024, as ek_encode does.
 * Refuses 1 (place 0) unless the settings are allowed; 2 (place 0) unless the step list keeps its rule; 3 (place 0) if units_len is
 * not an allowed count; 3 (place 1) if out_len is below 4 + K(8m+1); 5 (place i) if units[i] is the first past 2^24 in magnitude;
 * 6 (place b) if block b is the first that no step of the list fits. */
ek_answer ek_encode_units(ek_settings settings, const int32_t *steps, size_t steps_len, const int32_t *units, size_t units_len,
                          uint8_t *out, size_t out_len);

/* Decodes a bvecs record into an fvecs record at the front of out, 4 + 32K bytes: each reading is s e / 2048, exactly, s the step
 * that T names and e the doubled point of the block's digits. A zero is never minus zero.
 * Refuses 1 (place 0) unless the settings are allowed; 2 (place 0) unless the step list keeps its rule; 10 (place 0) if in_len is
 * below 4, the dimension is not K(8m+1) with K from 1 to 64 or in_len is below 4 plus the dimension; 3 (place 1) if out_len is
 * below 4 + 32K; 7 (place i) if byte i after the dimension is the first that is a digit not below q or a T past the list. */
ek_answer ek_decode(ek_settings settings, const int32_t *steps, size_t steps_len, const uint8_t *in, size_t in_len, uint8_t *out,
                    size_t out_len);

/* One reading of a report: as taken X/1024, as decoded s e / 2048, and taken minus decoded, all exact. */
typedef struct {
    float taken, decoded, difference;
} ek_reading;

/* A report on one block. */
typedef struct {
    uint64_t number, place;
    ek_reading reading[8];
} ek_report_answer;

/* Reports what coding does to a block of eight readings in whole units of 1/1024.
 * Refuses 1 (place 0) unless the settings are allowed; 2 (place 0) unless the step list keeps its rule; 3 (place 0) if units_len is
 * not 8; 5 (place i) if units[i] is the first past 2^24 in magnitude; 6 (place 0) if no step of the list fits. */
ek_report_answer ek_report(ek_settings settings, const int32_t *steps, size_t steps_len, const int32_t *units, size_t units_len);

/* ---- scores
 *
 * The whole point of a coded block is the doubled point e of its digits; s is the step that its T names. Every score is exact. */

/* The pair score of two bvecs records of as many blocks, each with its own step list: the sum over blocks of s0 s1 times the inner
 * product of their whole points, not doubled, in units of 1/1024 squared.
 * Refuses 1 (place 0) unless the settings are allowed; 2 (place 0 or 1) unless steps0 and then steps1 keep the rule; then for
 * record0 10 (place 0) if record0_len is below 4, the dimension is not K(8m+1) with K from 1 to 64 or record0_len is below 4 plus
 * the dimension, and 7 (place i) if byte i after the dimension is the first that is a digit not below q or a T past the list; then
 * the same for record1, whose K must be that of record0. */
ek_answer ek_pair_score(ek_settings settings, const int32_t *steps0, size_t steps0_len, const uint8_t *record0, size_t record0_len,
                        const int32_t *steps1, size_t steps1_len, const uint8_t *record1, size_t record1_len);

/* The query score of the readings of an fvecs record with a bvecs record: the sum over blocks of s times the sum of X[i] e[i], X the
 * readings in whole units, in halves of 1/1024 squared.
 * Refuses 1 (place 0) unless the settings are allowed; 2 (place 0) unless the step list keeps its rule; 10 (place 0), 4 (place i)
 * and 5 (place i) for the query as ek_encode does; then for the record 10 (place 0) if it is cut short or its dimension is not
 * K(8m+1) with the K of the query, and 7 (place i) as ek_decode does. */
ek_answer ek_query_score(ek_settings settings, const int32_t *steps, size_t steps_len, const uint8_t *query, size_t query_len,
                         const uint8_t *record, size_t record_len);

/* ---- tables
 *
 * Layers are looked up by their entry number: digit k of eight, counted from 0, times q^k, together. Entries past the last one
 * filled stay; a refusal leaves the whole table as found. */

/* Fills the pair table, for q = 2 only: entry 256 i + j is the inner product of the layer points with the entry numbers i and j, not
 * doubled. Answers 65536.
 * Refuses 1 (place 0) unless the settings are allowed; 8 (place 0) if q is not 2; 3 (place 2) if table_len is below 65536. */
ek_answer ek_fill_pair_table(ek_settings settings, int8_t *table, size_t table_len);

/* Fills the query table of the readings of an fvecs record, for q = 2, 3 and 4: block k has the q^8 entries from k q^8 on, and entry
 * i of them is the sum of X[j] l[j], l the doubled layer point with the entry number i. Answers K q^8.
 * Refuses 1 (place 0) unless the settings are allowed; 8 (place 0) if q is past 4; 10 (place 0) for the query as ek_encode does;
 * 3 (place 2) if table_len is below K q^8; 4 (place i) and 5 (place i) for the query's readings as ek_encode does. */
ek_answer ek_fill_query_table(ek_settings settings, const uint8_t *query, size_t query_len, int32_t *table, size_t table_len);

/* The pair score by a table of 65536 entries, for q = 2 only: it sums what the table holds, whatever that is, entry 256 i + j for
 * layer i of record0 and j of record1 weighted by q to the sum of the layers' numbers and by both steps. Over a table that
 * ek_fill_pair_table filled it is the pair score.
 * Refuses 1 and 2 as ek_pair_score does; 8 (place 0) if q is not 2; 3 (place 2) if table_len is below 65536; then 10 and 7 as
 * ek_pair_score does. */
ek_answer ek_pair_score_by_table(ek_settings settings, const int32_t *steps0, size_t steps0_len, const uint8_t *record0,
                                 size_t record0_len, const int32_t *steps1, size_t steps1_len, const uint8_t *record1,
                                 size_t record1_len, const int8_t *table, size_t table_len);

/* The query score by a table of K q^8 entries, for q = 2, 3 and 4: it sums what the table holds, whatever that is, weighted by q^k for
 * layer k and by the steps. Over a table that ek_fill_query_table filled it is the query score.
 * Refuses 1 (place 0) unless the settings are allowed; 2 (place 0) unless the step list keeps its rule; 8 (place 0) if q is past 4;
 * 10 (place 0) for the record as ek_decode does; 3 (place 2) if table_len is below K q^8, K the record's; 7 (place i) as ek_decode
 * does. */
ek_answer ek_query_score_by_table(ek_settings settings, const int32_t *steps, size_t steps_len, const uint8_t *record,
                                  size_t record_len, const int32_t *table, size_t table_len);

/* ---- a store
 *
 * A store is bvecs records one after the other, to the buffer's end. */

/* The best hour: the number of a stored record, from 0, and its query score. */
typedef struct {
    uint64_t number, place, hour;
    int64_t score;
} ek_hour;

/* The stored record with the greatest query score, the earliest of equals.
 * Refuses 1 (place 0) unless the settings are allowed; 2 (place 0) unless the step list keeps its rule; 10 (place 0), 4 (place i)
 * and 5 (place i) for the query as ek_encode does; 11 (place 0) if the store has no byte; then for each stored record in turn
 * 10 (place o), o the offset of the record in the store, if it is cut short or its dimension is not K(8m+1) with the K of the
 * query, and 7 (place o + 4 + i) if its byte i after the dimension is the first that is a digit not below q or a T past the list.
 * Every record is checked, also those after the best one. */
ek_hour ek_best_hour(ek_settings settings, const int32_t *steps, size_t steps_len, const uint8_t *query, size_t query_len,
                     const uint8_t *store, size_t store_len);

/* The same answer by a table that is filled in the lent room and then holds what ek_fill_query_table leaves; for q = 2, 3 and 4.
 * It is the faster way where many records are stored: from some hundreds on for q = 2 and 3, some thousands for q = 4. It takes 26 KB of
 * stack more.
 * Refuses as ek_best_hour does, and after 2: 8 (place 0) if q is past 4; after the query's 10: 3 (place 2) if table_len is below
 * K q^8. */
ek_hour ek_best_hour_with_table(ek_settings settings, const int32_t *steps, size_t steps_len, const uint8_t *query,
                                size_t query_len, const uint8_t *store, size_t store_len, int32_t *table, size_t table_len);

#ifdef __cplusplus
}
#endif

#endif
