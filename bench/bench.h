/* What all jobs of the bench share. */
#include <stdio.h>
#include <string.h>

#include "enkhovrag.h"

enum { BLOCKS = 4096 };

/* One way of doing a job: its name, a run over the whole input in nanoseconds an item, and the best run so far. */
struct way {
    const char *name;
    double (*run)(void);
    double best;
};

/* Where runs leave what they have computed. */
extern volatile double sink;

/* A number drawn. */
uint64_t next(void);

/* The time in nanoseconds. */
double now(void);

/* Runs the ways in turn and keeps the best time of each. */
void measure(struct way *ways, int n);

/* Measures the ways, the library's first, and prints the time of each and the library's share of it. */
void compare(const char *job, struct way *ways, int n);

/* Draws a code record of k blocks, with a step list of this length. */
void draw_record(ek_settings settings, size_t steps, size_t k, uint8_t *record);

/* Draws an fvecs record of 8k readings. */
void draw_query(size_t k, uint8_t *query);

/* The ways of a function that the library and each compiler's C have. */
#ifdef CLANG
enum { WAY_COUNT = 3 };
#define WAYS(f) {{"library", run_ek_##f, 0}, {"gcc -O3", run_gcc_##f, 0}, {"clang -O3", run_clang_##f, 0}}
#else
enum { WAY_COUNT = 2 };
#define WAYS(f) {{"library", run_ek_##f, 0}, {"gcc -O3", run_gcc_##f, 0}}
#endif

/* The jobs over records, of scores and tables, and of the best hour. */
void records(void);
void scores(void);
void stores(void);
