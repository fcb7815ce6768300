/* drive P C1,C2,.. W1,W2,.. : works one job in this process and prints, for each contender, its
   name, the least time of one call in seconds, and b1 to bN. With BEFORE defined, before_resolvent of
   another build of the library is one of them, where BEFORE is 12 without its last argument, which
   request 13 gave it; with FLINT defined, the two roads over FLINT are. */
#include <stdio.h>
#include <stdlib.h>
#include <string.h>
#include <time.h>
#include "../bindings/linres.h"
#include "plain.h"
#include "with_flint.h"

typedef int contender(uint32_t p, const uint32_t *c, size_t n, const int32_t *w, size_t r, uint32_t *out);

static uint32_t work[LINRES_WORK];

/* The exported entry, in plain_resolvent's form. */
static int linres(uint32_t p, const uint32_t *c, size_t n, const int32_t *w, size_t r, uint32_t *out)
{
    size_t count;
    uint32_t simple, lists;
    linres_resolvent(p, c, n, w, r, out, LINRES_OUTPUT, work, LINRES_WORK, &count, &simple, &lists);
    return (int)count;
}

#ifdef BEFORE
#if BEFORE == 12
uint32_t before_resolvent(uint32_t p, const uint32_t *f, size_t n, const int32_t *weights, size_t r, uint32_t *out,
                          size_t out_len, uint32_t *work, size_t work_len, size_t *count, uint32_t *simple);
#define LISTS
#else
__typeof__(linres_resolvent) before_resolvent;
#define LISTS , &lists
#endif

static int before(uint32_t p, const uint32_t *c, size_t n, const int32_t *w, size_t r, uint32_t *out)
{
    size_t count;
    uint32_t simple, lists = 0;
    (void)lists;
    before_resolvent(p, c, n, w, r, out, LINRES_OUTPUT, work, LINRES_WORK, &count, &simple LISTS);
    return (int)count;
}
#endif

struct entry {
    const char *name;
    contender *work;
    long calls;                         /* in one batch */
    double spent, best;                 /* in all; for one call */
    int count;
    uint32_t out[MAX_PLACEMENTS];
};

static struct entry entries[] = {
    {.name = "linres", .work = linres},
#ifdef BEFORE
    {.name = "before", .work = before},
#endif
    {.name = "plain", .work = plain_resolvent},
#ifdef FLINT
    {.name = "FLINT/series", .work = flint_series},
    {.name = "FLINT/factors", .work = flint_factors},
#endif
};

enum { ENTRIES = sizeof entries / sizeof *entries, LEAST = 3, ROUNDS = 40 };

static const double BATCH = 20e-6, TURN = 25e-3, ENOUGH = 1;

static double now(void)
{
    struct timespec t;
    clock_gettime(CLOCK_MONOTONIC, &t);
    return t.tv_sec + t.tv_nsec * 1e-9;
}

/* Batches for the length of a turn, one at least. A batch that is too short for the clock is doubled
   and not counted. */
static void turn(struct entry *e, uint32_t p, const uint32_t *c, size_t n, const int32_t *w, size_t r)
{
    double begin = now(), end;
    do {
        double start = now();
        for (long call = 0; call < e->calls; call++)
            e->count = e->work(p, c, n, w, r, e->out);
        end = now();
        double each = (end - start) / e->calls;
        if (end - start < BATCH)
            e->calls *= 2;
        else if (each < e->best)
            e->best = each;
    } while (end - begin < TURN);
    e->spent += end - begin;
}

/* All in turns, so that they meet the same machine: three turns for each, and more until a
   second has passed. */
static void measure(uint32_t p, const uint32_t *c, size_t n, const int32_t *w, size_t r)
{
    for (int i = 0; i < ENTRIES; i++) {
        entries[i].calls = 1;
        entries[i].best = 1e9;
    }
    for (int round = 0; round < ROUNDS; round++)
        for (int i = 0; i < ENTRIES; i++)
            if (round < LEAST || entries[i].spent < ENOUGH)
                turn(&entries[i], p, c, n, w, r);
}

static void print(const struct entry *e)
{
    printf("%s %.12f ", e->name, e->best);
    for (int k = 0; k < e->count; k++)
        printf("%u%c", e->out[k], k + 1 < e->count ? ',' : '\n');
}

static size_t numbers(char *text, long long *values, size_t most)
{
    size_t count = 0;
    for (char *word = strtok(text, ","); word && count < most; word = strtok(NULL, ","))
        values[count++] = atoll(word);
    return count;
}

int main(int argc, char **argv)
{
    long long values[MAX_DEGREE];
    uint32_t c[MAX_DEGREE];
    int32_t w[MAX_WEIGHTS];
    if (argc != 4)
        return 2;
    uint32_t p = strtoul(argv[1], NULL, 10);
    size_t n = numbers(argv[2], values, MAX_DEGREE);
    for (size_t i = 0; i < n; i++)
        c[i] = values[i];
    size_t r = numbers(argv[3], values, MAX_WEIGHTS);
    for (size_t i = 0; i < r; i++)
        w[i] = values[i];
    measure(p, c, n, w, r);
    for (int i = 0; i < ENTRIES; i++)
        print(&entries[i]);
    return 0;
}
