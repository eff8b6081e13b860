/*
 * How fast trains are put in order, beside qsort on the same offsets: 9,000 of them, a night's load, and 100,000.
 *
 *   cc -O2 -Ihost/include -o queue host/bench/queue.c host/build/libmishkeldur.a && ./queue
 *
 * qsort sorts records of offset and place, and asks for the place where offsets are equal, so that it is stable too; both queues are held against
 * each other. "One by one" is a call of mk_enqueue for each train. Each number is the best of 15 rounds (5 one by one), in milliseconds.
 */
#define _POSIX_C_SOURCE 200809L
#include <mishkeldur.h>
#include <stdio.h>
#include <stdlib.h>
#include <string.h>
#include <time.h>

enum { MOST = 100000, FEW = 10000 };

struct train {
    int64_t offset;
    size_t place;
};

static int64_t came[MOST], offsets[MOST], offsets2[MOST];
static size_t places[MOST], places2[MOST];
static struct train trains[MOST];

static int by_offset(const void *a, const void *b)
{
    const struct train *x = a, *y = b;
    if (x->offset != y->offset) return x->offset < y->offset ? -1 : 1;
    return x->place < y->place ? -1 : x->place > y->place;
}

static double now(void)
{
    struct timespec t;
    clock_gettime(CLOCK_MONOTONIC, &t);
    return (double)t.tv_sec * 1e3 + (double)t.tv_nsec * 1e-6;
}

static void shorter(double *best, double from)
{
    double took = now() - from;
    if (took < *best) *best = took;
}

static void must(int right, const char *what)
{
    if (right) return;
    printf("%s\n", what);
    exit(1);
}

/* A small generator with a fixed seed: xorshift64. */
static uint64_t next(void)
{
    static uint64_t seed = 88172645463325252u;
    seed ^= seed << 13;
    seed ^= seed >> 7;
    seed ^= seed << 17;
    return seed;
}

/* The offsets of n trains: random within a spread, or rising where that is 0. */
static void run(size_t n, uint64_t spread, const char *what)
{
    double order = 1e9, sort = 1e9, word = 1e9, alone = 1e9, from;
    uint8_t ordered = 0;
    for (size_t i = 0; i < n; i++) came[i] = spread ? (int64_t)(next() % spread) - (int64_t)(spread / 2) : (int64_t)i - (int64_t)(n / 2);
    for (int round = 0; round < 15; round++) {
        for (size_t i = 0; i < n; i++) {
            offsets[i] = trains[i].offset = came[i];
            places[i] = trains[i].place = i;
        }
        from = now();
        must(mk_order(offsets, n, places, n, n, offsets2, n, places2, n) == MK_OK, "mk_order refuses");
        shorter(&order, from);
        from = now();
        qsort(trains, n, sizeof *trains, by_offset);
        shorter(&sort, from);
        from = now();
        must(mk_in_order(offsets, n, n, &ordered) == MK_OK && ordered, "it is not in order");
        shorter(&word, from);
        for (size_t i = 0; i < n; i++) must(offsets[i] == trains[i].offset && places[i] == trains[i].place, "qsort has another queue");
    }
    printf("%6zu  %-22s  mk_order %8.3f   qsort %8.3f   %5.2f times   mk_in_order %6.3f", n, what, order, sort, sort / order, word);
    for (int round = 0; n <= FEW && round < 5; round++) {
        size_t count = 0;
        from = now();
        for (size_t i = 0; i < n; i++) must(mk_enqueue(offsets2, n, places2, n, i, came[i], i, &count) == MK_OK, "mk_enqueue refuses");
        shorter(&alone, from);
        must(!memcmp(offsets, offsets2, n * sizeof *offsets) && !memcmp(places, places2, n * sizeof *places), "mk_enqueue makes another queue");
    }
    if (n <= FEW) printf("   one by one %8.3f", alone);
    putchar('\n');
}

int main(void)
{
    static const size_t sizes[] = {9000, MOST};
    for (size_t i = 0; i < 2; i++) {
        run(sizes[i], 172800000000u, "random, over two days");
        run(sizes[i], 100, "random, 100 offsets");
        run(sizes[i], 0, "in order already");
    }
    return 0;
}
