/*
 * How fast the checker of literals is, beside memcpy: 1 MiB of clean text as one literal, and station names as mk_escaped quotes them.
 *
 *   cc -O2 -Ihost/include -o literals host/bench/literals.c host/build/libmishkeldur.a && ./literals NAMES
 *
 * NAMES has one name a line. Each number is the best of 15 rounds, in millions of input bytes a second.
 */
#define _POSIX_C_SOURCE 200809L
#include <mishkeldur.h>
#include <stdio.h>
#include <stdlib.h>
#include <string.h>
#include <time.h>

#define MAX ((size_t)4 << 20)

static uint8_t text[MAX], quoted[2 * MAX], meant[2 * MAX];
static size_t from[100001];

static double seconds(void)
{
    struct timespec t;
    clock_gettime(CLOCK_MONOTONIC, &t);
    return (double)t.tv_sec + (double)t.tv_nsec * 1e-9;
}

/* 0 judges, 1 judges and writes, 2 copies: the literals that stand one behind the other in `quoted`, turn after turn. */
static size_t once(int what, size_t count, uint8_t mode)
{
    size_t sum = 0;
    for (size_t i = 0; i < count; i++) {
        const uint8_t *s = quoted + from[i];
        size_t n = from[i + 1] - from[i], len = 0, place = 0;
        uint8_t r = MK_OK;
        if (what == 0)
            r = mk_literal_len(s, n, mode, &len, &place);
        else if (what == 1)
            r = mk_literal(meant, sizeof meant, s, n, mode, &len, &place);
        else {
            memcpy(meant, s, n);
            __asm__ volatile("" : : "r"(meant) : "memory");
        }
        if (r != MK_OK) {
            printf("literal %zu: %s at %zu\n", i, mk_refusal_text(r), place);
            exit(1);
        }
        sum += len;
    }
    return sum;
}

static double speed(int what, size_t count, uint8_t mode)
{
    double best = 1e9;
    size_t turns = ((size_t)16 << 20) / from[count] + 1;
    for (int round = 0; round < 15; round++) {
        double start = seconds();
        for (size_t t = 0; t < turns; t++) {
            volatile size_t keep = once(what, count, mode);
            (void)keep;
        }
        double took = (seconds() - start) / (double)turns;
        if (took < best) best = took;
    }
    return (double)from[count] / best / 1e6;
}

static void row(const char *what, size_t count, uint8_t mode)
{
    printf("%-28s %7zu literals, %8zu bytes: judge %6.0f MB/s, judge and write %6.0f MB/s, memcpy %6.0f MB/s\n", what, count, from[count],
           speed(0, count, mode), speed(1, count, mode), speed(2, count, mode));
}

int main(int argc, char **argv)
{
    FILE *f = argc == 2 ? fopen(argv[1], "rb") : NULL;
    if (f == NULL) return puts("literals NAMES"), 2;
    size_t n = fread(text, 1, MAX / 2, f);
    fclose(f);

    for (uint8_t mode = 0; mode < 2; mode++) {
        size_t count = 0, at = 0, start = 0;
        for (size_t i = 0; i <= n && count < 100000; i++) {
            if (i != n && text[i] != '\n') continue;
            from[count] = at;
            if (i > start && mk_escaped(quoted, sizeof quoted, at, text + start, i - start, mode, &at) == MK_OK) count++;
            start = i + 1;
        }
        from[count] = at;
        row(mode ? "names, no backslash escapes" : "names, backslash mode", count, mode);
    }
    static uint8_t clean[1 << 20];
    for (size_t i = 0; i < sizeof clean; i++) clean[i] = (uint8_t)(' ' + i % 90 == '\'' || ' ' + i % 90 == '\\' || ' ' + i % 90 == '"' ? 'x' : ' ' + i % 90);
    for (uint8_t mode = 0; mode < 2; mode++) {
        from[0] = 0;
        if (mk_escaped(quoted, sizeof quoted, 0, clean, sizeof clean, mode, &from[1]) != MK_OK || from[1] != sizeof clean + 2) return 1;
        row(mode ? "1 MiB, no backslash escapes" : "1 MiB, backslash mode", 1, mode);
    }
    return 0;
}
