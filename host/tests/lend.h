/*
 * What every test of the C face uses: a count of checks that can fail, and lent buffers that notice whoever reads or writes past
 * them. A slice of `lend_end` ends where a page begins that may not be touched, one of `lend_start` begins where such a page ends,
 * and the rest of its page is filled with a canary that `lend_check` looks at.
 */
#ifndef LEND_H
#define LEND_H

#ifndef _GNU_SOURCE
#define _GNU_SOURCE
#endif
#include <stdbool.h>
#include <stddef.h>
#include <stdint.h>
#include <stdio.h>
#include <stdlib.h>
#include <string.h>
#include <sys/mman.h>
#include <unistd.h>

static unsigned long checks_made;
static unsigned long checks_failed;

#define CHECK(cond, ...)                                                                      \
    do {                                                                                      \
        checks_made++;                                                                        \
        if (!(cond)) {                                                                        \
            checks_failed++;                                                                  \
            fprintf(stderr, "%s:%d: %s: ", __FILE__, __LINE__, #cond);                        \
            fprintf(stderr, __VA_ARGS__);                                                     \
            fputc('\n', stderr);                                                              \
            if (checks_failed > 20) exit(1);                                                  \
        }                                                                                     \
    } while (0)

/* The last line of a test, and its exit status. */
static inline int checks_done(const char *name)
{
    if (checks_failed == 0 && checks_made > 0) {
        printf("%s: %lu checks passed\n", name, checks_made);
        return 0;
    }
    printf("%s: %lu of %lu checks FAILED\n", name, checks_failed, checks_made);
    return 1;
}

#define CANARY 0xA5

typedef struct {
    uint8_t *at;      /* the slice */
    size_t len;
    uint8_t *map;     /* what was mapped: a guard page, data, a guard page */
    size_t mapped;
} lent;

static inline lent lend_mapped(size_t len, bool at_end)
{
    size_t page = (size_t)sysconf(_SC_PAGESIZE);
    size_t data = len ? (len + page - 1) / page * page : page;
    lent l = {NULL, len, NULL, data + 2 * page};
    l.map = mmap(NULL, l.mapped, PROT_READ | PROT_WRITE, MAP_PRIVATE | MAP_ANONYMOUS, -1, 0);
    if (l.map == MAP_FAILED) {
        perror("mmap");
        exit(2);
    }
    memset(l.map + page, CANARY, data);
    if (mprotect(l.map, page, PROT_NONE) != 0 || mprotect(l.map + page + data, page, PROT_NONE) != 0) {
        perror("mprotect");
        exit(2);
    }
    l.at = at_end ? l.map + page + data - len : l.map + page;
    return l;
}

/* Whoever goes past the end, or before the start, is stopped by the machine. */
static inline lent lend_end(size_t len) { return lend_mapped(len, true); }
static inline lent lend_start(size_t len) { return lend_mapped(len, false); }

static inline lent lend_bytes(const void *bytes, size_t len)
{
    lent l = lend_end(len);
    if (len != 0) memcpy(l.at, bytes, len);
    return l;
}

/* Whether the canary around the slice is whole. */
static inline bool lend_whole(lent l)
{
    size_t page = (size_t)sysconf(_SC_PAGESIZE);
    uint8_t *end = l.map + l.mapped - page;
    for (uint8_t *p = l.map + page; p < l.at; p++)
        if (*p != CANARY) return false;
    for (uint8_t *p = l.at + l.len; p < end; p++)
        if (*p != CANARY) return false;
    return true;
}

static inline void lend_back(lent l)
{
    CHECK(lend_whole(l), "a canary was overwritten");
    munmap(l.map, l.mapped);
}

/* Numbers that look like nothing the library writes: to see that a refusal leaves them. */
#define STALE ((size_t)0x5157A1E5157A1E51u)

/* A small generator with a fixed seed: xorshift64*. */
static uint64_t random_state = 0x9E3779B97F4A7C15u;

static inline uint64_t random_u64(void)
{
    random_state ^= random_state >> 12;
    random_state ^= random_state << 25;
    random_state ^= random_state >> 27;
    return random_state * 0x2545F4914F6CDD1Du;
}

static inline size_t random_below(size_t n) { return (size_t)(random_u64() % n); }

static inline void random_fill(uint8_t *at, size_t n)
{
    for (size_t i = 0; i < n; i++) at[i] = (uint8_t)random_u64();
}

#endif
