/* Limits around both ends of what an opening takes, and what it says of each. */
#ifndef LIMITS_H
#define LIMITS_H

#include "mishkeldur.h"

static const struct {
    size_t limit;
    uint8_t status;
} limits[] = {{0, MK_BAD_LIMIT}, {1, MK_OK}, {MK_MAX_LIMIT, MK_OK}, {(size_t)MK_MAX_LIMIT + 1, MK_BAD_LIMIT}, {SIZE_MAX, MK_BAD_LIMIT}};

enum { LIMITS = sizeof limits / sizeof *limits };

#endif
