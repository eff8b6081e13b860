/* The queue: trains by their signed offset, and by their row where two are equal. */
#include "loader.h"

#include <inttypes.h>
#include <stdio.h>
#include <stdlib.h>

bool queue_add(struct queue *queue, int64_t offset, uint64_t row)
{
    if (queue->count == queue->room) {
        if (queue->room > SIZE_MAX / 2 / sizeof *queue->trains)
            return fail("more trains than memory can number");
        size_t room = queue->room ? 2 * queue->room : 1024;
        struct train *trains = realloc(queue->trains, room * sizeof *trains);
        if (!trains)
            return fail("no memory for %zu trains", room);
        queue->trains = trains;
        queue->room = room;
    }
    queue->trains[queue->count++] = (struct train){offset, row};
    return true;
}

/* Rows differ, so no two trains are equal here and the order is the stable one, whatever qsort does. */
static int compare(const void *left, const void *right)
{
    const struct train *a = left, *b = right;
    if (a->offset != b->offset)
        return a->offset < b->offset ? -1 : 1;
    return (a->row > b->row) - (a->row < b->row);
}

void queue_sort(struct queue *queue)
{
    if (queue->count > 1)
        qsort(queue->trains, queue->count, sizeof *queue->trains, compare);
}

static void train_print(const struct train *train)
{
    /* The negation is of the unsigned number: it has no value that it can't hold. */
    uint64_t size = train->offset < 0 ? -(uint64_t)train->offset : (uint64_t)train->offset;
    uint64_t seconds = size / 1000000;
    printf("%" PRId64 "\t%s%02" PRIu64 ":%02u:%02u.%06u\t%" PRIu64 "\n", train->offset, train->offset < 0 ? "-" : "", seconds / 3600,
           (unsigned)(seconds / 60 % 60), (unsigned)(seconds % 60), (unsigned)(size % 1000000), train->row);
}

bool queue_print(const struct queue *queue, uint64_t head)
{
    size_t negative = 0;
    for (size_t i = 0; i < queue->count; i++) {
        negative += queue->trains[i].offset < 0;
        if (head == 0 || i < head)
            train_print(&queue->trains[i]);
    }
    printf("%zu of %zu trains have a negative offset\n", negative, queue->count);
    if (fflush(stdout) != 0 || ferror(stdout))
        return fail("the queue could not be written to standard output");
    return true;
}
