/*
 * Packets that are longer than any buffer: a capture of plain chunks, read straight through 4 KiB. What is said of a packet, and its payload,
 * comes as it is read; until its end is marked nothing vouches for it, and a packet that does not end is an error.
 */
#include "loader.h"

#include <errno.h>
#include <fcntl.h>
#include <inttypes.h>
#include <stdio.h>
#include <string.h>
#include <unistd.h>

enum { PIECE = 4096, HEADER = 4 };

struct through {
    uint8_t state[MK_STREAM_SIZE];
    struct line line; /* the place reached, for messages */
    FILE *report;
    uint64_t wanted; /* the packet whose payload is written; 0: none */
    uint64_t kept;   /* bytes of a header that has not come whole */
    uint64_t bytes, parts, all_bytes, all_parts;
};

static bool no_output(void)
{
    return fail("standard output can't be written: %s", strerror(errno));
}

static bool take_part(struct through *t, const uint8_t *part, size_t len, bool ends)
{
    if (t->line.packets + 1 == t->wanted && fwrite(part, 1, len, stdout) != len)
        return no_output();
    t->bytes += len;
    t->parts++;
    t->line.reading = !ends;
    if (!ends)
        return true;
    t->line.packets++;
    t->all_bytes += t->bytes;
    t->all_parts += t->parts;
    int said = fprintf(t->report, "%" PRIu64 "\t%" PRIu64 "\t%" PRIu64 "\n", t->line.packets, t->bytes, t->parts);
    t->bytes = t->parts = 0;
    return said >= 0 || no_output();
}

static bool take_piece(struct through *t, const uint8_t *bytes, size_t len)
{
    size_t used, place, size;
    uint8_t ends;
    for (size_t from = 0; from < len; from += used) {
        uint8_t status = mk_stream_read(t->state, sizeof t->state, bytes + from, len - from, &used, &place, &size, &ends);
        if (status != MK_OK && status != MK_NEED_MORE) {
            /* The chunk begins where its header does, which may have come in an earlier piece. */
            t->line.taken -= t->kept;
            t->line.reading = true;
            return refused(&t->line, status);
        }
        t->line.taken += used;
        t->kept = status == MK_NEED_MORE ? t->kept + used : 0;
        if (status == MK_OK && !take_part(t, bytes + from + place, size, ends != 0))
            return false;
    }
    return true;
}

/* At least a header, if there is one: its number is the first. */
static ssize_t first_piece(int file, uint8_t *bytes)
{
    size_t len = 0;
    ssize_t got = 1;
    while (len < HEADER && got > 0) {
        got = read_some(file, bytes + len, PIECE - len);
        len += got > 0 ? (size_t)got : 0;
    }
    return got < 0 ? got : (ssize_t)len;
}

static bool read_through(struct through *t, int file)
{
    uint8_t bytes[PIECE];
    ssize_t got = first_piece(file, bytes);
    if (got >= HEADER) {
        uint8_t status = mk_stream_seq_id(t->state, sizeof t->state, bytes[3]);
        if (status != MK_OK)
            return refused(&t->line, status);
    }
    for (; got > 0; got = read_some(file, bytes, sizeof bytes))
        if (!take_piece(t, bytes, (size_t)got))
            return false;
    if (got < 0)
        return false;
    if (t->line.reading || t->kept > 0) {
        t->line.reading = true;
        return refused(&t->line, MK_SHORT);
    }
    return true;
}

static bool closing(const struct through *t)
{
    if (fprintf(t->report, "%" PRIu64 " packets, %" PRIu64 " bytes, %" PRIu64 " parts, in %" PRIu64 " bytes of chunks\n", t->line.packets,
                t->all_bytes, t->all_parts, t->line.taken) < 0)
        return no_output();
    if (t->wanted > t->line.packets)
        return fail("there is no packet %" PRIu64, t->wanted);
    return true;
}

bool stream_capture(const struct options *options)
{
    struct through t = {.line = {.whose = "server"}, .report = options->packet ? stderr : stdout, .wanted = options->packet};
    int file = strcmp(options->capture, "-") == 0 ? STDIN_FILENO : open(options->capture, O_RDONLY);
    if (file < 0)
        return fail("%s can't be opened: %s", options->capture, strerror(errno));
    uint8_t status = mk_stream_open(t.state, sizeof t.state, options->limit);
    bool good = status == MK_OK ? read_through(&t, file) && closing(&t) : refused(&t.line, status);
    if (file != STDIN_FILENO)
        close(file);
    /* What came before a refusal is written too. */
    return fflush(stdout) == 0 ? good : no_output();
}
