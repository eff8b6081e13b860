/* Packets in and out: the library's state, the buffers lent to it, and the bytes that wait. */
#include "loader.h"

#include <stdlib.h>
#include <string.h>

/*
 * The library takes a chunk or a frame once it is lent whole, so the receive buffer holds the longest that it can still accept:
 * seven bytes of header, and a payload within the limit.
 */
static size_t receive_room(size_t limit)
{
    size_t longest = MK_FRAME_PIECE(limit) + 7;
    return longest > RECEIVE_SIZE ? longest : RECEIVE_SIZE;
}

bool line_open(struct line *line, size_t limit, const char *whose, more_bytes more, void *more_from)
{
    memset(line, 0, sizeof *line);
    line->limit = limit;
    line->whose = whose;
    line->more = more;
    line->more_from = more_from;
    uint8_t status = mk_open(line->state, sizeof line->state, limit);
    if (status != MK_OK)
        return refused(line, status);
    line->staging_room = MK_STAGING_SIZE(limit);
    line->bytes_room = receive_room(limit);
    line->staging = malloc(line->staging_room);
    line->packet = malloc(limit);
    line->bytes = malloc(line->bytes_room);
    if (!line->staging || !line->packet || !line->bytes)
        return fail("no memory for buffers at the limit %zu", limit);
    return true;
}

void line_close(struct line *line)
{
    free(line->staging);
    free(line->packet);
    free(line->bytes);
    free(line->out);
    memset(line, 0, sizeof *line);
}

static bool line_receive(struct line *line)
{
    memmove(line->bytes, line->bytes + line->from, line->to - line->from);
    line->to -= line->from;
    line->from = 0;
    if (line->to == line->bytes_room)
        return fail("the library asks for more than a whole chunk or frame");
    ssize_t got = line->more(line->more_from, line->bytes + line->to, line->bytes_room - line->to);
    if (got < 0)
        return false;
    if (got == 0)
        return fail("the %s's bytes end after byte %llu, where packet %llu should follow or go on", line->whose,
                    (unsigned long long)(line->taken + line->to), (unsigned long long)line->packets + 1);
    line->to += (size_t)got;
    return true;
}

/* The next whole packet, at the packet buffer's front. */
bool line_next(struct line *line)
{
    line->reading = true;
    for (;;) {
        size_t used = 0;
        uint8_t status = mk_read(line->state, sizeof line->state, line->bytes + line->from, line->to - line->from, line->staging,
                                 line->staging_room, line->packet, line->limit, &used, &line->len);
        line->from += used;
        line->taken += used;
        if (status == MK_OK) {
            line->packets++;
            line->reading = false;
            return true;
        }
        if (status != MK_NEED_MORE)
            return refused(line, status);
        if (!line_receive(line))
            return false;
    }
}

/* The room that a packet needs as chunks or frames; 0 if a size_t can't say. */
static size_t write_room(size_t len, size_t limit)
{
    return len > MK_MAX_LIMIT ? 0 : MK_FRAMED_SIZE(len, limit);
}

bool line_write(struct line *line, const uint8_t *packet, size_t len)
{
    size_t room = write_room(len, line->limit);
    if (room > line->out_room) {
        uint8_t *out = realloc(line->out, room);
        if (!out)
            return fail("no memory for a packet of %zu bytes", len);
        line->out = out;
        line->out_room = room;
    }
    uint8_t status = mk_write(line->state, sizeof line->state, packet, len, line->out, line->out_room, &line->out_len);
    return status == MK_OK ? true : fail("refused %s, writing a packet of %zu bytes", mk_refusal_text(status), len);
}

bool line_frames_on(struct line *line)
{
    uint8_t status = mk_frames_on(line->state, sizeof line->state);
    return status == MK_OK ? true : refused(line, status);
}

/* The bytes that have come and were not asked for yet: received ones, and those of frames in staging. */
bool line_unread(const struct line *line, size_t *unread)
{
    uint8_t number, frame, framed, closed;
    size_t staged;
    uint8_t status = mk_look(line->state, sizeof line->state, &number, &frame, &staged, &framed, &closed);
    if (status != MK_OK)
        return refused(line, status);
    *unread = staged + (line->to - line->from);
    return true;
}

/* Numbers start at 0 with each command. Bytes behind an answer would be taken for the next one's, so there may be none. */
bool line_new_command(struct line *line)
{
    size_t unread = 0;
    if (!line_unread(line, &unread))
        return false;
    if (unread > 0)
        return fail("%zu bytes of the %s follow where its answer has ended, after packet %llu", unread, line->whose,
                    (unsigned long long)line->packets);
    uint8_t status = mk_sync_seq_id(line->state, sizeof line->state);
    if (status == MK_OK)
        status = mk_reset_seq_id(line->state, sizeof line->state);
    return status == MK_OK ? true : refused(line, status);
}
