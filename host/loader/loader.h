/*
 * The depot loader: reads a timetable's rows as a server sends them, and queues its trains by their signed offset.
 * Everything that comes from outside (captures, indexes, servers) is tested before it is used; nothing here trusts a size.
 */
#ifndef LOADER_H
#define LOADER_H

#include "mishkeldur.h"

#include <stdbool.h>
#include <stddef.h>
#include <stdint.h>
#include <sys/types.h>

enum { EXIT_REFUSED = 1, EXIT_USAGE = 2 };

enum { DEFAULT_LIMIT = 61440, RECEIVE_SIZE = 65536, SHOWN_NAME = 256 };

struct options {
    size_t limit;
    const char *offset; /* the name of the offset column */
    uint64_t head;      /* how many trains are printed; 0: all */
    const char *capture, *index;
    const char *connect, *user, *password_file, *database, *table;
    bool stored;
    bool stream;     /* packets alone, straight through */
    uint64_t packet; /* with it, the one whose payload is written; 0: none */
    bool rows;       /* an option for rows was given */
};

/* Where a line's bytes come from: fills up to `room` bytes, answers how many; 0 at the end, -1 after it has said what failed. */
typedef ssize_t (*more_bytes)(void *from, uint8_t *bytes, size_t room);

/* One end of a connection: the library's state, the buffers lent to it, and the place reached, for messages. */
struct line {
    uint8_t state[MK_STATE_SIZE];
    size_t limit;
    uint8_t *staging, *packet, *bytes, *out;
    size_t staging_room, bytes_room, out_room;
    size_t len;      /* of the packet read last */
    size_t from, to; /* bytes received and not yet used */
    size_t out_len;  /* of what line_write wrote last */
    more_bytes more;
    void *more_from;
    const char *whose; /* "server" or "client": whose bytes these are */
    uint64_t taken;    /* bytes that the library used */
    uint64_t packets;  /* whole packets handed out */
    bool reading;      /* inside a packet that is not whole */
    uint64_t row;      /* the row being read, from 1; 0: none */
    const char *column;
};

struct train {
    int64_t offset;
    uint64_t row;
};

struct queue {
    struct train *trains;
    size_t count, room;
};

struct columns {
    size_t count;
    size_t offset; /* which of them is the offset */
    uint8_t types[MK_MAX_COLUMNS], signs[MK_MAX_COLUMNS];
    size_t starts[MK_MAX_COLUMNS];
    char names[MK_MAX_COLUMNS][SHOWN_NAME + 1]; /* for messages, cut to what can be shown */
};

struct load {
    const struct options *options;
    struct line line;
    struct columns columns;
    struct queue queue;
    uint64_t rows, nulls, results;
    bool logged_in;
    bool tracking; /* session tracking was agreed at the login */
};

/* report.c: what people see. fail and refused answer false, so that callers can hand it on. */
bool fail(const char *format, ...) __attribute__((format(printf, 1, 2)));
bool refused(const struct line *line, uint8_t status);
bool server_error(const struct load *load);
const char *clean(char *into, size_t room, const uint8_t *bytes, size_t len);
double seconds_now(void);
void progress(const struct load *load);
void progress_clear(void);

/* line.c: packets in and out through the library. */
bool line_open(struct line *line, size_t limit, const char *whose, more_bytes more, void *more_from);
void line_close(struct line *line);
bool line_next(struct line *line);
bool line_write(struct line *line, const uint8_t *packet, size_t len);
bool line_frames_on(struct line *line);
bool line_new_command(struct line *line);
bool line_unread(const struct line *line, size_t *unread);

/* answer.c: what the server answers. */
bool answer_next(struct load *load);
bool answer_read(const struct load *load, uint64_t numbers[MK_ANSWER_NUMBERS]);
bool answer_prepared(struct load *load, uint32_t *statement);
bool answer_rows(struct load *load);

/* capture.c: what is there of a capture's bytes; 0 at the end, -1 after it has said what failed. */
ssize_t read_some(int file, uint8_t *bytes, size_t room);

/* stream.c: the packets of a capture of plain chunks, of any length. */
bool stream_capture(const struct options *options);

/* queue.c */
bool queue_add(struct queue *queue, int64_t offset, uint64_t row);
void queue_sort(struct queue *queue);
bool queue_print(const struct queue *queue, uint64_t head);

/* index.c: a capture's index. */
struct part {
    uint64_t at, len;
};

struct exchange {
    bool framed;
    struct part c2s, s2c;
};

struct capture_index {
    struct exchange *exchanges;
    size_t count;
    bool deprecate_eof, session_track;
};

bool index_read(struct capture_index *index, const char *file);
bool file_read(const char *file, size_t most, uint8_t **bytes, size_t *len);

/* login.c: the host's own login to a server. */
bool login_answer(struct line *line, const struct options *options, uint8_t *packet, size_t room, size_t *len);
bool login_switch(struct line *line, const struct options *options, uint8_t *answer, size_t room, size_t *len);

/* The two ways to load. */
bool load_capture(struct load *load);
bool load_server(struct load *load);

static inline uint32_t little(const uint8_t *bytes, size_t count)
{
    uint32_t value = 0;
    for (size_t i = 0; i < count; i++)
        value |= (uint32_t)bytes[i] << (8 * i);
    return value;
}

#endif
