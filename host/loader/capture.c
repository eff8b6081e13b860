/*
 * Replays a capture: what a server sent, cut into exchanges by the capture's index. The client's commands are written through the
 * same codec, unsent, since one sequence number serves both directions.
 */
#include "loader.h"

#include <errno.h>
#include <fcntl.h>
#include <inttypes.h>
#include <stdio.h>
#include <stdlib.h>
#include <string.h>
#include <unistd.h>

enum { COM_STMT_PREPARE = 0x16, COM_STMT_EXECUTE = 0x17 };
enum { GREETING = 10, AUTH_SWITCH = 0xFE, AUTH_MORE = 0x01 };
enum { COMMANDS_LONGEST = 256 * 1024 * 1024, CLIENT_LIMIT = 65536 };

/* The server's bytes: handed out up to the end of the present exchange, and no further. */
struct tape {
    int file;
    uint64_t at, left;
};

/* The client's bytes of the present exchange, in memory. */
struct commands {
    uint8_t *bytes;
    size_t len, at, left;
};

struct replay {
    struct load *load;
    struct line client;
    struct tape tape;
    struct commands commands;
    struct capture_index index;
    bool framed;
};

ssize_t read_some(int file, uint8_t *bytes, size_t room)
{
    ssize_t got;
    do
        got = read(file, bytes, room);
    while (got < 0 && errno == EINTR);
    if (got < 0)
        fail("the capture can't be read: %s", strerror(errno));
    return got;
}

static ssize_t more_tape(void *from, uint8_t *bytes, size_t room)
{
    struct tape *tape = from;
    if (tape->left == 0)
        return 0;
    ssize_t got = read_some(tape->file, bytes, room < tape->left ? room : (size_t)tape->left);
    if (got > 0) {
        tape->at += (uint64_t)got;
        tape->left -= (uint64_t)got;
    }
    return got;
}

static ssize_t more_commands(void *from, uint8_t *bytes, size_t room)
{
    struct commands *commands = from;
    size_t count = room < commands->left ? room : commands->left;
    memcpy(bytes, commands->bytes + commands->at, count);
    commands->at += count;
    commands->left -= count;
    return (ssize_t)count;
}

/* NAME.s2c.bin, and beside it NAME.index.json and NAME.c2s.bin: takes one ending away and puts another in its place. */
static char *beside(const char *file, const char *ending, const char *other)
{
    size_t len = strlen(file), cut = strlen(ending);
    if (len < cut || strcmp(file + len - cut, ending) != 0) {
        fail("%s should end in %s", file, ending);
        return NULL;
    }
    size_t room = len - cut + strlen(other) + 1;
    char *name = malloc(room);
    if (name)
        snprintf(name, room, "%.*s%s", (int)(len - cut), file, other);
    else
        fail("no memory for a file's name");
    return name;
}

static bool open_files(struct replay *replay, const char *index)
{
    const struct options *options = replay->load->options;
    bool from_stdin = strcmp(options->capture, "-") == 0;
    char *c2s = from_stdin ? beside(index, ".index.json", ".c2s.bin") : beside(options->capture, ".s2c.bin", ".c2s.bin");
    bool good = c2s && index_read(&replay->index, index) && file_read(c2s, COMMANDS_LONGEST, &replay->commands.bytes, &replay->commands.len);
    free(c2s);
    if (!good)
        return false;
    if (replay->index.deprecate_eof)
        return fail("%s: CLIENT_DEPRECATE_EOF was agreed there, and this loader reads answers that end in EOF", index);
    replay->load->tracking = replay->index.session_track;
    if (from_stdin)
        return true;
    replay->tape.file = open(options->capture, O_RDONLY);
    return replay->tape.file >= 0 ? true : fail("%s can't be opened: %s", options->capture, strerror(errno));
}

static bool open_lines(struct replay *replay)
{
    /* No packet of the client is longer than its file; a greeting, which goes through this line too, is short. */
    size_t limit = replay->load->options->limit;
    size_t wanted = replay->commands.len > CLIENT_LIMIT ? replay->commands.len : CLIENT_LIMIT;
    return line_open(&replay->load->line, limit, "server", more_tape, &replay->tape) &&
           line_open(&replay->client, limit < wanted ? limit : wanted, "client", more_commands, &replay->commands);
}

/* The next packet of the client, through both ends: read at the one, written at the other, so that both have the same number. */
static bool client_packet(struct replay *replay)
{
    return line_next(&replay->client) && line_write(&replay->load->line, replay->client.packet, replay->client.len);
}

/* A login: the server speaks first, and each of its packets but the last is answered. */
static bool replay_login(struct replay *replay)
{
    struct line *line = &replay->load->line;
    uint64_t numbers[MK_ANSWER_NUMBERS];
    if (!answer_next(replay->load))
        return false;
    if (line->packet[0] != GREETING)
        return fail("the server's greeting has version %u, not %d", (unsigned)line->packet[0], GREETING);
    for (;;) {
        if (!line_write(&replay->client, line->packet, line->len) || !client_packet(replay) || !answer_next(replay->load))
            return false;
        if (line->packet[0] == MK_ANSWER_OK)
            return replay->load->logged_in = answer_read(replay->load, numbers);
        if (line->packet[0] != AUTH_SWITCH && line->packet[0] != AUTH_MORE)
            return fail("packet %" PRIu64 " has no place in a login", line->packets);
    }
}

static bool bytes_left(struct replay *replay, bool *left)
{
    size_t unread;
    if (!line_unread(&replay->load->line, &unread))
        return false;
    *left = unread > 0 || replay->tape.left > 0;
    return true;
}

/* An answer that is not looked into, but whose packets must be whole and in order. */
static bool other_answer(struct replay *replay)
{
    bool left;
    for (;;) {
        if (!bytes_left(replay, &left))
            return false;
        if (!left)
            return true;
        if (!answer_next(replay->load))
            return false;
    }
}

static bool replay_command(struct replay *replay)
{
    uint32_t statement;
    if (!line_new_command(&replay->load->line) || !line_new_command(&replay->client) || !client_packet(replay))
        return false;
    if (replay->client.len == 0)
        return fail("a command of the client is empty");
    switch (replay->client.packet[0]) {
    case COM_STMT_PREPARE: return answer_prepared(replay->load, &statement);
    case COM_STMT_EXECUTE: return answer_rows(replay->load);
    default: return other_answer(replay);
    }
}

static bool turn_frames(struct replay *replay, size_t i)
{
    bool framed = replay->index.exchanges[i].framed;
    if (framed == replay->framed)
        return true;
    if (i == 0 || !framed)
        return fail("exchange %zu: frames come on after the login, and stay on", i);
    replay->framed = true;
    return line_frames_on(&replay->load->line) && line_frames_on(&replay->client);
}

/* The parts of an exchange must follow those before, with no gap: so the whole capture is read, and each byte once. */
static bool turn_to(struct replay *replay, size_t i)
{
    const struct exchange *exchange = &replay->index.exchanges[i];
    struct commands *commands = &replay->commands;
    if (exchange->s2c.at != replay->tape.at || exchange->c2s.at != commands->at)
        return fail("exchange %zu does not start where the one before ends", i);
    if (exchange->c2s.len > commands->len - commands->at)
        return fail("exchange %zu: the client's bytes end before it does", i);
    replay->tape.left = exchange->s2c.len;
    commands->left = (size_t)exchange->c2s.len;
    return turn_frames(replay, i);
}

static bool exchange_done(struct replay *replay, size_t i)
{
    size_t server, client;
    if (!line_unread(&replay->load->line, &server) || !line_unread(&replay->client, &client))
        return false;
    if (server > 0 || replay->tape.left > 0)
        return fail("exchange %zu: the server's bytes go on behind its answer, after packet %" PRIu64, i, replay->load->line.packets);
    if (client > 0 || replay->commands.left > 0)
        return fail("exchange %zu: the client's bytes go on behind its command", i);
    return true;
}

static bool tape_done(struct replay *replay)
{
    uint8_t byte;
    ssize_t got = read_some(replay->tape.file, &byte, 1);
    if (got > 0)
        return fail("the capture goes on behind its last exchange, at byte %" PRIu64, replay->tape.at);
    return got == 0;
}

static bool replay_all(struct replay *replay)
{
    for (size_t i = 0; i < replay->index.count; i++) {
        if (!turn_to(replay, i) || !(i == 0 ? replay_login(replay) : replay_command(replay)) || !exchange_done(replay, i))
            return false;
    }
    if (!tape_done(replay))
        return false;
    return replay->load->results > 0 || fail("no prepared statement's rows in this capture");
}

bool load_capture(struct load *load)
{
    struct replay replay = {.load = load, .tape.file = STDIN_FILENO};
    const struct options *options = load->options;
    char *own = options->index ? NULL : beside(options->capture, ".s2c.bin", ".index.json");
    const char *index = options->index ? options->index : own;
    bool good = index && open_files(&replay, index) && open_lines(&replay) && replay_all(&replay);
    if (replay.tape.file > STDERR_FILENO)
        close(replay.tape.file);
    line_close(&replay.client);
    free(replay.commands.bytes);
    free(replay.index.exchanges);
    free(own);
    return good;
}
