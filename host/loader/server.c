/* Loads from a running server: connects, logs in, prepares one SELECT and executes it. */
#include "loader.h"

#include <errno.h>
#include <netdb.h>
#include <stdlib.h>
#include <string.h>
#include <sys/socket.h>
#include <sys/time.h>
#include <sys/un.h>
#include <unistd.h>

enum { TIMEOUT = 30, PACKET_ROOM = 1024 };
enum { COM_QUIT = 0x01, COM_STMT_PREPARE = 0x16, COM_STMT_EXECUTE = 0x17, COM_STMT_CLOSE = 0x19 };
enum { AUTH_SWITCH = 0xFE };

static const char *what_failed(void)
{
    return errno == EAGAIN || errno == EWOULDBLOCK || errno == EINPROGRESS ? "nothing for 30 seconds" : strerror(errno);
}

static ssize_t more_socket(void *from, uint8_t *bytes, size_t room)
{
    ssize_t got;
    do
        got = recv(*(int *)from, bytes, room, 0);
    while (got < 0 && errno == EINTR);
    if (got < 0)
        fail("receiving from the server: %s", what_failed());
    return got;
}

static bool send_all(int server, const uint8_t *bytes, size_t len)
{
    while (len > 0) {
        ssize_t sent = send(server, bytes, len, MSG_NOSIGNAL);
        if (sent < 0 && errno == EINTR)
            continue;
        if (sent < 0)
            return fail("sending to the server: %s", what_failed());
        bytes += sent;
        len -= (size_t)sent;
    }
    return true;
}

static bool send_packet(struct load *load, int server, const uint8_t *packet, size_t len)
{
    return line_write(&load->line, packet, len) && send_all(server, load->line.out, load->line.out_len);
}

/* A socket that gives up after a while: a depot does not wait all night for a server that has stopped. */
static int timed_socket(int family)
{
    const struct timeval timeout = {.tv_sec = TIMEOUT};
    int server = socket(family, SOCK_STREAM, 0);
    if (server >= 0 && (setsockopt(server, SOL_SOCKET, SO_RCVTIMEO, &timeout, sizeof timeout) != 0 ||
                        setsockopt(server, SOL_SOCKET, SO_SNDTIMEO, &timeout, sizeof timeout) != 0)) {
        close(server);
        server = -1;
    }
    return server;
}

static int connect_to(const struct sockaddr *address, socklen_t len, int family)
{
    int server = timed_socket(family);
    if (server >= 0 && connect(server, address, len) != 0) {
        int why = errno;
        close(server);
        errno = why;
        server = -1;
    }
    return server;
}

static int connect_path(const char *path)
{
    struct sockaddr_un address = {.sun_family = AF_UNIX};
    if (strlen(path) >= sizeof address.sun_path) {
        fail("the socket's path is longer than %zu bytes", sizeof address.sun_path - 1);
        return -1;
    }
    memcpy(address.sun_path, path, strlen(path) + 1);
    int server = connect_to((const struct sockaddr *)&address, sizeof address, AF_UNIX);
    if (server < 0)
        fail("connecting to %s: %s", path, what_failed());
    return server;
}

static int connect_host(const char *host, const char *port, const char *shown)
{
    struct addrinfo wanted = {.ai_family = AF_UNSPEC, .ai_socktype = SOCK_STREAM, .ai_flags = AI_NUMERICSERV}, *found = NULL;
    int server = -1, why = getaddrinfo(host, port, &wanted, &found);
    if (why != 0) {
        fail("%s: %s", shown, gai_strerror(why));
        return -1;
    }
    for (const struct addrinfo *at = found; at && server < 0; at = at->ai_next)
        server = connect_to(at->ai_addr, at->ai_addrlen, at->ai_family);
    if (server < 0)
        fail("connecting to %s: %s", shown, what_failed());
    freeaddrinfo(found);
    return server;
}

/* HOST:PORT, [HOST]:PORT for addresses that have colons themselves, or a path. */
static int connect_server(const char *where)
{
    char host[256];
    const char *colon = strrchr(where, ':');
    if (strchr(where, '/'))
        return connect_path(where);
    if (!colon || colon == where || !colon[1] || (size_t)(colon - where) >= sizeof host) {
        fail("%s is neither HOST:PORT nor a socket's path", where);
        return -1;
    }
    size_t len = (size_t)(colon - where), from = 0;
    if (where[0] == '[' && where[len - 1] == ']' && len > 2) {
        from = 1;
        len -= 2;
    }
    memcpy(host, where + from, len);
    host[len] = '\0';
    return connect_host(host, colon + 1, where);
}

static bool log_in(struct load *load, int server)
{
    uint8_t packet[PACKET_ROOM];
    size_t len = 0;
    uint64_t numbers[MK_ANSWER_NUMBERS];
    struct line *line = &load->line;
    if (!answer_next(load) || !login_answer(line, load->options, packet, sizeof packet, &len) ||
        !send_packet(load, server, packet, len) || !answer_next(load))
        return false;
    /* One change of plugin at most: a server that asks again and again would keep us here. */
    if (line->packet[0] == AUTH_SWITCH && (!login_switch(line, load->options, packet, sizeof packet, &len) ||
                                           !send_packet(load, server, packet, len) || !answer_next(load)))
        return false;
    if (line->packet[0] != MK_ANSWER_OK)
        return fail("the server answers the login with a packet of kind 0x%02X", (unsigned)line->packet[0]);
    load->logged_in = answer_read(load, numbers);
    return load->logged_in && (!load->options->stored || line_frames_on(line));
}

static bool command(struct load *load, int server, const uint8_t *packet, size_t len)
{
    return line_new_command(&load->line) && send_packet(load, server, packet, len);
}

/* An identifier between backticks, those inside doubled. Its letters were tested with the options. */
static size_t quote(uint8_t *into, const char *name)
{
    size_t at = 0;
    into[at++] = '`';
    for (; *name; name++) {
        if (*name == '`')
            into[at++] = '`';
        into[at++] = (uint8_t)*name;
    }
    into[at++] = '`';
    return at;
}

static bool prepare(struct load *load, int server, uint32_t *statement)
{
    static const char select[] = "\x16SELECT * FROM ";
    uint8_t packet[PACKET_ROOM];
    size_t len = sizeof select - 1;
    memcpy(packet, select, len);
    len += quote(packet + len, load->options->table);
    return command(load, server, packet, len) && answer_prepared(load, statement);
}

static void put_number(uint8_t *into, uint32_t value)
{
    for (int i = 0; i < 4; i++)
        into[i] = (uint8_t)(value >> (8 * i));
}

static bool load_table(struct load *load, int server)
{
    uint32_t statement = 0;
    /* The statement's number, no cursor, one iteration. */
    uint8_t execute[10] = {COM_STMT_EXECUTE, 0, 0, 0, 0, 0, 1, 0, 0, 0}, end[5] = {COM_STMT_CLOSE}, quit = COM_QUIT;
    if (!prepare(load, server, &statement))
        return false;
    put_number(execute + 1, statement);
    put_number(end + 1, statement);
    if (!command(load, server, execute, sizeof execute) || !answer_rows(load))
        return false;
    if (load->results == 0)
        return fail("the server answers the SELECT without rows or columns");
    return command(load, server, end, sizeof end) && command(load, server, &quit, 1);
}

bool load_server(struct load *load)
{
    int server = connect_server(load->options->connect);
    if (server < 0)
        return false;
    bool good = line_open(&load->line, load->options->limit, "server", more_socket, &server) && log_in(load, server) &&
                load_table(load, server);
    close(server);
    return good;
}
