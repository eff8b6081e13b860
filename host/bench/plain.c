/* The packet reader and writer in plain C with memcpy: the same tests in the same order and the same state as the library's, for a
 * measure of what the machine can do. */
#include <stddef.h>
#include <stdint.h>
#include <string.h>

#define M 16777215u
#define NEED_MORE 255

typedef struct {
    size_t limit, taken, unread;
    uint32_t head_len, frame_len;
    uint8_t number, head_number, has_head, frame, frame_number, has_frame, framed, closed;
} codec;

static uint32_t u24(const uint8_t *s) { return (uint32_t)s[0] | (uint32_t)s[1] << 8 | (uint32_t)s[2] << 16; }

static void put_u24(uint8_t *d, size_t n) {
    d[0] = (uint8_t)n;
    d[1] = (uint8_t)(n >> 8);
    d[2] = (uint8_t)(n >> 16);
}

size_t pc_size(void) { return sizeof(codec); }

void pc_open(codec *c, size_t limit) {
    memset(c, 0, sizeof *c);
    c->limit = limit;
}

void pc_frames_on(codec *c) { c->framed = 1; }

/* The plain reader: 0 for a packet, NEED_MORE or a refusal. */
static int chunks(codec *c, const uint8_t *src, size_t n, size_t *at, int last_frame, uint8_t *packet, size_t room) {
    for (;;) {
        const uint8_t *s = src + *at;
        size_t left = n - *at;
        if (!c->has_head) {
            if (left < 4) return NEED_MORE;
            c->head_len = u24(s);
            c->head_number = s[3];
            if (c->head_len > 0) {
                if (c->head_len > c->limit - c->taken) return 2;
                c->has_head = 1;
            }
        }
        size_t len = c->head_len;
        if (left - 4 < len || left < 4) return NEED_MORE;
        if (c->head_number != c->number && c->head_number != last_frame) return 3;
        if (room - c->taken < len) return 6;
        memcpy(packet + c->taken, s + 4, len);
        *at += 4 + len;
        c->has_head = 0;
        c->taken += len;
        c->number = (uint8_t)(c->head_number + 1);
        if (len < M) return 0;
        if (*at == n) return NEED_MORE;
    }
}

/* One frame into staging: 0 if it was taken. */
static int frame(codec *c, const uint8_t *src, size_t n, size_t *at, uint8_t *staging, size_t room) {
    const uint8_t *s = src + *at;
    size_t left = n - *at;
    if (!c->has_frame) {
        if (left < 7) return NEED_MORE;
        uint32_t len = u24(s), plain = u24(s + 4);
        if (len > c->limit || plain > c->limit) return 2;
        if (len == 0 && plain > 0) return 4;
        if (plain > 0) return 5;
        c->frame_len = len;
        c->frame_number = s[3];
        c->has_frame = len > 0;
    }
    size_t len = c->frame_len;
    if (left < 7 + len) return NEED_MORE;
    if (c->frame_number != c->frame) return 3;
    if (room - c->unread < len) return 6;
    memcpy(staging + c->unread, s + 7, len);
    c->unread += len;
    c->has_frame = 0;
    c->frame++;
    *at += 7 + len;
    return 0;
}

static int frames(codec *c, const uint8_t *src, size_t n, size_t *at, uint8_t *staging, size_t sroom, uint8_t *packet, size_t room) {
    if (sroom < c->unread) return 6;
    for (;;) {
        if (c->unread > 0) {
            size_t used = 0;
            int got = chunks(c, staging, c->unread, &used, (uint8_t)(c->frame - 1), packet, room);
            if (used > 0) {
                c->unread -= used;
                memmove(staging, staging + used, c->unread);
            }
            if (got != NEED_MORE) return got;
        }
        int got = frame(c, src, n, at, staging, sroom);
        if (got != 0) return got;
    }
}

int pc_read(codec *c, const uint8_t *src, size_t n, uint8_t *staging, size_t sroom, uint8_t *packet, size_t room, size_t *used, size_t *len) {
    *used = 0;
    if (c->closed) return 7;
    int got = c->framed ? frames(c, src, n, used, staging, sroom, packet, room) : chunks(c, src, n, used, -1, packet, room);
    if (got == 0) {
        *len = c->taken;
        c->taken = 0;
    } else if (got != NEED_MORE && got != 6) {
        c->closed = 1;
    }
    return got;
}

static size_t put_chunks(codec *c, const uint8_t *p, size_t n, uint8_t *d) {
    size_t at = 0;
    for (;;) {
        size_t len = n < M ? n : M;
        put_u24(d + at, len);
        d[at + 3] = c->number++;
        memcpy(d + at + 4, p, len);
        at += 4 + len;
        p += len;
        n -= len;
        if (len < M) return at;
    }
}

int pc_write(codec *c, const uint8_t *p, size_t n, uint8_t *d, size_t room, size_t *written) {
    if (c->closed) return 7;
    if (n > c->limit) return 2;
    size_t total = n + 4 * (n / M + 1);
    if (!c->framed) {
        if (room < total) return 6;
        *written = put_chunks(c, p, n, d);
        return 0;
    }
    size_t piece = c->limit < M ? c->limit : M;
    size_t count = (total + piece - 1) / piece;
    if (room < total + 7 * count) return 6;
    /* The stream behind a gap for all headers; then each piece moves up to its place. */
    put_chunks(c, p, n, d + 7 * count);
    size_t in = 7 * count, out = 0, left = total;
    for (size_t i = 0; i < count; i++) {
        size_t len = left < piece ? left : piece;
        if (out + 7 != in) memmove(d + out + 7, d + in, len);
        put_u24(d + out, len);
        d[out + 3] = c->frame++;
        put_u24(d + out + 4, 0);
        out += 7 + len;
        in += len;
        left -= len;
    }
    c->number = c->frame;
    *written = out;
    return 0;
}

/* Bytes as an SQL string literal in backslash mode, byte by byte. */
size_t pc_escaped(uint8_t *d, const uint8_t *s, size_t n) {
    size_t at = 0;
    d[at++] = '\'';
    for (size_t i = 0; i < n; i++) {
        uint8_t b = s[i], e = 0;
        switch (b) {
        case 0: e = '0'; break;
        case '\n': e = 'n'; break;
        case '\r': e = 'r'; break;
        case 0x1a: e = 'Z'; break;
        case '\\': case '\'': case '"': e = b; break;
        default: break;
        }
        if (e) d[at++] = '\\';
        d[at++] = e ? e : b;
    }
    d[at++] = '\'';
    return at;
}
