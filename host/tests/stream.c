/*
 * The straight-through reader from C: what each call answers, part by part; random streams cut at random, read by both readers side by side;
 * packets around M in pieces of 4 KiB; every refusal with what it leaves; hostile and foreign states. Each buffer ends at a page that may not
 * be touched.
 */
#include "lend.h"
#include "limits.h"
#include "mishkeldur.h"

enum { M = MK_MAX_PAYLOAD, OLD_ENDS = 0x77 };

/* One call, with its lent numbers stale before it. */
typedef struct {
    uint8_t status, ends;
    size_t used, place, len;
} passed;

static passed pass(uint8_t *state, size_t state_len, const uint8_t *src, size_t n)
{
    passed p = {0, OLD_ENDS, STALE, STALE, STALE};
    p.status = mk_stream_read(state, state_len, src, n, &p.used, &p.place, &p.len, &p.ends);
    if (p.status == MK_OK)
        CHECK(p.used <= n && p.place <= p.used && p.len == p.used - p.place && p.ends <= 1, "used %zu, place %zu, length %zu", p.used, p.place, p.len);
    else
        CHECK(p.place == STALE && p.len == STALE && p.ends == OLD_ENDS, "written on %s", mk_refusal_text(p.status));
    CHECK(p.status == MK_OK || p.status == MK_NEED_MORE ? p.used <= n : p.used == 0, "used %zu of %zu on %d", p.used, n, p.status);
    return p;
}

static void open_stream(uint8_t *state, size_t limit, uint8_t number)
{
    CHECK(mk_stream_open(state, MK_STREAM_SIZE, limit) == MK_OK, "limit %zu", limit);
    CHECK(mk_stream_seq_id(state, MK_STREAM_SIZE, number) == MK_OK, "number %d", number);
}

/* ---- opening, short states */

static void opening(void)
{
    for (size_t i = 0; i < LIMITS; i++) {
        lent s = lend_end(MK_STREAM_SIZE);
        bool good = limits[i].status == MK_OK;
        CHECK(mk_stream_open(s.at, s.len, limits[i].limit) == limits[i].status, "limit %zu", limits[i].limit);
        CHECK(s.at[0] == 0x53 && s.at[1] == !good, "limit %zu", limits[i].limit);
        for (size_t k = 32; k < MK_STREAM_SIZE; k++) CHECK(s.at[k] == CANARY, "byte %zu is not a stream's", k);
        passed p = pass(s.at, s.len, (const uint8_t *)"\1\0\0\0a", 5);
        CHECK(p.status == (good ? MK_OK : MK_CLOSED) && p.used == (good ? 5u : 0u), "limit %zu: %d", limits[i].limit, p.status);
        CHECK(!good || (p.place == 4 && p.len == 1 && p.ends == 1), "limit %zu", limits[i].limit);
        /* A number opens nothing. */
        CHECK(mk_stream_seq_id(s.at, s.len, 0) == MK_OK, "limit %zu", limits[i].limit);
        CHECK(pass(s.at, s.len, NULL, 0).status == (good ? MK_NEED_MORE : MK_CLOSED), "limit %zu", limits[i].limit);
        lend_back(s);
    }
}

static void short_states(void)
{
    for (size_t n = 0; n < MK_STREAM_SIZE; n++) {
        lent s = lend_end(n);
        uint8_t copy[MK_STREAM_SIZE];
        random_fill(s.at, n);
        memcpy(copy, s.at, n);
        uint8_t *at = n == 0 ? NULL : s.at;
        CHECK(mk_stream_open(at, n, 10) == MK_NO_ROOM, "%zu", n);
        /* 6 comes before 1. */
        CHECK(mk_stream_open(at, n, 0) == MK_NO_ROOM, "%zu", n);
        CHECK(mk_stream_seq_id(at, n, 3) == MK_NO_ROOM, "%zu", n);
        CHECK(pass(at, n, copy, n).status == MK_NO_ROOM, "%zu", n);
        CHECK(memcmp(s.at, copy, n) == 0, "%zu", n);
        lend_back(s);
    }
}

/* ---- calls that are known, one by one */

typedef struct {
    const char *bytes;
    size_t n;
    uint8_t status, ends;
    size_t used, place, len;
} call;

#define NEED(bytes, n) {bytes, n, MK_NEED_MORE, OLD_ENDS, n, STALE, STALE}
#define NOT(bytes, n, status) {bytes, n, status, OLD_ENDS, 0, STALE, STALE}
#define PART(bytes, n, used, place, ends) {bytes, n, MK_OK, ends, used, place, used - place}

static const struct {
    const char *name;
    size_t limit;
    call calls[8];
} known[] = {
    {"a whole chunk", 9, {PART("\3\0\0\0abc", 7, 7, 4, 1)}},
    {"no further than its end", 9, {PART("\3\0\0\0abc\0\0\0\1", 11, 7, 4, 1), PART("\0\0\0\1", 4, 4, 4, 1)}},
    {"in pieces", 9, {NEED("\3", 1), NEED("\0\0", 2), PART("\0a", 2, 2, 1, 0), PART("b", 1, 1, 0, 0), PART("c\1", 2, 1, 0, 1), NEED("\1", 1)}},
    {"a header alone", 9, {PART("\3\0\0\0", 4, 4, 4, 0), NEED("", 0), PART("abc", 3, 3, 0, 1)}},
    {"a header's last byte alone", 9, {NEED("\1\0\0", 3), PART("\0", 1, 1, 1, 0), PART("a", 1, 1, 0, 1)}},
    {"an empty packet", 9, {PART("\0\0\0\0", 4, 4, 4, 1), PART("\0\0\0\1", 4, 4, 4, 1)}},
    {"out of sync, before any payload", 9, {NOT("\3\0\0\1", 4, MK_OUT_OF_SYNC), NOT("\3\0\0\0", 4, MK_CLOSED)}},
    {"out of sync in pieces", 9, {NEED("\3\0\0", 3), NOT("\1", 1, MK_OUT_OF_SYNC), NOT("", 0, MK_CLOSED)}},
    {"an empty one out of sync", 9, {NOT("\0\0\0\1", 4, MK_OUT_OF_SYNC)}},
    {"at the limit", 3, {PART("\3\0\0\0abc", 7, 7, 4, 1)}},
    {"too large, before its number is looked at", 2, {NOT("\3\0\0\7abc", 7, MK_TOO_LARGE), NOT("\1\0\0\0a", 5, MK_CLOSED)}},
    {"too large in pieces", 2, {NEED("\3\0\0", 3), NOT("\0", 1, MK_TOO_LARGE)}},
    {"a full chunk and nothing of it", MK_MAX_LIMIT, {PART("\377\377\377\0", 4, 4, 4, 0), PART("a", 1, 1, 0, 0)}},
};

static void calls(void)
{
    for (size_t i = 0; i < sizeof known / sizeof *known; i++) {
        lent s = lend_end(MK_STREAM_SIZE);
        open_stream(s.at, known[i].limit, 0);
        for (size_t k = 0; k < 8 && known[i].calls[k].bytes; k++) {
            const call *c = &known[i].calls[k];
            lent src = lend_bytes(c->bytes, c->n);
            passed p = pass(s.at, s.len, src.at, src.len);
            CHECK(p.status == c->status && p.used == c->used && p.place == c->place && p.len == c->len && p.ends == c->ends,
                  "%s, call %zu: %s, used %zu", known[i].name, k, mk_refusal_text(p.status), p.used);
            CHECK(c->n == 0 || memcmp(src.at, c->bytes, c->n) == 0, "%s: the bytes lent were changed", known[i].name);
            lend_back(src);
        }
        lend_back(s);
    }
}

/* ---- both readers side by side */

enum { LIMIT = 60, WIRE = 4096, MOST = 40 };

/* What came of one reader: its whole packets, one behind the other, and a refusal if there was one. */
typedef struct {
    uint8_t bytes[WIRE];
    size_t ends[MOST], packets, refused;
} seen;

static void saw_end(seen *s, size_t end)
{
    CHECK(s->packets < MOST, "too many packets");
    s->ends[s->packets++] = end;
}

static size_t seen_bytes(const seen *s) { return s->packets ? s->ends[s->packets - 1] : 0; }

/* A stream of chunks with a few faults: numbers that are wrong, packets that are too large, an end that is cut. */
static size_t make_stream(uint8_t *wire, uint8_t number)
{
    size_t at = 0, packets = 1 + random_below(MOST - 1);
    for (size_t i = 0; i < packets; i++) {
        size_t fault = random_below(120), len = fault == 0 ? LIMIT + 1 + random_below(20) : random_below(12) == 0 ? 0 : random_below(LIMIT + 1);
        if (fault == 1) number++;
        if (fault == 2) number = (uint8_t)random_below(256);
        wire[at] = (uint8_t)len, wire[at + 1] = 0, wire[at + 2] = 0, wire[at + 3] = number++;
        random_fill(wire + at + 4, len);
        at += 4 + len;
    }
    return random_below(4) ? at : random_below(at + 1);
}

/* The waiting reader on all bytes up to `to`; *from is where it stands. */
static void wait_for(uint8_t *state, const uint8_t *wire, size_t to, size_t *from, seen *s)
{
    uint8_t packet[LIMIT];
    while (!s->refused) {
        size_t used = 0, len = 0, at = seen_bytes(s);
        uint8_t r = mk_read(state, MK_STATE_SIZE, wire + *from, to - *from, NULL, 0, packet, sizeof packet, &used, &len);
        *from += used;
        if (r == MK_NEED_MORE) return;
        if (r != MK_OK) {
            s->refused = r;
            return;
        }
        memcpy(s->bytes + at, packet, len);
        saw_end(s, at + len);
    }
}

/* The straight-through one on a piece by itself, which ends at a page that may not be touched. */
static lent pieces;

static void go_through(uint8_t *state, const uint8_t *piece, size_t n, size_t *sofar, seen *s)
{
    const uint8_t *src = memcpy(pieces.at + pieces.len - n, piece, n);
    for (size_t from = 0; from < n && !s->refused;) {
        passed p = pass(state, MK_STREAM_SIZE, src + from, n - from);
        if (p.status == MK_OK) {
            memcpy(s->bytes + *sofar, src + from + p.place, p.len);
            *sofar += p.len;
            if (p.ends) saw_end(s, *sofar);
        } else if (p.status != MK_NEED_MORE) {
            s->refused = p.status;
        }
        CHECK(s->refused || p.used > 0, "a call that used nothing");
        from += p.used;
        if (p.used == 0) break;
    }
}

static void side_by_side(void)
{
    static uint8_t wire[WIRE];
    size_t sooner = 0, refusals = 0;
    pieces = lend_end(WIRE);
    for (size_t i = 0; i < 8000; i++) {
        uint8_t stream[MK_STREAM_SIZE], codec[MK_STATE_SIZE], number = (uint8_t)random_below(256);
        static seen a, b;
        size_t to = 0, from = 0, sofar = 0, step = 1 + random_below(random_below(2) ? 6 : 200), all = make_stream(wire, number);
        memset(&a, 0, sizeof a), memset(&b, 0, sizeof b);
        open_stream(stream, LIMIT, number);
        mk_open(codec, sizeof codec, LIMIT);
        /* The codec's number goes on from 0 only: empty packets move it there. */
        for (uint8_t k = 0; k != number; k++) {
            uint8_t dst[4];
            size_t written;
            CHECK(mk_write(codec, sizeof codec, NULL, 0, dst, sizeof dst, &written) == MK_OK, "stream %zu", i);
        }
        while (to < all) {
            size_t n = 1 + random_below(step);
            if (n > all - to) n = all - to;
            go_through(stream, wire + to, n, &sofar, &a);
            to += n;
            wait_for(codec, wire, to, &from, &b);
            CHECK(a.packets == b.packets && memcmp(a.ends, b.ends, sizeof a.ends) == 0, "stream %zu at %zu: %zu packets, not %zu", i, to, a.packets, b.packets);
            CHECK(memcmp(a.bytes, b.bytes, seen_bytes(&b)) == 0, "stream %zu at %zu: other bytes", i, to);
            if (a.refused == b.refused) continue;
            /* Only 3, only sooner, and only while the waiting reader has the header and not the whole chunk. */
            CHECK(a.refused == MK_OUT_OF_SYNC && b.refused == 0, "stream %zu at %zu: refused %zu, not %zu", i, to, a.refused, b.refused);
            CHECK(to - from >= 4 && to - from < 4u + wire[from], "stream %zu at %zu: sooner than its header, or later than its end", i, to);
            sooner++;
        }
        refusals += a.refused != 0;
        if (a.refused) CHECK(pass(stream, sizeof stream, wire, all).status == MK_CLOSED, "stream %zu goes on after %zu", i, a.refused);
    }
    lend_back(pieces);
    CHECK(refusals > 1000 && sooner > 1000, "too few faults: %zu refusals, %zu sooner", refusals, sooner);
}

/* ---- packets around M, in pieces of 4 KiB */

static uint8_t byte_at(size_t i) { return (uint8_t)(i * 131 + (i >> 8) * 17 + (i >> 16)); }

static void around(size_t n)
{
    size_t room = MK_PLAIN_SIZE(n), limit = n ? n : 1, written = 0, got = 0, wrong = 0, marks = 0;
    lent packet = lend_end(n), wire = lend_end(room);
    uint8_t writer[MK_STATE_SIZE], stream[MK_STREAM_SIZE];
    for (size_t i = 0; i < n; i++) packet.at[i] = byte_at(i);
    mk_open(writer, sizeof writer, limit);
    CHECK(mk_write(writer, sizeof writer, packet.at, n, wire.at, room, &written) == MK_OK && written == room, "%zu", n);
    open_stream(stream, limit, 0);
    for (size_t at = 0, end = 4096; at < room; end += 4096)
        while (at < (end < room ? end : room)) {
            passed p = pass(stream, sizeof stream, wire.at + at, (end < room ? end : room) - at);
            if (p.status == MK_OK) {
                wrong += memcmp(wire.at + at + p.place, packet.at + got, p.len) != 0;
                got += p.len, marks += p.ends;
            }
            CHECK(p.used > 0, "%zu at %zu: %s", n, at, mk_refusal_text(p.status));
            if (p.used == 0) goto out;
            at += p.used;
            CHECK(marks == 0 || at == room, "%zu: marked at %zu of %zu", n, at, room);
        }
    CHECK(got == n && wrong == 0 && marks == 1, "%zu: %zu bytes, %zu marks", n, got, marks);
    /* The numbers went on as the writer's did. */
    CHECK(stream[2] == (uint8_t)(n / M + 1), "%zu: number %d", n, stream[2]);
    /* A limit one lower: 2 at the header that goes beyond it. */
    if (n > 1) {
        size_t at = 0;
        uint8_t r = MK_OK;
        open_stream(stream, limit - 1, 0);
        while (r == MK_OK && at < room) {
            passed p = pass(stream, sizeof stream, wire.at + at, room - at);
            r = p.status, at += p.used;
            CHECK(p.ends != 1, "%zu: marked", n);
        }
        CHECK(r == MK_TOO_LARGE && at == (n - 1) / M * (M + 4), "%zu: %s at %zu", n, mk_refusal_text(r), at);
    }
out:
    lend_back(packet), lend_back(wire);
}

/* ---- what stays */

static void stays(void)
{
    /* A closed state is not touched by a read, whatever its bytes. */
    for (int i = 0; i < 2000; i++) {
        uint8_t state[MK_STREAM_SIZE], copy[MK_STREAM_SIZE], bytes[8] = {0};
        random_fill(state, sizeof state);
        if (i % 2) state[0] = 0x53, state[1] = (uint8_t)(1 + random_below(255));
        if (state[0] == 0x53 && state[1] == 0) continue;
        memcpy(copy, state, sizeof copy);
        CHECK(pass(state, sizeof state, bytes, sizeof bytes).status == MK_CLOSED && memcmp(state, copy, sizeof copy) == 0, "%d", i);
    }
    /* A number changes its own byte and no other, in the middle of a header too. */
    uint8_t state[MK_STREAM_SIZE], copy[MK_STREAM_SIZE];
    memset(state, CANARY, sizeof state);
    open_stream(state, 9, 0);
    CHECK(pass(state, sizeof state, (const uint8_t *)"\1\0", 2).status == MK_NEED_MORE, "a header in part");
    memcpy(copy, state, sizeof copy);
    CHECK(mk_stream_seq_id(state, sizeof state, 200) == MK_OK, "a number");
    copy[2] = 200;
    CHECK(memcmp(state, copy, sizeof copy) == 0, "a number changed more than itself");
    CHECK(pass(state, sizeof state, (const uint8_t *)"\0\310a", 3).status == MK_OK && state[2] == 201, "a number in a header");
    /* A copy is a stream of its own, and what lies behind the state stays. */
    for (size_t k = 32; k < sizeof state; k++) CHECK(state[k] == CANARY, "byte %zu", k);
    CHECK(pass(copy, sizeof copy, (const uint8_t *)"\0\310a", 3).status == MK_OK && memcmp(state, copy, sizeof copy) == 0, "a copy");
}

/* One number serves both ways: a command written by a codec, its answer through a stream. */
static void both_ways(void)
{
    uint8_t codec[MK_STATE_SIZE], stream[MK_STREAM_SIZE], dst[16], number = 0, other;
    size_t n;
    mk_open(codec, sizeof codec, 60);
    open_stream(stream, 60, 0);
    CHECK(mk_write(codec, sizeof codec, (const uint8_t *)"\3x", 2, dst, sizeof dst, &n) == MK_OK, "a command");
    CHECK(mk_look(codec, sizeof codec, &number, &other, &n, &other, &other) == MK_OK && number == 1, "its number");
    CHECK(mk_stream_seq_id(stream, sizeof stream, number) == MK_OK, "told");
    CHECK(pass(stream, sizeof stream, (const uint8_t *)"\1\0\0\1a", 5).status == MK_OK, "the answer");
}

/* ---- foreign states: neither reader takes the other's for its own, and whatever the bytes are, a call ends and stays within */

static void foreign(void)
{
    uint8_t codec[MK_STATE_SIZE] = {0}, zero[MK_STREAM_SIZE] = {0}, packet[8];
    size_t used = 0, len = 0;
    CHECK(pass(zero, sizeof zero, (const uint8_t *)"\0\0\0\0", 4).status == MK_CLOSED, "zeroed");
    mk_open(codec, sizeof codec, 60);
    CHECK(pass(codec, sizeof codec, (const uint8_t *)"\0\0\0\0", 4).status == MK_CLOSED, "a codec's state");
    CHECK(mk_read(codec, sizeof codec, (const uint8_t *)"\0\0\0\0", 4, NULL, 0, packet, sizeof packet, &used, &len) == MK_OK, "and it is still one");
    mk_stream_open(codec, sizeof codec, 60);
    CHECK(mk_read(codec, sizeof codec, (const uint8_t *)"\0\0\0\0", 4, NULL, 0, packet, sizeof packet, &used, &len) == MK_CLOSED, "a stream's state");
    CHECK(pass(codec, sizeof codec, (const uint8_t *)"\0\0\0\0", 4).status == MK_OK, "and it is still one");
    for (int i = 0; i < 50000; i++) {
        uint8_t state[MK_STREAM_SIZE], bytes[40];
        random_fill(state, sizeof state);
        state[0] = 0x53, state[1] = 0; /* else almost all of them would be closed */
        if (random_below(2))           /* small counts */
            for (size_t k = 8; k < 32; k++)
                if (k % 8 > 0) state[k] = 0;
        if (random_below(2)) memset(state + 24, 0, 8);
        size_t n = random_below(sizeof bytes + 1), from = 0;
        random_fill(bytes, n);
        for (size_t k = 0; k < n; k++)
            if (random_below(2)) bytes[k] = 0;
        passed p = {0};
        for (int k = 0; k < 45 && from < n && (p.status == MK_OK || p.status == MK_NEED_MORE); k++, from += p.used) {
            p = pass(state, sizeof state, bytes + from, n - from);
            CHECK(p.status == MK_OK || p.status == MK_NEED_MORE || p.status == MK_TOO_LARGE || p.status == MK_OUT_OF_SYNC, "%d", p.status);
            CHECK(p.used > 0 || p.status == MK_TOO_LARGE || p.status == MK_OUT_OF_SYNC, "nothing used");
        }
        CHECK(from == n || state[1] == 1, "it stopped at %zu of %zu", from, n);
    }
}

int main(void)
{
    opening();
    short_states();
    calls();
    side_by_side();
    static const size_t sizes[] = {0, 1, 2, 250, 4092, 4096, 65535, M - 1, M, M + 1, 2 * (size_t)M, 2 * (size_t)M + 1};
    for (size_t i = 0; i < sizeof sizes / sizeof *sizes; i++) around(sizes[i]);
    stays();
    both_ways();
    foreign();
    return checks_done("stream");
}
