/*
 * The packet entries from C: sizes around M, every cut of a short stream, every refusal with what it leaves, hostile and foreign
 * states. Each buffer ends at a page that may not be touched.
 */
#include "lend.h"
#include "limits.h"
#include "mishkeldur.h"

enum { M = MK_MAX_PAYLOAD };

typedef struct {
    uint8_t number, frame, framed, closed;
    size_t unread;
} looked;

static looked look(const uint8_t *state)
{
    looked l = {0};
    CHECK(mk_look(state, MK_STATE_SIZE, &l.number, &l.frame, &l.unread, &l.framed, &l.closed) == MK_OK, "look");
    return l;
}

static void open_state(uint8_t *state, size_t limit)
{
    CHECK(mk_open(state, MK_STATE_SIZE, limit) == MK_OK, "limit %zu", limit);
}

/* ---- opening */

static void opening(void)
{
    CHECK(mk_state_size() == MK_STATE_SIZE, "%zu", mk_state_size());
    for (size_t i = 0; i < LIMITS; i++) {
        lent s = lend_end(MK_STATE_SIZE);
        CHECK(mk_open(s.at, s.len, limits[i].limit) == limits[i].status, "limit %zu", limits[i].limit);
        looked l = look(s.at);
        CHECK(l.closed == (limits[i].status != MK_OK) && l.number == 0 && l.frame == 0 && l.unread == 0 && l.framed == 0, "limit %zu", limits[i].limit);
        lend_back(s);
    }
}

/* A slice shorter than a state: 6 from each entry, nothing changed; reading says that it used nothing. */
static void short_states(void)
{
    for (size_t n = 0; n < MK_STATE_SIZE; n++) {
        lent s = lend_end(n);
        uint8_t copy[MK_STATE_SIZE], out[32] = {7}, num = 9;
        size_t used = STALE, len = STALE;
        random_fill(s.at, n);
        memcpy(copy, s.at, n);
        uint8_t *at = n == 0 ? NULL : s.at;
        CHECK(mk_open(at, n, 10) == MK_NO_ROOM, "%zu", n);
        CHECK(mk_frames_on(at, n) == MK_NO_ROOM, "%zu", n);
        CHECK(mk_reset_seq_id(at, n) == MK_NO_ROOM, "%zu", n);
        CHECK(mk_sync_seq_id(at, n) == MK_NO_ROOM, "%zu", n);
        CHECK(mk_look(at, n, &num, &num, &len, &num, &num) == MK_NO_ROOM && num == 9 && len == STALE, "%zu", n);
        CHECK(mk_read(at, n, copy, n, NULL, 0, out, sizeof out, &used, &len) == MK_NO_ROOM && used == 0 && len == STALE, "%zu", n);
        used = STALE;
        CHECK(mk_write(at, n, copy, 3, out, sizeof out, &used) == MK_NO_ROOM && used == STALE, "%zu", n);
        CHECK(memcmp(s.at, copy, n) == 0 && out[0] == 7, "%zu", n);
        lend_back(s);
    }
}

/* ---- packets around M, written and read back, whole and in two calls, and with a buffer one byte short */

static uint8_t byte_at(size_t i) { return (uint8_t)(i * 131 + (i >> 8) * 17 + (i >> 16)); }

static void around(size_t n, bool framed)
{
    size_t limit = n ? n : 1;
    size_t room = framed ? MK_FRAMED_SIZE(n, limit) : MK_PLAIN_SIZE(n);
    lent packet = lend_end(n), wire = lend_end(room), back = lend_end(n), staging = lend_end(framed ? MK_STAGING_SIZE(limit) : 0);
    uint8_t writer[MK_STATE_SIZE], reader[MK_STATE_SIZE];
    size_t written = STALE, used = STALE, len = STALE;
    for (size_t i = 0; i < n; i++) packet.at[i] = byte_at(i);

    open_state(writer, limit);
    if (framed) CHECK(mk_frames_on(writer, sizeof writer) == MK_OK, "%zu", n);
    /* one byte short: 6, and not a byte is written */
    CHECK(mk_write(writer, sizeof writer, packet.at, n, wire.at + 1, room - 1, &written) == MK_NO_ROOM && written == STALE, "%zu", n);
    CHECK(wire.at[0] == CANARY && wire.at[1] == CANARY && wire.at[room - 1] == CANARY, "%zu", n);
    CHECK(mk_write(writer, sizeof writer, packet.at, n, wire.at, room, &written) == MK_OK && written == room, "%zu: %zu", n, written);

    open_state(reader, limit);
    if (framed) mk_frames_on(reader, sizeof reader);
    uint8_t r = mk_read(reader, sizeof reader, wire.at, room, staging.at, staging.len, back.at, n, &used, &len);
    CHECK(r == MK_OK && used == room && len == n, "%zu: %s, used %zu, length %zu", n, mk_refusal_text(r), used, len);
    CHECK(n == 0 || memcmp(packet.at, back.at, n) == 0, "%zu", n);
    /* with frames the writer's plain number is the frame's; the reader's becomes so by sync */
    mk_sync_seq_id(reader, sizeof reader);
    looked a = look(writer), b = look(reader);
    CHECK(a.number == b.number && a.frame == b.frame && b.unread == 0, "%zu: %d %d", n, a.number, b.number);
    if (!framed) CHECK(a.number == (uint8_t)(n / M + 1), "%zu: %d", n, a.number);

    /* cut in two somewhere: the first call says need more, the second goes on with what the first left */
    for (int k = 0; k < 4; k++) {
        size_t cut = k == 0 ? room - 1 : random_below(room);
        open_state(reader, limit);
        if (framed) mk_frames_on(reader, sizeof reader);
        if (n) memset(back.at, 0, n);
        CHECK(mk_read(reader, sizeof reader, wire.at, cut, staging.at, staging.len, back.at, n, &used, &len) == MK_NEED_MORE && used <= cut, "%zu at %zu", n, cut);
        size_t rest = used;
        len = STALE;
        r = mk_read(reader, sizeof reader, wire.at + rest, room - rest, staging.at, staging.len, back.at, n, &used, &len);
        CHECK(r == MK_OK && rest + used == room && len == n, "%zu at %zu: %s", n, cut, mk_refusal_text(r));
        CHECK(n == 0 || memcmp(packet.at, back.at, n) == 0, "%zu at %zu", n, cut);
    }

    /* a packet buffer one byte short: 6, still open, and the same call with more room goes on */
    if (n != 0) {
        open_state(reader, limit);
        if (framed) mk_frames_on(reader, sizeof reader);
        memset(back.at, 0, n);
        CHECK(mk_read(reader, sizeof reader, wire.at, room, staging.at, staging.len, back.at, n - 1, &used, &len) == MK_NO_ROOM, "%zu", n);
        CHECK(look(reader).closed == 0, "%zu", n);
        size_t rest = used;
        CHECK(mk_read(reader, sizeof reader, wire.at + rest, room - rest, staging.at, staging.len, back.at, n, &used, &len) == MK_OK && len == n, "%zu", n);
        CHECK(memcmp(packet.at, back.at, n) == 0, "%zu", n);
        /* a limit one lower: 2 at the header that goes beyond it, and closed for reading and writing */
        if (limit > 1) {
            open_state(reader, limit - 1);
            if (framed) mk_frames_on(reader, sizeof reader);
            CHECK(mk_read(reader, sizeof reader, wire.at, room, staging.at, staging.len, back.at, n, &used, &len) == MK_TOO_LARGE, "%zu", n);
            CHECK(look(reader).closed == 1, "%zu", n);
            CHECK(mk_write(reader, sizeof reader, packet.at, 1, back.at, n, &written) == MK_CLOSED, "%zu", n);
        }
        open_state(writer, limit);
        if (limit > 1) {
            open_state(writer, limit - 1);
            CHECK(mk_write(writer, sizeof writer, packet.at, n, wire.at, room, &written) == MK_TOO_LARGE && look(writer).closed == 0, "%zu", n);
        }
    }
    lend_back(packet);
    lend_back(wire);
    lend_back(back);
    lend_back(staging);
}

/* ---- every cut of a short stream, plain and framed, from every number */

static size_t stream_of(uint8_t *wire, size_t room, bool framed, uint8_t *number)
{
    uint8_t writer[MK_STATE_SIZE];
    size_t at = 0, n;
    open_state(writer, 9);
    if (framed) mk_frames_on(writer, sizeof writer);
    for (size_t k = 0; k < 5; k++) {
        CHECK(mk_write(writer, sizeof writer, (const uint8_t *)"abcdefgh", k, wire + at, room - at, &n) == MK_OK, "%zu", k);
        at += n;
    }
    *number = look(writer).number;
    return at;
}

static void every_cut(bool framed)
{
    uint8_t wire[200], number;
    size_t all = stream_of(wire, sizeof wire, framed, &number);
    for (size_t cut = 0; cut <= all; cut++) {
        for (size_t second = cut; second <= all; second += 3) {
            uint8_t reader[MK_STATE_SIZE];
            lent packet = lend_end(9), staging = lend_end(framed ? MK_STAGING_SIZE(9) : 0);
            size_t ends[3] = {cut, second, all}, at = 0, packets = 0;
            open_state(reader, 9);
            if (framed) mk_frames_on(reader, sizeof reader);
            for (int piece = 0; piece < 3; piece++) {
                for (;;) {
                    size_t used = STALE, len = STALE;
                    lent src = lend_bytes(wire + at, ends[piece] - at);
                    uint8_t r = mk_read(reader, sizeof reader, src.at, src.len, staging.at, staging.len, packet.at, packet.len, &used, &len);
                    lend_back(src);
                    CHECK(used <= ends[piece] - at, "%zu %zu", cut, second);
                    at += used;
                    if (r != MK_OK) {
                        CHECK(r == MK_NEED_MORE && len == STALE, "%zu %zu: %s", cut, second, mk_refusal_text(r));
                        break;
                    }
                    CHECK(len == packets && memcmp(packet.at, "abcdefgh", len) == 0, "%zu %zu: packet %zu", cut, second, packets);
                    packets++;
                }
            }
            CHECK(packets == 5 && at == all && look(reader).number == number, "%zu %zu: %zu packets", cut, second, packets);
            lend_back(packet);
            lend_back(staging);
        }
    }
}

/* ---- every refusal, with what it leaves */

typedef struct {
    const char *what;
    bool framed;
    size_t limit;
    const char *bytes;
    size_t n;
    uint8_t status;
    size_t used;
    bool closes;
} refusal_case;

#define BYTES(s) s, sizeof(s) - 1

static const refusal_case refusals[] = {
    {"plain: wrong number", false, 10, BYTES("\1\0\0\5A"), MK_OUT_OF_SYNC, 0, true},
    {"plain: wrong number, chunk not whole", false, 10, BYTES("\2\0\0\5A"), MK_NEED_MORE, 0, false},
    {"plain: too large before the number", false, 10, BYTES("\13\0\0\5"), MK_TOO_LARGE, 0, true},
    {"plain: an empty chunk with a wrong number", false, 10, BYTES("\0\0\0\1"), MK_OUT_OF_SYNC, 0, true},
    {"frames: length above the limit", true, 10, BYTES("\13\0\0\5\0\0\0"), MK_TOO_LARGE, 0, true},
    {"frames: plain length above the limit comes before 4", true, 10, BYTES("\0\0\0\0\13\0\0"), MK_TOO_LARGE, 0, true},
    {"frames: 4 whatever the number (E4)", true, 10, BYTES("\0\0\0\7\1\0\0"), MK_BAD_FRAME_HEADER, 0, true},
    {"frames: packed, whatever the number", true, 10, BYTES("\1\0\0\7\1\0\0"), MK_PACKED, 0, true},
    {"frames: wrong number", true, 10, BYTES("\5\0\0\7\0\0\0\1\0\0\0A"), MK_OUT_OF_SYNC, 0, true},
    {"frames: wrong number, frame not whole", true, 10, BYTES("\5\0\0\7\0\0\0\1\0\0\0"), MK_NEED_MORE, 0, false},
    {"frames: six bytes", true, 10, BYTES("\1\0\0\7\1\0"), MK_NEED_MORE, 0, false},
    {"frames: an empty frame is taken, and the next one refused", true, 10, BYTES("\0\0\0\0\0\0\0\0\0\0\7\1\0\0"), MK_BAD_FRAME_HEADER, 7, true},
    {"frames: an empty frame with a wrong number", true, 10, BYTES("\0\0\0\3\0\0\0"), MK_OUT_OF_SYNC, 0, true},
    {"frames: the chunk in it has a wrong number", true, 10, BYTES("\5\0\0\0\0\0\0\1\0\0\7A"), MK_OUT_OF_SYNC, 12, true},
};

static void each_refusal(void)
{
    for (size_t i = 0; i < sizeof refusals / sizeof *refusals; i++) {
        const refusal_case *c = &refusals[i];
        lent state = lend_end(MK_STATE_SIZE), src = lend_bytes(c->bytes, c->n), staging = lend_end(MK_STAGING_SIZE(c->limit)), packet = lend_end(c->limit);
        size_t used = STALE, len = STALE;
        open_state(state.at, c->limit);
        if (c->framed) mk_frames_on(state.at, state.len);
        uint8_t r = mk_read(state.at, state.len, src.at, src.len, staging.at, staging.len, packet.at, packet.len, &used, &len);
        CHECK(r == c->status && used == c->used && len == STALE, "%s: %s, used %zu", c->what, mk_refusal_text(r), used);
        CHECK(look(state.at).closed == c->closes, "%s", c->what);
        for (size_t k = 0; k < packet.len; k++) CHECK(packet.at[k] == CANARY, "%s: byte %zu of the packet buffer", c->what, k);
        if (c->closes) {
            uint8_t before[MK_STATE_SIZE], out[32];
            memcpy(before, state.at, sizeof before);
            CHECK(mk_read(state.at, state.len, (const uint8_t *)"\0\0\0\0", 4, staging.at, staging.len, packet.at, packet.len, &used, &len) == MK_CLOSED && used == 0, "%s", c->what);
            size_t written = STALE;
            CHECK(mk_write(state.at, state.len, (const uint8_t *)"x", 1, out, sizeof out, &written) == MK_CLOSED && written == STALE, "%s", c->what);
            CHECK(memcmp(before, state.at, sizeof before) == 0, "%s: a closed state was changed", c->what);
            mk_reset_seq_id(state.at, state.len);
            mk_sync_seq_id(state.at, state.len);
            mk_frames_on(state.at, state.len);
            CHECK(look(state.at).closed == 1, "%s: reopened", c->what);
        }
        lend_back(state);
        lend_back(src);
        lend_back(staging);
        lend_back(packet);
    }
}

/* Staging: too short for a frame is 6 and stays open; shorter than what it holds is 6 before all but 7. */
static void staging_room(void)
{
    static const char two[] = "\6\0\0\0\0\0\0\5\0\0\0ab\7\0\0\1\0\0\0cdeXXXX";
    uint8_t state[MK_STATE_SIZE], staging[24], packet[10];
    size_t used, len;
    open_state(state, 10);
    mk_frames_on(state, sizeof state);
    CHECK(mk_read(state, sizeof state, (const uint8_t *)two, 13, staging, 5, packet, 10, &used, &len) == MK_NO_ROOM && used == 0 && !look(state).closed, "used %zu", used);
    CHECK(mk_read(state, sizeof state, (const uint8_t *)two, 13, staging, 24, packet, 10, &used, &len) == MK_NEED_MORE && used == 13 && look(state).unread == 6, "used %zu", used);
    CHECK(mk_read(state, sizeof state, (const uint8_t *)two + 13, 14, staging, 5, packet, 10, &used, &len) == MK_NO_ROOM && used == 0 && look(state).unread == 6, "used %zu", used);
    /* sync does nothing while bytes are unread */
    uint8_t number = look(state).number;
    mk_sync_seq_id(state, sizeof state);
    CHECK(look(state).number == number, "sync with unread bytes");
    CHECK(mk_read(state, sizeof state, (const uint8_t *)two + 13, 14, staging, 24, packet, 10, &used, &len) == MK_OK && used == 14 && len == 5 && memcmp(packet, "abcde", 5) == 0, "used %zu", used);
    CHECK(look(state).unread == 4 && memcmp(staging, "XXXX", 4) == 0, "the unread bytes are at staging's front");
}

/* The known corner of 01: without sync, a one-chunk packet that fills two frames, then a second: 3. With sync: both come. */
static void known_corner(bool with_sync)
{
    uint8_t writer[MK_STATE_SIZE], reader[MK_STATE_SIZE], wire[128], staging[64], packet[8];
    size_t at = 0, n, used, len, got = 0;
    open_state(writer, 8);
    open_state(reader, 8);
    mk_frames_on(writer, sizeof writer);
    mk_frames_on(reader, sizeof reader);
    for (int k = 0; k < 2; k++) {
        CHECK(mk_write(writer, sizeof writer, (const uint8_t *)"12345678", 8, wire + at, sizeof wire - at, &n) == MK_OK && n == 12 + 14, "%zu", n);
        at += n;
    }
    size_t from = 0;
    uint8_t r;
    while ((r = mk_read(reader, sizeof reader, wire + from, at - from, staging, sizeof staging, packet, 8, &used, &len)) == MK_OK) {
        from += used;
        got++;
        if (with_sync) mk_sync_seq_id(reader, sizeof reader);
    }
    if (with_sync)
        CHECK(r == MK_NEED_MORE && got == 2, "%s after %zu", mk_refusal_text(r), got);
    else
        CHECK(r == MK_OUT_OF_SYNC && got == 1, "%s after %zu", mk_refusal_text(r), got);
}

/* A million empty frames in one call, and numbers far beyond 255. */
static void million_frames(void)
{
    enum { COUNT = 1000000 };
    lent src = lend_end((size_t)COUNT * 7);
    uint8_t state[MK_STATE_SIZE], staging[8], packet[2];
    size_t used, len;
    for (size_t i = 0; i < COUNT; i++) {
        memset(src.at + 7 * i, 0, 7);
        src.at[7 * i + 3] = (uint8_t)i;
    }
    open_state(state, 2);
    mk_frames_on(state, sizeof state);
    CHECK(mk_read(state, sizeof state, src.at, src.len, staging, sizeof staging, packet, sizeof packet, &used, &len) == MK_NEED_MORE && used == src.len, "used %zu", used);
    CHECK(look(state).frame == (uint8_t)COUNT, "%d", look(state).frame);
    lend_back(src);
}

/* ---- states that nobody made: whatever their bytes, every call ends and answers, within its buffers */

static void foreign_states(void)
{
    uint8_t zero[MK_STATE_SIZE] = {0}, out[64] = {0};
    size_t used = STALE, len = STALE;
    CHECK(mk_read(zero, sizeof zero, out, 0, NULL, 0, NULL, 0, &used, &len) == MK_CLOSED && used == 0 && len == STALE, "zeroed");
    for (int i = 0; i < 200000; i++) {
        uint8_t state[MK_STATE_SIZE];
        random_fill(state, sizeof state);
        state[0] = 0x4B; /* else almost all of them would be closed */
        if (random_below(2)) /* small counts */
            for (size_t k = 8; k < 48; k++)
                if (k % 8 > 0) state[k] = 0;
        size_t n = random_below(40), m = random_below(40), p = random_below(40);
        uint8_t bytes[40], stage[41], pack[41];
        random_fill(bytes, n);
        for (size_t k = 0; k < n; k++)
            if (random_below(3) == 0) bytes[k] = 0;
        memset(stage, CANARY, sizeof stage);
        memset(pack, CANARY, sizeof pack);
        used = STALE;
        uint8_t r = mk_read(state, sizeof state, bytes, n, stage, m, pack, p, &used, &len);
        CHECK(used <= n && (r <= 13 || r == MK_NEED_MORE), "used %zu of %zu, status %d", used, n, r);
        CHECK(stage[m] == CANARY && pack[p] == CANARY, "past a buffer");
        if (r == MK_OK) CHECK(len <= p, "length %zu of %zu", len, p);
        size_t written = STALE;
        memset(out, CANARY, sizeof out);
        r = mk_write(state, sizeof state, bytes, n, out, 40, &written);
        if (r == MK_OK)
            CHECK(written <= 40, "%zu", written);
        else
            CHECK(written == STALE && out[0] == CANARY, "a refused writer wrote");
        CHECK(out[40] == CANARY, "past a buffer");
    }
}

int main(void)
{
    opening();
    short_states();
    static const size_t sizes[] = {0, 1, 2, 250, 65535, M - 1, M, M + 1, 2 * (size_t)M, 2 * (size_t)M + 1};
    for (size_t i = 0; i < sizeof sizes / sizeof *sizes; i++) {
        around(sizes[i], false);
        around(sizes[i], true);
    }
    every_cut(false);
    every_cut(true);
    each_refusal();
    staging_room();
    known_corner(false);
    known_corner(true);
    million_frames();
    foreign_states();
    return checks_done("packets");
}
