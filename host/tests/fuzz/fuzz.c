/*
 * A target for libFuzzer: the first byte picks an entry, the next ones its numbers, and the rest is what it reads. Whatever comes, the
 * entry must end, stay within what it was lent (each slice ends at a page that may not be touched) and keep its promises. The proved
 * code is not instrumented; the fuzzer is guided by the branches on its answers here.
 */
#include "../lend.h"
#include "mishkeldur.h"

#define PROMISE(cond)                                                        \
    do {                                                                     \
        if (!(cond)) {                                                       \
            fprintf(stderr, "%s:%d: broken: %s\n", __FILE__, __LINE__, #cond); \
            abort();                                                         \
        }                                                                    \
    } while (0)

enum { MOST = 4096 };

static lent source, staging, packet, state;

/* The last n bytes of a lent slice, which end where the guard begins. */
static uint8_t *last(lent l, size_t n) { return l.at + l.len - n; }

typedef struct {
    const uint8_t *at;
    size_t len;
} input;

static uint8_t take(input *in)
{
    if (in->len == 0) return 0;
    in->len--;
    return *in->at++;
}

static const uint8_t *lend_rest(input *in)
{
    size_t n = in->len < MOST ? in->len : MOST;
    in->len = n;
    uint8_t *s = last(source, n);
    if (n != 0) memcpy(s, in->at, n);
    return s;
}

/* A different way through this function for each status, so that the fuzzer sees that something new was answered. */
static volatile unsigned seen[256];
static void note(uint8_t status)
{
    switch (status) {
#define CASE(n) case n: seen[n]++; break;
        CASE(0) CASE(1) CASE(2) CASE(3) CASE(4) CASE(5) CASE(6) CASE(7) CASE(8) CASE(9) CASE(10) CASE(11) CASE(12) CASE(13) CASE(14) CASE(255)
    default: PROMISE(!"a status that is none");
    }
}

/* A connection: opened, or with the bytes of the input as its state; then reads in pieces, with resets, syncs and writes between. */
static void connection(input in, bool foreign)
{
    uint8_t *st = last(state, MK_STATE_SIZE);
    size_t limit = 1 + take(&in) % 64, room = take(&in) % 160, buffer = take(&in) % 80;
    uint8_t habit = take(&in), number, frame, framed, closed;
    size_t unread;
    if (foreign) {
        for (size_t i = 0; i < MK_STATE_SIZE; i++) st[i] = take(&in);
        if (habit & 1) st[0] = 0x4B;
    } else {
        PROMISE(mk_open(st, MK_STATE_SIZE, limit) == MK_OK);
        if (habit & 1) PROMISE(mk_frames_on(st, MK_STATE_SIZE) == MK_OK);
        if (habit & 2) room = MK_STAGING_SIZE(limit), buffer = limit;
    }
    size_t step = habit & 4 ? 1 + habit / 8 : MOST, from = 0, to = 0, all;
    const uint8_t *src = lend_rest(&in);
    all = in.len;
    while (to < all) {
        to = all - to < step ? all : to + step;
        for (int calls = 0; calls < 64; calls++) {
            size_t used = STALE, len = STALE;
            uint8_t *g = last(staging, room), *p = last(packet, buffer);
            uint8_t r = mk_read(st, MK_STATE_SIZE, src + from, to - from, g, room, p, buffer, &used, &len);
            note(r);
            PROMISE(used <= to - from);
            PROMISE(r == MK_OK ? len <= buffer : len == STALE);
            PROMISE(foreign || !(habit & 2) || r != MK_NO_ROOM);
            PROMISE(mk_look(st, MK_STATE_SIZE, &number, &frame, &unread, &framed, &closed) == MK_OK);
            PROMISE(r != MK_TOO_LARGE && r != MK_OUT_OF_SYNC && r != MK_BAD_FRAME_HEADER && r != MK_PACKED ? true : closed == 1);
            PROMISE(r != MK_CLOSED || (used == 0 && closed == 1));
            PROMISE(r != MK_NO_ROOM || closed == 0);
            from += used;
            if (r != MK_OK) break;
            if (habit & 16) mk_sync_seq_id(st, MK_STATE_SIZE);
            if (habit & 32) {
                size_t n = STALE;
                uint8_t w = mk_write(st, MK_STATE_SIZE, p, len, last(source, 0), 0, &n);
                note(w);
                PROMISE(w != MK_OK && n == STALE);
            }
        }
    }
}

/* A stream: opened, or with the bytes of the input as its state; then the rest in pieces, each to its end or to a refusal, with numbers between. */
static void through(input in, bool foreign)
{
    uint8_t *st = last(state, MK_STREAM_SIZE), habit = take(&in), limit = take(&in);
    if (foreign) {
        for (size_t i = 0; i < MK_STREAM_SIZE; i++) st[i] = take(&in);
        if (habit & 1) st[0] = 0x53, st[1] = 0;
    } else {
        PROMISE(mk_stream_open(st, MK_STREAM_SIZE, 1 + (size_t)limit) == MK_OK);
    }
    size_t step = habit & 4 ? 1 + habit / 8 : MOST, sofar = 0;
    const uint8_t *src = lend_rest(&in);
    for (size_t from = 0, to = 0; to < in.len;) {
        to = in.len - to < step ? in.len : to + step;
        while (from < to) {
            size_t used = STALE, place = STALE, len = STALE;
            uint8_t ends = 7, r = mk_stream_read(st, MK_STREAM_SIZE, src + from, to - from, &used, &place, &len, &ends);
            note(r);
            PROMISE(r == MK_OK || (place == STALE && len == STALE && ends == 7));
            if (r != MK_OK && r != MK_NEED_MORE) {
                PROMISE(used == 0 && mk_stream_read(st, MK_STREAM_SIZE, src, in.len, &used, &place, &len, &ends) == MK_CLOSED);
                return;
            }
            PROMISE(used > 0 && used <= to - from);
            PROMISE(r == MK_OK ? ends <= 1 && place <= used && len == used - place : used == to - from);
            sofar = r == MK_OK ? sofar + len : sofar;
            PROMISE(foreign || sofar <= 1 + (size_t)limit);
            if (r == MK_OK && ends) sofar = 0;
            from += used;
            if (habit & 2) PROMISE(mk_stream_seq_id(st, MK_STREAM_SIZE, src[0]) == MK_OK);
        }
    }
}

/* A packet written and read back is the packet, with frames or without. */
static void round_trip(input in)
{
    uint8_t writer[MK_STATE_SIZE], reader[MK_STATE_SIZE];
    size_t limit = 1 + take(&in), n, used, len = STALE, written = STALE;
    bool framed = take(&in) & 1;
    const uint8_t *p = lend_rest(&in);
    n = in.len < limit ? in.len : limit;
    static uint8_t wire[8192];
    mk_open(writer, sizeof writer, limit);
    mk_open(reader, sizeof reader, limit);
    if (framed) mk_frames_on(writer, sizeof writer), mk_frames_on(reader, sizeof reader);
    size_t need = framed ? MK_FRAMED_SIZE(n, limit) : MK_PLAIN_SIZE(n);
    PROMISE(need <= sizeof wire);
    PROMISE(mk_write(writer, sizeof writer, p, n, wire, need - 1, &written) == MK_NO_ROOM && written == STALE);
    PROMISE(mk_write(writer, sizeof writer, p, n, wire, need, &written) == MK_OK && written == need);
    uint8_t *b = last(packet, limit), *g = last(staging, MK_STAGING_SIZE(limit));
    PROMISE(mk_read(reader, sizeof reader, wire, need, g, MK_STAGING_SIZE(limit), b, limit, &used, &len) == MK_OK);
    PROMISE(used == need && len == n && memcmp(b, p, n) == 0);
}

static void values(input in, uint8_t which)
{
    size_t at = take(&in), a = 0, b = 0, c = 0, d = 0, e = 0, list[32];
    uint8_t type = take(&in), sign = take(&in), k = 0, x[4], types[32], signs[32];
    for (int i = 0; i < 32; i++) types[i] = (uint8_t)(type + i * sign), signs[i] = sign;
    const uint8_t *s = lend_rest(&in);
    size_t n = in.len;
    uint64_t u = 0;
    int64_t z = 0;
    uint32_t w[2];
    uint16_t y = 0;
    uint8_t r = 0;
    switch (which % 10) {
    case 0: r = mk_lenenc_int(s, n, at, &u, &a); PROMISE(r || a <= n); break;
    case 1: r = mk_lenenc_str(s, n, at, &a, &b); PROMISE(r || (a <= n && b <= n - a)); break;
    case 2: r = mk_read_duration(s, n, at, &z, &a); PROMISE(r || (a <= n && z >= -INT64_MAX)); break;
    case 3: r = mk_read_value(s, n, at, type, sign, &k, &z, &u, &a, &b, &c); PROMISE(r || c <= n || (c == at && k == MK_NULL)); break;
    case 4: r = mk_read_text(s, n, at, &k, &a, &b, &c); PROMISE(r || c <= n); break;
    case 5: r = mk_read_date(s, n, at, &y, &k, &x[0], &x[1], &x[2], &x[3], &w[0], &a); PROMISE(r || a <= n); break;
    case 6: r = mk_read_row(s, n, types, 1 + at % 32, signs, 1 + at % 32, list, 32, &a, &b); PROMISE(r || (a <= 32 && b <= n)); break;
    case 7: r = mk_read_params(s, n, types, 1 + at % 32, signs, 1 + at % 32, list, 32, &a, &b); PROMISE(r || (a <= 32 && b <= n)); break;
    case 8: r = mk_read_record(s, n, type, &a, &b, &k, &c); PROMISE(r || c <= n); break;
    default: r = mk_next_variable(s, n, at, &k, &a, &b, &c, &d, &e); PROMISE(r || k == 0 || (e > at && e <= n)); break;
    }
    note(r);
}

/* What was quoted is as long as was said, and has its quotes. */
static void quoting(input in)
{
    uint8_t mode = take(&in);
    const uint8_t *s = lend_rest(&in);
    size_t len = 0, next = STALE;
    PROMISE(mk_escaped_len(s, in.len, mode, &len) == MK_OK && len >= in.len + 2 && len <= 2 * in.len + 2);
    lent d = staging;
    if (len > d.len) return;
    PROMISE(mk_escaped(last(d, len), len, 1, s, in.len, mode, &next) == MK_NO_ROOM && next == STALE);
    PROMISE(mk_escaped(last(d, len), len, 0, s, in.len, mode, &next) == MK_OK && next == len);
    PROMISE(last(d, len)[0] == '\'' && last(d, len)[len - 1] == '\'');
}

/* A damaged capture: its stretches lie end to end, and are as many as was said; a list that is one number short gets none. */
static void salvage(input in)
{
    size_t limit = 1 + take(&in), at = 0, asked = STALE, count = STALE, list[MK_STRETCH_NUMBERS * MK_MOST_STRETCHES(MOST)];
    const uint8_t *s = lend_rest(&in);
    PROMISE(mk_stretches(limit, s, in.len, &asked) == MK_OK && asked <= MK_MOST_STRETCHES(in.len));
    size_t room = MK_STRETCH_NUMBERS * asked;
    PROMISE(asked == 0 || (mk_salvage(limit, s, in.len, list, room - 1, &count) == MK_NO_ROOM && count == STALE));
    PROMISE(mk_salvage(limit, s, in.len, list, room, &count) == MK_OK && count == asked);
    for (size_t i = 0; i < room; i += MK_STRETCH_NUMBERS) {
        PROMISE(list[i] <= MK_GOOD && list[i + 1] == at && list[i + 2] > 0);
        at += list[i + 2];
        if (list[i] == MK_LOST) note((uint8_t)list[i + 3]);
    }
    PROMISE(at == in.len);
}

/* The bytes that an OK's numbers make again: those that were used, where each length in them had its shortest form. */
static void put_again(const uint8_t *s, const uint64_t *a, uint8_t tracking)
{
    static uint8_t wire[MOST + 32];
    size_t n = STALE;
    uint64_t b[MK_ANSWER_NUMBERS];
    PROMISE(mk_put_ok(wire, sizeof wire, 0, a[MK_ANSWER_ROWS], a[MK_ANSWER_INSERT_ID], (uint16_t)a[MK_ANSWER_STATUS],
                      (uint16_t)a[MK_ANSWER_WARNINGS], s + a[MK_ANSWER_MESSAGE], a[MK_ANSWER_MESSAGE_LEN], s + a[MK_ANSWER_RECORDS],
                      a[MK_ANSWER_RECORDS_LEN], tracking, &n) == MK_OK);
    PROMISE(mk_read_answer(wire, n, tracking, b, MK_ANSWER_NUMBERS) == MK_OK && b[MK_ANSWER_USED] == n);
    for (size_t i = MK_ANSWER_STATUS; i < MK_ANSWER_MESSAGE; i++) PROMISE(a[i] == b[i]);
    PROMISE(a[MK_ANSWER_MESSAGE_LEN] == b[MK_ANSWER_MESSAGE_LEN] && a[MK_ANSWER_RECORDS_LEN] == b[MK_ANSWER_RECORDS_LEN]);
    PROMISE(memcmp(s + a[MK_ANSWER_MESSAGE], wire + b[MK_ANSWER_MESSAGE], a[MK_ANSWER_MESSAGE_LEN]) == 0);
    PROMISE(memcmp(s + a[MK_ANSWER_RECORDS], wire + b[MK_ANSWER_RECORDS], a[MK_ANSWER_RECORDS_LEN]) == 0);
}

/* An answer: its parts lie within what was used, its records within their part; a refusal leaves the list; an OK written is read as it was. */
static void answer(input in)
{
    uint8_t tracking = take(&in), found = 1, kind = 0, r;
    uint64_t a[MK_ANSWER_NUMBERS + 1], used;
    const uint8_t *s = lend_rest(&in);
    size_t n = in.len, place = 0, len = 0, next = 0;
    for (size_t i = 0; i <= MK_ANSWER_NUMBERS; i++) a[i] = STALE;
    PROMISE(mk_read_answer(s, n, tracking, a, MK_ANSWER_NUMBERS - 1) == MK_NO_ROOM && a[0] == STALE);
    note(r = mk_read_answer(s, n, tracking, a, MK_ANSWER_NUMBERS + 1));
    for (size_t i = r ? 0 : MK_ANSWER_NUMBERS; i <= MK_ANSWER_NUMBERS; i++) PROMISE(a[i] == STALE);
    if (r) return;
    used = a[MK_ANSWER_USED];
    PROMISE(used <= n && a[MK_ANSWER_KIND] == s[0]);
    PROMISE(a[MK_ANSWER_MESSAGE] <= used && a[MK_ANSWER_MESSAGE_LEN] <= used - a[MK_ANSWER_MESSAGE]);
    PROMISE(a[9] <= used && a[10] <= used - a[9]);
    if (a[MK_ANSWER_KIND] != MK_ANSWER_OK) return;
    size_t at = a[MK_ANSWER_RECORDS], end = at + a[MK_ANSWER_RECORDS_LEN];
    for (; !r && found; at = found ? next : at) {
        note(r = mk_next_record(s, n, at, end, &found, &kind, &place, &len, &next));
        PROMISE(r || !found || (place > at && next <= end && len == next - place));
    }
    PROMISE(r || at == end);
    put_again(s, a, tracking);
}

int LLVMFuzzerTestOneInput(const uint8_t *data, size_t size);

int LLVMFuzzerTestOneInput(const uint8_t *data, size_t size)
{
    if (source.at == NULL) {
        source = lend_end(MOST);
        staging = lend_end(2 * MOST + 16);
        packet = lend_end(MOST);
        state = lend_end(MK_STATE_SIZE);
    }
    input in = {data, size};
    uint8_t which = take(&in);
    switch (which & 7) {
    case 0: case 1: case 2: connection(in, false); break;
    case 3: connection(in, true); break;
    case 4: which & 8 ? through(in, which & 16) : round_trip(in); break;
    case 5: which & 16 ? answer(in) : which & 8 ? salvage(in) : quoting(in); break;
    default: values(in, which >> 3); break;
    }
    return 0;
}
