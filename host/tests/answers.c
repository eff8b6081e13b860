/*
 * OK, ERR and EOF packets from C: those of a real server's captures and hand-made ones cut at every length, as the program `replies` has them
 * (host/data/replies.py says how an entry is laid out), read, walked and written again; the order of the refusals; and what stays on each.
 * Each packet, list and buffer ends at a page that may not be touched.
 *
 * The entries are ../crates/replies/data, or the folder that MISHKELDUR_REPLIES says.
 */
#include "lend.h"
#include "mishkeldur.h"

enum { N = MK_ANSWER_NUMBERS };

static const uint64_t MARK = 0x7654321000000000u; /* no number of an answer comes near it */

static size_t ok_count, err_count, eof_count, record_count, refused_count;

/* A list of so many numbers, all of them marked. */
static lent lend_list(size_t numbers)
{
    lent l = lend_end(8 * numbers);
    for (size_t i = 0; i < numbers; i++) ((uint64_t *)(void *)l.at)[i] = MARK;
    return l;
}

static uint64_t *list_of(lent l) { return (uint64_t *)(void *)l.at; }

static bool all_marked(lent l, size_t from)
{
    for (size_t i = from; i < l.len / 8; i++)
        if (list_of(l)[i] != MARK) return false;
    return true;
}

/* The status, and the numbers where it is MK_OK. Lists of every length are tried: one too short is 6 and stays, as any other refusal's does. */
static uint8_t answer(const uint8_t *packet, size_t len, uint8_t tracking, uint64_t numbers[N])
{
    lent s = lend_bytes(packet, len);
    uint8_t status = MK_NO_ROOM;
    for (size_t room = 0; room < N + 3; room++) {
        lent l = lend_list(room);
        uint8_t r = mk_read_answer(s.at, s.len, tracking, list_of(l), room);
        if (room < N) CHECK(r == MK_NO_ROOM, "a list of %zu: %s", room, mk_refusal_text(r));
        if (room == N) status = r;
        if (room >= N) CHECK(r == status, "a list of %zu: %s", room, mk_refusal_text(r));
        CHECK(all_marked(l, r == MK_OK ? N : 0), "a list of %zu: a number that was to stay", room);
        if (r == MK_OK) memcpy(numbers, l.at, 8 * N);
        lend_back(l);
    }
    CHECK(len == 0 || memcmp(s.at, packet, len) == 0, "the packet was written");
    lend_back(s);
    return status;
}

/* ---- the kept entries */

typedef struct {
    const uint8_t *at;
    size_t left;
} reader;

static const uint8_t *take(reader *r, size_t n)
{
    if (r->left < n) {
        fprintf(stderr, "an entry is cut\n");
        exit(2);
    }
    r->at += n, r->left -= n;
    return r->at - n;
}

static uint64_t little(const uint8_t *s, size_t n)
{
    uint64_t v = 0;
    for (size_t i = n; i-- > 0;) v = v << 8 | s[i];
    return v;
}

typedef struct {
    const uint8_t *at;
    size_t len;
} part;

static part take_part(reader *r)
{
    part p = {NULL, (size_t)little(take(r, 2), 2)};
    p.at = take(r, p.len);
    return p;
}

static bool same(part p, const uint8_t *at, size_t len) { return p.len == len && (len == 0 || memcmp(p.at, at, len) == 0); }

/* A record's strings, each against the entry's; the record stands at a place of the packet. */
static void strings(reader *r, const uint8_t *s, size_t n, uint8_t kind, size_t count)
{
    size_t place = 0, len = 0, used = STALE, at = 0, pair[4], next;
    uint8_t tracked = CANARY, found = CANARY;
    CHECK(mk_read_record(s, n, kind, &place, &len, &tracked, &used) == MK_OK, "a record of type %d", kind);
    for (size_t i = 0; kind == 0 && i < count; i += 2) {
        part name = take_part(r), value = take_part(r);
        uint8_t v = mk_next_variable(s, n, at, &found, &pair[0], &pair[1], &pair[2], &pair[3], &next);
        CHECK(v == MK_OK && found == 1, "a variable");
        if (v != MK_OK || found != 1) return;
        CHECK(same(name, s + pair[0], pair[1]) && same(value, s + pair[2], pair[3]), "a name or value");
        at = next;
    }
    if (kind == 0) {
        CHECK(mk_next_variable(s, n, at, &found, &pair[0], &pair[1], &pair[2], &pair[3], &next) == MK_OK && found == 0, "the end of the variables");
        return;
    }
    part text = take_part(r);
    CHECK(count == 1, "%zu strings", count);
    if (kind == 2)
        CHECK(tracked == (text.len == 1 && text.at[0] == '1'), "tracked %d", tracked);
    else
        CHECK(same(text, s + place, len), "the string of a record of type %d", kind);
}

/* The records from one place to another: each type, the part that is handed on, what it says, and each written again as the packet has it. */
static void records(reader *r, const uint8_t *packet, size_t len, size_t from, size_t end, size_t count)
{
    lent s = lend_bytes(packet, len), d = lend_end(end - from);
    size_t at = from, back = 0, place, n, next;
    uint8_t found = CANARY, kind = CANARY;
    for (size_t i = 0; i < count; i++, at = next) {
        uint8_t want = take(r, 1)[0];
        size_t texts = take(r, 1)[0];
        part handed = take_part(r);
        place = n = next = STALE, found = CANARY;
        uint8_t status = mk_next_record(s.at, s.len, at, end, &found, &kind, &place, &n, &next);
        CHECK(status == MK_OK && found == 1 && kind == want && next > at && next <= end, "record %zu: %s", i, mk_refusal_text(status));
        if (status != MK_OK || found != 1) exit(1);
        CHECK(same(handed, s.at + place, n), "record %zu: another part", i);
        strings(r, s.at + place, n, kind, texts);
        /* A part of type 2 that was not sent as servers do, 02 02 01 31, is written as they do. */
        bool odd = kind == 2 && s.at[at + 1] == 2;
        size_t put = STALE;
        CHECK(mk_put_typed_record(d.at, d.len, back, kind, s.at + place, n, &put) == MK_OK && put == back + next - at - odd, "record %zu", i);
        if (put == STALE) exit(1);
        CHECK(odd || memcmp(d.at + back, s.at + at, next - at) == 0, "record %zu is written otherwise", i);
        back = put;
        record_count++;
    }
    place = n = next = STALE, kind = CANARY;
    CHECK(mk_next_record(s.at, s.len, at, end, &found, &kind, &place, &n, &next) == MK_OK && found == 0, "the end of the records");
    CHECK(at == end && place == STALE && n == STALE && next == STALE && kind == CANARY, "what stays at the end");
    lend_back(s), lend_back(d);
}

/* A writer by its kind, so that one check serves all three. */
static uint8_t put(uint8_t *d, size_t n, size_t at, const uint64_t *a, const uint8_t *s, uint8_t tracking, size_t *next)
{
    const uint8_t *message = s + a[MK_ANSWER_MESSAGE], *rest = s + a[9];
    if (a[MK_ANSWER_KIND] == MK_ANSWER_OK)
        return mk_put_ok(d, n, at, a[MK_ANSWER_ROWS], a[MK_ANSWER_INSERT_ID], (uint16_t)a[MK_ANSWER_STATUS], (uint16_t)a[MK_ANSWER_WARNINGS], message,
                         a[MK_ANSWER_MESSAGE_LEN], rest, a[MK_ANSWER_RECORDS_LEN], tracking, next);
    if (a[MK_ANSWER_KIND] == MK_ANSWER_ERR)
        return mk_put_err(d, n, at, (uint16_t)a[MK_ANSWER_CODE], rest, a[MK_ANSWER_STATE_LEN], message, a[MK_ANSWER_MESSAGE_LEN], next);
    return mk_put_eof(d, n, at, (uint16_t)a[MK_ANSWER_WARNINGS], (uint16_t)a[MK_ANSWER_STATUS], next);
}

/* The packet written again, at two places, into a buffer that is just long enough, and into each shorter one, which stays as it was. */
static void again(const uint8_t *packet, size_t len, uint8_t tracking, const uint64_t *a)
{
    for (size_t at = 0; at < 6; at += 5)
        for (size_t room = 0; room <= at + len; room++) {
            lent d = lend_end(room);
            size_t next = STALE;
            uint8_t r = put(d.at, d.len, at, a, packet, tracking, &next);
            bool fits = room == at + len;
            CHECK(r == (fits ? MK_OK : MK_NO_ROOM) && next == (fits ? at + len : STALE), "%zu of %zu bytes: %s", room, at + len, mk_refusal_text(r));
            for (size_t i = 0; i < (fits ? at : room); i++) CHECK(d.at[i] == CANARY, "byte %zu of %zu was to stay", i, room);
            if (fits) CHECK(memcmp(d.at + at, packet, len) == 0, "other bytes");
            lend_back(d);
        }
}

static void entry(reader *r)
{
    uint8_t tracking = take(r, 1)[0], refusal = take(r, 1)[0], header = take(r, 1)[0];
    uint64_t want[N] = {header}, got[N], rows = little(take(r, 8), 8), id = little(take(r, 8), 8), status = little(take(r, 2), 2);
    uint64_t warnings = little(take(r, 2), 2), used = little(take(r, 2), 2);
    bool same_again = take(r, 1)[0];
    size_t count = take(r, 1)[0];
    part packet = take_part(r), message = take_part(r), rest = take_part(r);
    uint8_t s = answer(packet.at, packet.len, tracking, got);
    CHECK(s == refusal, "status %d, not %d", s, refusal);
    if (s != MK_OK) {
        refused_count++;
        return;
    }
    bool ok = header == MK_ANSWER_OK, err = header == MK_ANSWER_ERR;
    *(ok ? &ok_count : err ? &err_count : &eof_count) += 1;
    want[MK_ANSWER_USED] = used, want[MK_ANSWER_ROWS] = rows, want[MK_ANSWER_INSERT_ID] = id, want[MK_ANSWER_WARNINGS] = warnings;
    want[err ? MK_ANSWER_CODE : MK_ANSWER_STATUS] = status;
    for (size_t i = 0; i < MK_ANSWER_MESSAGE; i++) CHECK(got[i] == want[i], "number %zu", i);
    for (size_t i = MK_ANSWER_MESSAGE; i < N; i++) CHECK(ok || err || got[i] == 0, "number %zu of an EOF", i);
    CHECK(got[MK_ANSWER_USED] <= packet.len, "more used than there is");
    CHECK(same(message, packet.at + got[MK_ANSWER_MESSAGE], got[MK_ANSWER_MESSAGE_LEN]), "another message");
    CHECK(same(rest, packet.at + got[9], got[10]), "other records, or another state");
    if (ok) records(r, packet.at, packet.len, got[MK_ANSWER_RECORDS], got[MK_ANSWER_RECORDS] + got[MK_ANSWER_RECORDS_LEN], count);
    if (same_again) again(packet.at, packet.len, tracking, got);
}

static void replay(const char *name)
{
    static uint8_t bytes[1 << 16];
    const char *folder = getenv("MISHKELDUR_REPLIES");
    char path[512];
    snprintf(path, sizeof path, "%s/%s", folder ? folder : "../crates/replies/data", name);
    FILE *f = fopen(path, "rb");
    if (!f) {
        perror(path);
        exit(2);
    }
    reader r = {bytes, fread(bytes, 1, sizeof bytes, f)};
    CHECK(r.left > 0 && r.left < sizeof bytes, "%s: nothing, or too much", path);
    fclose(f);
    while (r.left > 0) entry(&r);
}

/* ---- refusals and their order */

#define BYTES(s) (const uint8_t *)(s), sizeof(s) - 1

static void refusals(void)
{
    uint64_t a[N];
    CHECK(answer(NULL, 0, 0, a) == MK_SHORT && answer(NULL, 0, 1, a) == MK_SHORT, "an empty packet");
    CHECK(mk_read_answer(NULL, 0, 0, NULL, 0) == MK_NO_ROOM, "6 comes first of all");
    CHECK(mk_read_answer(BYTES("\1"), 0, a, N - 1) == MK_NO_ROOM, "6 before 14");
    for (unsigned header = 1; header < 0xFE; header++) {
        uint8_t packet[12] = {(uint8_t)header};
        for (size_t n = 1; n <= sizeof packet; n++) CHECK(answer(packet, n, n & 1, a) == MK_BAD_PACKET, "header %u, %zu bytes", header, n);
    }
    CHECK(answer(BYTES("\376\0\0\2"), 0, a) == MK_SHORT, "an EOF of 4 bytes");
    CHECK(answer(BYTES("\376\0\0\2\0\0\0\0"), 0, a) == MK_OK && a[MK_ANSWER_USED] == 5, "an EOF in 8 bytes");
    CHECK(answer(BYTES("\376\0\0\2\0\0\0\0\0"), 0, a) == MK_BAD_PACKET, "none in 9");
    CHECK(answer(BYTES("\377\20\4"), 0, a) == MK_SHORT, "an ERR of 3 bytes");
    CHECK(answer(BYTES("\377\20\4Too many connections"), 0, a) == MK_BAD_PACKET, "an ERR without a state");
    CHECK(answer(BYTES("\377\20\4#0800"), 0, a) == MK_SHORT, "a state that is cut");
    CHECK(answer(BYTES("\377\20\4#08004"), 0, a) == MK_OK && a[MK_ANSWER_CODE] == 1040 && a[MK_ANSWER_MESSAGE_LEN] == 0, "no message");
    CHECK(answer(BYTES("\0\373"), 0, a) == MK_BAD_LEAD && answer(BYTES("\0\0\377"), 0, a) == MK_BAD_LEAD, "a lead that is none");
    CHECK(answer(BYTES("\0\374\1"), 0, a) == MK_SHORT && answer(BYTES("\0\0\0\2\0\0"), 0, a) == MK_SHORT, "numbers that are cut");
    /* A message of one byte behind its length; without tracking it is two, and any flag but 0 is yes. */
    CHECK(answer(BYTES("\0\0\0\2\0\0\0\1x"), 0, a) == MK_OK && a[MK_ANSWER_MESSAGE] == 7 && a[MK_ANSWER_MESSAGE_LEN] == 2, "to the end");
    CHECK(answer(BYTES("\0\0\0\2\0\0\0\1x"), 128, a) == MK_OK && a[MK_ANSWER_MESSAGE] == 8 && a[MK_ANSWER_MESSAGE_LEN] == 1, "with a length");
    CHECK(answer(BYTES("\0\0\0\2\0\0\0\2x"), 1, a) == MK_SHORT && answer(BYTES("\0\0\0\2\100\0\0\1x"), 1, a) == MK_SHORT, "no message, no records");
    CHECK(answer(BYTES("\0\0\0\2\100\0\0\1x\373"), 1, a) == MK_BAD_LEAD, "the records' length");
    CHECK(answer(BYTES("\0\376\377\377\377\377\377\377\377\377\0\0\0\0\0"), 0, a) == MK_OK && a[MK_ANSWER_ROWS] == UINT64_MAX, "the most rows");
}

/* Every place and end over a few records: what is found lies in bounds, and a refusal leaves all five numbers. */
static void cursors(void)
{
    static const uint8_t packet[] = "\1\5\4test\2\1" "1\0\4\1a\1b\11\0\3\376\377\377\377\377\377\377\377\377\7";
    enum { LEN = sizeof packet - 1 };
    lent s = lend_bytes(packet, LEN);
    for (size_t end = 0; end < LEN + 3; end++)
        for (size_t at = 0; at < LEN + 4; at++) {
            size_t place = STALE, len = STALE, next = STALE;
            uint8_t found = CANARY, kind = CANARY, r = mk_next_record(s.at, s.len, at, end, &found, &kind, &place, &len, &next);
            bool stays = kind == CANARY && place == STALE && len == STALE && next == STALE;
            if (end > LEN || at > end) CHECK(r == MK_SHORT, "%zu to %zu: %s", at, end, mk_refusal_text(r));
            if (end <= LEN && at == end) CHECK(r == MK_OK && found == 0 && stays, "%zu is the end", at);
            if (r != MK_OK) CHECK(found == CANARY && stays, "%zu to %zu: a refusal wrote", at, end);
            if (r == MK_OK && found == 1) CHECK(kind == packet[at] && place > at && len <= end - place && next == place + len, "%zu to %zu", at, end);
        }
    size_t place = STALE, len = STALE, next = STALE;
    uint8_t found = CANARY, kind = CANARY;
    CHECK(mk_next_record(s.at, s.len, SIZE_MAX, LEN, &found, &kind, &place, &len, &next) == MK_SHORT, "far past the end");
    CHECK(mk_next_record(s.at, s.len, 0, SIZE_MAX, &found, &kind, &place, &len, &next) == MK_SHORT, "an end far past the packet");
    CHECK(mk_next_record(NULL, 0, 0, 0, &found, &kind, &place, &len, &next) == MK_OK && found == 0, "NULL of no bytes");
    lend_back(s);
}

static void writers(void)
{
    uint8_t d[16];
    size_t next = STALE;
    memset(d, CANARY, sizeof d);
    /* A state that is not five bytes long is 8, before 6, and whatever the place. */
    for (size_t n = 0; n < 12; n++)
        for (size_t at = 0; at < 20 && n != 5; at++)
            CHECK(mk_put_err(d, sizeof d, at, 1, (const uint8_t *)"1234567890ab", n, BYTES("x"), &next) == MK_SHORT && next == STALE, "%zu at %zu", n, at);
    CHECK(mk_put_err(d, sizeof d, 7, 1, BYTES("12345"), BYTES("x"), &next) == MK_NO_ROOM && next == STALE, "an ERR one over");
    CHECK(mk_put_err(d, sizeof d, SIZE_MAX, 1, BYTES("12345"), BYTES("x"), &next) == MK_NO_ROOM && next == STALE, "a place far out");
    CHECK(mk_put_ok(d, sizeof d, SIZE_MAX, 0, 0, 0, 0, NULL, 0, NULL, 0, 1, &next) == MK_NO_ROOM && next == STALE, "a place far out");
    CHECK(mk_put_eof(d, sizeof d, SIZE_MAX - 2, 0, 0, &next) == MK_NO_ROOM && next == STALE, "a place far out");
    CHECK(mk_put_typed_record(d, sizeof d, SIZE_MAX, 2, BYTES("\1" "1"), &next) == MK_NO_ROOM && next == STALE, "a place far out");
    for (size_t i = 0; i < sizeof d; i++) CHECK(d[i] == CANARY, "byte %zu was to stay", i);
    /* Tracked: as servers send it; the same bytes of another type have their own length. */
    CHECK(mk_put_typed_record(d, sizeof d, 0, 2, BYTES("\1" "1"), &next) == MK_OK && next == 3 && memcmp(d, "\2\1" "1", 3) == 0, "02 01 31");
    CHECK(mk_put_typed_record(d, sizeof d, 0, 1, BYTES("\1" "1"), &next) == MK_OK && next == 4 && memcmp(d, "\1\2\1" "1", 4) == 0, "01 02 01 31");
    /* Records are announced by the bit alone, and only under tracking. */
    CHECK(mk_put_ok(d, sizeof d, 0, 1, 2, 0x4002, 3, BYTES("m"), BYTES("\3\0"), 1, &next) == MK_OK && next == 12, "with records");
    CHECK(memcmp(d, "\0\1\2\2\100\3\0\1m\2\3\0", 12) == 0, "with records");
    CHECK(mk_put_ok(d, sizeof d, 0, 1, 2, 2, 3, BYTES("m"), BYTES("\3\0"), 1, &next) == MK_OK && next == 9, "without the bit");
    CHECK(mk_put_ok(d, sizeof d, 0, 1, 2, 0x4002, 3, BYTES("m"), BYTES("\3\0"), 0, &next) == MK_OK && next == 8 && d[7] == 'm', "without tracking");
}

int main(void)
{
    CHECK(strcmp(mk_refusal_text(MK_BAD_PACKET), "14: bad packet") == 0, "14");
    replay("replies.bin");
    replay("limits.bin");
    refusals();
    cursors();
    writers();
    printf("answers: %zu OK, %zu ERR, %zu EOF, %zu records, %zu refused\n", ok_count, err_count, eof_count, record_count, refused_count);
    return checks_done("answers");
}
