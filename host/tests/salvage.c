/*
 * Damaged captures from C: the reports that the request speaks of, number by number; lists that are too short, and limits that are none;
 * and every damage to a short stream, whose report must cover it, whose good stretches must be read, and whose lost ones must end at
 * the first start. Each capture and each list ends at a page that may not be touched.
 */
#include "lend.h"
#include "mishkeldur.h"

enum { LIMIT = 61440, MOST = 64 };

/* A list of so many numbers, all of them stale. */
static lent lend_list(size_t numbers)
{
    lent l = lend_end(numbers * sizeof(size_t));
    for (size_t i = 0; i < numbers; i++) ((size_t *)(void *)l.at)[i] = STALE;
    return l;
}

static size_t *list_of(lent l) { return (size_t *)(void *)l.at; }

static bool all_stale(lent l, size_t from)
{
    for (size_t i = from; i < l.len / sizeof(size_t); i++)
        if (list_of(l)[i] != STALE) return false;
    return true;
}

/* ---- reports that are known */

static const struct {
    const char *name, *bytes;
    size_t len, limit, count;
    size_t list[5 * MK_STRETCH_NUMBERS];
} known[] = {
    {"the worked one", "\1\0\0\0A\377\377\377\377\377\1\0\0\1B\1\0\0\2C\1\0\0\3D", 25, LIMIT, 3,
     {MK_GOOD, 0, 5, 1, MK_LOST, 5, 5, MK_TOO_LARGE, MK_GOOD, 10, 15, 3}},
    {"out of sync", "\0\0\0\0\0\0\0\1\0\0\0\3\0\0\0\4\0\0\0\5\0\0\0\6", 24, LIMIT, 3,
     {MK_GOOD, 0, 8, 2, MK_LOST, 8, 4, MK_OUT_OF_SYNC, MK_GOOD, 12, 12, 3}},
    {"a cut end that is not the last", "\377\0\0\0\1\0\0\7A\1\0\0\10B\1\0\0\11C", 19, LIMIT, 2,
     {MK_LOST, 0, 4, MK_SHORT, MK_GOOD, 4, 15, 3}},
    {"from 255 to 0", "\0\0\0\376\0\0\0\377\0\0\0\0\0\0\0\1", 16, LIMIT, 1, {MK_GOOD, 0, 16, 4}},
    {"a cut header", "\0\0\0\0\0\0\0", 7, LIMIT, 2, {MK_GOOD, 0, 4, 1, MK_LOST, 4, 3, MK_SHORT}},
    {"a cut payload", "\0\0\0\0\2\0\0\1A", 9, LIMIT, 2, {MK_GOOD, 0, 4, 1, MK_LOST, 4, 5, MK_SHORT}},
    {"two chunks are no start", "\377\377\377\0\0\0\0\5\0\0\0\6", 12, LIMIT, 1, {MK_LOST, 0, 12, MK_TOO_LARGE}},
    {"at the limit", "\2\0\0\0AB\2\0\0\1CD", 12, 2, 1, {MK_GOOD, 0, 12, 2}},
    {"above the limit, before its number is looked at", "\2\0\0\0AB\3\0\0\7CDE", 13, 2, 2, {MK_GOOD, 0, 6, 1, MK_LOST, 6, 7, MK_TOO_LARGE}},
    {"one byte", "\0", 1, LIMIT, 1, {MK_LOST, 0, 1, MK_SHORT}},
    {"the highest limit", "\376\377\377\0", 4, MK_MAX_PAYLOAD - 1, 1, {MK_LOST, 0, 4, MK_SHORT}},
    {"a payload of 16,777,215 at the highest limit", "\377\377\377\0", 4, MK_MAX_PAYLOAD - 1, 1, {MK_LOST, 0, 4, MK_TOO_LARGE}},
    {"nothing", "", 0, LIMIT, 0, {0}},
};

static void reports(void)
{
    for (size_t i = 0; i < sizeof known / sizeof *known; i++) {
        lent s = lend_bytes(known[i].bytes, known[i].len);
        size_t numbers = MK_STRETCH_NUMBERS * known[i].count, count = STALE;
        CHECK(mk_stretches(known[i].limit, s.at, s.len, &count) == MK_OK && count == known[i].count, "%s: %zu", known[i].name, count);
        CHECK(known[i].count <= MK_MOST_STRETCHES(s.len), "%s", known[i].name);
        /* A list that is just long enough, and one that is longer: what lies behind stays. */
        for (size_t more = 0; more < 6; more++) {
            lent d = lend_list(numbers + more);
            count = STALE;
            uint8_t r = mk_salvage(known[i].limit, s.at, s.len, list_of(d), numbers + more, &count);
            CHECK(r == MK_OK && count == known[i].count, "%s: %s", known[i].name, mk_refusal_text(r));
            CHECK(memcmp(d.at, known[i].list, numbers * sizeof(size_t)) == 0, "%s: another list", known[i].name);
            CHECK(all_stale(d, numbers), "%s: written behind the stretches", known[i].name);
            lend_back(d);
        }
        /* Each list that is too short: nothing is changed. */
        for (size_t n = 0; n < numbers; n++) {
            lent d = lend_list(n);
            count = STALE;
            CHECK(mk_salvage(known[i].limit, s.at, s.len, list_of(d), n, &count) == MK_NO_ROOM, "%s: %zu numbers", known[i].name, n);
            CHECK(count == STALE && all_stale(d, 0), "%s: a refusal wrote", known[i].name);
            lend_back(d);
        }
        lend_back(s);
    }
    size_t count = STALE;
    CHECK(mk_stretches(LIMIT, NULL, 0, &count) == MK_OK && count == 0, "NULL of no bytes");
    count = STALE;
    CHECK(mk_salvage(LIMIT, NULL, 0, NULL, 0, &count) == MK_OK && count == 0, "NULL of no bytes, and of no numbers");
}

static void limits(void)
{
    static const size_t none[] = {0, MK_MAX_PAYLOAD, MK_MAX_PAYLOAD + 1, MK_MAX_LIMIT, SIZE_MAX};
    lent s = lend_bytes("\0\0\0\0", 4);
    for (size_t i = 0; i < sizeof none / sizeof *none; i++) {
        size_t count = STALE;
        CHECK(mk_stretches(none[i], s.at, s.len, &count) == MK_BAD_LIMIT && count == STALE, "limit %zu", none[i]);
        /* 1 comes before 6. */
        for (size_t n = 0; n < 6; n++) {
            lent d = lend_list(n);
            CHECK(mk_salvage(none[i], s.at, s.len, list_of(d), n, &count) == MK_BAD_LIMIT, "limit %zu", none[i]);
            CHECK(count == STALE && all_stale(d, 0), "limit %zu: a refusal wrote", none[i]);
            lend_back(d);
        }
    }
    lend_back(s);
}

/* ---- what every report must be */

/* Whether three whole chunks follow from a place on: the report of what is left then begins with three packets or more. */
static bool starts(const uint8_t *at, size_t len)
{
    size_t list[MOST * MK_STRETCH_NUMBERS], count = 0;
    uint8_t r = mk_salvage(LIMIT, at, len, list, sizeof list / sizeof *list, &count);
    CHECK(r == MK_OK, "%s", mk_refusal_text(r));
    return r == MK_OK && count > 0 && list[0] == MK_GOOD && list[3] >= 3;
}

/* Whether the plain reader hands out so many packets and uses every byte. It begins at number 0, so the numbers are moved there. */
static bool reads(const uint8_t *bytes, size_t len, size_t packets)
{
    static uint8_t packet[LIMIT];
    uint8_t state[MK_STATE_SIZE], copy[MOST];
    if (len < 4 || len > sizeof copy || mk_open(state, sizeof state, LIMIT) != MK_OK) return false;
    memcpy(copy, bytes, len);
    for (size_t at = 0; at + 4 <= len; at += 4 + copy[at]) copy[at + 3] = (uint8_t)(copy[at + 3] - bytes[3]);
    size_t from = 0, used = 0, got = 0;
    for (size_t i = 0; i < packets; i++, from += used)
        if (mk_read(state, sizeof state, copy + from, len - from, NULL, 0, packet, sizeof packet, &used, &got) != MK_OK) return false;
    return from == len;
}

static void sound(const uint8_t *bytes, size_t len, const char *what, size_t place)
{
    lent s = lend_bytes(bytes, len), d = lend_list(MK_MOST_STRETCHES(len) * MK_STRETCH_NUMBERS);
    size_t count = STALE, asked = STALE, at = 0;
    uint8_t r = mk_salvage(LIMIT, s.at, s.len, list_of(d), d.len / sizeof(size_t), &count);
    CHECK(r == MK_OK, "%s at %zu: %s", what, place, mk_refusal_text(r));
    CHECK(mk_stretches(LIMIT, s.at, s.len, &asked) == MK_OK && asked == count, "%s at %zu", what, place);
    for (size_t i = 0; r == MK_OK && i < count; i++) {
        const size_t *x = list_of(d) + MK_STRETCH_NUMBERS * i;
        CHECK(x[1] == at && x[2] > 0 && x[2] <= len - at, "%s at %zu: stretch %zu does not begin where the last one ended", what, place, i);
        if (x[1] != at || x[2] > len - at) break;
        at += x[2];
        if (x[0] == MK_GOOD) {
            CHECK(reads(s.at + x[1], x[2], x[3]), "%s at %zu: stretch %zu is not read", what, place, i);
            continue;
        }
        CHECK(x[0] == MK_LOST && (x[3] == MK_TOO_LARGE || x[3] == MK_OUT_OF_SYNC || x[3] == MK_SHORT), "%s at %zu", what, place);
        for (size_t k = x[1] + 1; k < at; k++) CHECK(!starts(s.at + k, len - k), "%s at %zu: a start at %zu was passed over", what, place, k);
        CHECK(at == len || starts(s.at + at, len - at), "%s at %zu: no start at %zu", what, place, at);
    }
    CHECK(at == len, "%s at %zu: the stretches end at %zu of %zu", what, place, at, len);
    lend_back(s), lend_back(d);
}

/* Eight chunks whose numbers go over 255, and bytes in them that look like headers. */
static const uint8_t stream[] = "\3\0\0\375abc\0\0\0\376\1\0\0\377d\5\0\0\0\0\0\0\0\1\0\0\0\1\2\0\0\2jk\4\0\0\3lmno";
enum { STREAM = sizeof stream - 1 };

static void damages(void)
{
    uint8_t bytes[STREAM + 1];
    for (size_t at = 0; at < STREAM; at++) {
        for (unsigned by = 1; by < 256; by++) {
            memcpy(bytes, stream, STREAM);
            bytes[at] = (uint8_t)(bytes[at] + by);
            sound(bytes, STREAM, "a byte changed", at);
        }
        memcpy(bytes, stream, at);
        memcpy(bytes + at, stream + at + 1, STREAM - at - 1);
        sound(bytes, STREAM - 1, "a byte lost", at);
        memcpy(bytes, stream, at + 1);
        memcpy(bytes + at + 1, stream + at, STREAM - at);
        sound(bytes, STREAM + 1, "a byte doubled", at);
        sound(stream, at, "a cut", at);
        sound(stream + at, STREAM - at, "a later beginning", at);
    }
}

/* Small bytes, so that many places look like chunks. */
static void noise(void)
{
    for (size_t i = 0; i < 3000; i++) {
        uint8_t bytes[MOST];
        size_t len = random_below(sizeof bytes + 1);
        for (size_t k = 0; k < len; k++) bytes[k] = random_below(4) ? 0 : (uint8_t)random_below(4);
        sound(bytes, len, "noise", i);
    }
}

int main(void)
{
    reports();
    limits();
    damages();
    noise();
    return checks_done("salvage");
}
