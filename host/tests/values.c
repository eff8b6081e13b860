/*
 * The entries on values, rows, durations, quotes and session records from C: good, short, damaged and hostile input. Each source
 * ends at a page that may not be touched, so a reader that looks one byte too far is stopped.
 */
#include "lend.h"
#include "mishkeldur.h"


/* ---- length-encoded integers and strings */

static void integers(void)
{
    static const struct {
        const char *bytes;
        size_t n;
        uint8_t status;
        uint64_t value;
        size_t next;
    } cases[] = {
        {"", 0, MK_SHORT, 0, 0},
        {"\372", 1, MK_OK, 250, 1},
        {"\373", 1, MK_BAD_LEAD, 0, 0},
        {"\377", 1, MK_BAD_LEAD, 0, 0},
        {"\374\373\0", 3, MK_OK, 251, 3},
        {"\374\1\0", 3, MK_OK, 1, 3},
        {"\374\1", 2, MK_SHORT, 0, 0},
        {"\375\1\2\3", 4, MK_OK, 0x030201, 4},
        {"\375\1\2", 3, MK_SHORT, 0, 0},
        {"\376\377\377\377\377\377\377\377\377", 9, MK_OK, UINT64_MAX, 9},
        {"\376\377\377\377\377\377\377\377", 8, MK_SHORT, 0, 0},
    };
    for (size_t i = 0; i < sizeof cases / sizeof *cases; i++) {
        lent s = lend_bytes(cases[i].bytes, cases[i].n);
        uint64_t v = STALE;
        size_t next = STALE;
        uint8_t r = mk_lenenc_int(s.at, s.len, 0, &v, &next);
        CHECK(r == cases[i].status, "case %zu: %s", i, mk_refusal_text(r));
        if (r == MK_OK)
            CHECK(v == cases[i].value && next == cases[i].next, "case %zu", i);
        else
            CHECK(v == STALE && next == STALE, "case %zu: a refusal wrote", i);
        CHECK(mk_lenenc_int(s.at, s.len, s.len, &v, &next) == MK_SHORT, "case %zu: at the end", i);
        CHECK(mk_lenenc_int(s.at, s.len, SIZE_MAX, &v, &next) == MK_SHORT, "case %zu: far beyond the end", i);
        lend_back(s);
    }
    CHECK(mk_lenenc_int(NULL, 0, 0, &(uint64_t){0}, &(size_t){0}) == MK_SHORT, "NULL of no bytes");

    static const uint64_t edges[] = {0, 1, 250, 251, 252, 0xFFFF, 0x10000, 0xFFFFFF, 0x1000000, INT64_MAX, UINT64_MAX};
    for (size_t i = 0; i < sizeof edges / sizeof *edges; i++) {
        size_t n = mk_lenenc_int_len(edges[i]);
        lent d = lend_end(n);
        size_t next = STALE;
        uint64_t v = 0;
        CHECK(mk_put_lenenc_int(d.at, n - 1, 0, edges[i], &next) == MK_NO_ROOM && next == STALE && d.at[0] == CANARY, "%zu", i);
        CHECK(mk_put_lenenc_int(d.at, n, 1, edges[i], &next) == MK_NO_ROOM && next == STALE && d.at[0] == CANARY, "%zu", i);
        CHECK(mk_put_lenenc_int(d.at, n, SIZE_MAX, edges[i], &next) == MK_NO_ROOM && next == STALE, "%zu", i);
        CHECK(mk_put_lenenc_int(d.at, n, 0, edges[i], &next) == MK_OK && next == n, "%zu", i);
        CHECK(mk_lenenc_int(d.at, n, 0, &v, &next) == MK_OK && v == edges[i] && next == n, "%zu", i);
        lend_back(d);
    }
}

static void strings(void)
{
    size_t place = STALE, len = STALE, next = STALE;
    lent huge = lend_bytes("\376\377\377\377\377\377\377\377\377A", 10);
    CHECK(mk_lenenc_str(huge.at, huge.len, 0, &place, &len) == MK_SHORT && place == STALE && len == STALE, "a length of 2^64 - 1");
    lend_back(huge);
    lent bad = lend_bytes("\373A", 2);
    CHECK(mk_lenenc_str(bad.at, bad.len, 0, &place, &len) == MK_BAD_LEAD && place == STALE, "0xFB");
    lend_back(bad);
    for (size_t n = 0; n < 300; n++) {
        uint8_t text[300], wire[310];
        memset(text, 'a', sizeof text);
        CHECK(mk_put_lenenc_str(wire, sizeof wire, 3, text, n, &next) == MK_OK, "%zu", n);
        lent s = lend_bytes(wire + 3, next - 3);
        CHECK(mk_lenenc_str(s.at, s.len, 0, &place, &len) == MK_OK && len == n && place + len == s.len, "%zu", n);
        CHECK(s.len == 0 || mk_lenenc_str(s.at, s.len - 1, 0, &place, &len) == MK_SHORT, "%zu", n);
        size_t before = next;
        CHECK(mk_put_lenenc_str(wire, next - 1, 3, text, n, &next) == MK_NO_ROOM && next == before, "%zu", n);
        lend_back(s);
    }
}

/* ---- durations */

static void durations(void)
{
    static const struct {
        const char *bytes;
        size_t n;
        uint8_t status;
        int64_t micros;
    } cases[] = {
        {"\10\1\0\0\0\0\0\1\0", 9, MK_OK, -60000000}, /* E6: the 23:59 train */
        {"\10\0\0\0\0\0\0\1\0", 9, MK_OK, 60000000},
        {"\10\2\0\0\0\0\0\1\0", 9, MK_OK, 60000000},  /* only sign byte 1 is minus */
        {"\10\377\0\0\0\0\0\1\0", 9, MK_OK, 60000000},
        {"\0", 1, MK_OK, 0},
        {"\10\1\0\0\0\0\0\1", 8, MK_SHORT, 0},
        {"", 0, MK_SHORT, 0},
        {"\14\1\0\0\0\0\0\0\0\1\0\0\0", 13, MK_OK, -1},
        {"\14\0\367\347\134\6\4\0\66\177\326\13\0", 13, MK_OK, INT64_MAX}, /* E7: 106,751,991 days 4:00:54.775807 */
        {"\14\1\367\347\134\6\4\0\66\177\326\13\0", 13, MK_OK, -INT64_MAX},
        {"\14\0\367\347\134\6\4\0\66\200\326\13\0", 13, MK_OUT_OF_RANGE, 0},
        {"\14\1\367\347\134\6\4\0\66\200\326\13\0", 13, MK_OUT_OF_RANGE, 0},
        {"\14\1\377\377\377\377\377\377\377\377\377\377\377", 13, MK_OUT_OF_RANGE, 0},
    };
    for (size_t i = 0; i < sizeof cases / sizeof *cases; i++) {
        lent s = lend_bytes(cases[i].bytes, cases[i].n);
        int64_t z = INT64_MIN;
        size_t next = STALE;
        uint8_t r = mk_read_duration(s.at, s.len, 0, &z, &next);
        CHECK(r == cases[i].status, "case %zu: %s", i, mk_refusal_text(r));
        if (r == MK_OK)
            CHECK(z == cases[i].micros && next == s.len, "case %zu: %lld", i, (long long)z);
        else
            CHECK(z == INT64_MIN && next == STALE, "case %zu: a refusal wrote", i);
        uint8_t neg = 9, h = 9, m = 9, sec = 9;
        uint32_t days = 9, us = 9;
        r = mk_read_time(s.at, s.len, 0, &neg, &days, &h, &m, &sec, &us, &next);
        if (r == MK_OK) {
            int64_t y = INT64_MIN;
            uint8_t q = mk_duration_of(neg, days, h, m, sec, us, &y);
            CHECK(q == cases[i].status && (q != MK_OK || y == z) && (q == MK_OK || y == INT64_MIN), "case %zu: by fields", i);
            CHECK(neg <= 1 && next == s.len, "case %zu", i);
            /* written again it means the same */
            uint8_t d[16];
            size_t end = STALE;
            CHECK(mk_put_time(d, sizeof d, 2, neg, days, h, m, sec, us, &end) == MK_OK, "case %zu", i);
            int64_t x = INT64_MIN;
            CHECK(mk_read_duration(d, end, 2, &x, &next) == q && x == y && (q != MK_OK || next == end), "case %zu: written again", i);
        } else {
            CHECK(r == MK_SHORT && neg == 9 && days == 9 && h == 9 && m == 9 && sec == 9 && us == 9, "case %zu: a refusal wrote", i);
        }
        lend_back(s);
    }
}

/* ---- values */

typedef struct {
    uint8_t kind;
    int64_t integer;
    uint64_t bits;
    size_t place, len, next;
} value;

static const value STALE_VALUE = {99, INT64_MIN, STALE, STALE, STALE, STALE};

static uint8_t read_value(lent s, uint8_t type, uint8_t is_unsigned, value *v)
{
    *v = STALE_VALUE;
    return mk_read_value(s.at, s.len, 0, type, is_unsigned, &v->kind, &v->integer, &v->bits, &v->place, &v->len, &v->next);
}

static void integers_of_columns(void)
{
    static const struct {
        uint8_t type;
        size_t width;
    } widths[] = {{1, 1}, {2, 2}, {13, 2}, {3, 4}, {9, 4}, {8, 8}};
    for (size_t w = 0; w < sizeof widths / sizeof *widths; w++) {
        size_t k = widths[w].width;
        uint64_t top = k == 8 ? UINT64_MAX : ((uint64_t)1 << (8 * k)) - 1, half = top / 2;
        uint64_t patterns[] = {0, 1, half, half + 1, top};
        for (size_t i = 0; i < 5; i++) {
            lent s = lend_end(k);
            for (size_t b = 0; b < k; b++) s.at[b] = (uint8_t)(patterns[i] >> (8 * b));
            value v;
            int64_t as_signed = patterns[i] > half ? -(int64_t)(top - patterns[i]) - 1 : (int64_t)patterns[i];
            CHECK(read_value(s, widths[w].type, 0, &v) == MK_OK && v.kind == MK_INT && v.integer == as_signed && v.next == k && v.bits == STALE && v.place == STALE, "type %d, %zu", widths[w].type, i);
            CHECK(read_value(s, widths[w].type, 7, &v) == MK_OK && v.next == k, "type %d, %zu", widths[w].type, i);
            if (patterns[i] > INT64_MAX)
                CHECK(v.kind == MK_UINT && v.bits == patterns[i] && v.integer == INT64_MIN, "type %d, %zu", widths[w].type, i);
            else
                CHECK(v.kind == MK_INT && v.integer == (int64_t)patterns[i] && v.bits == STALE, "type %d, %zu", widths[w].type, i);
            s.len--;
            CHECK(read_value(s, widths[w].type, 0, &v) == MK_SHORT && memcmp(&v.next, &STALE_VALUE.next, sizeof v.next) == 0 && v.kind == 99, "type %d", widths[w].type);
            s.len++;
            lend_back(s);
        }
    }
}

/* Every type on every prefix of some bytes: it answers, and never looks past the end; a listed type never gets 10, another always. */
static void every_type(void)
{
    static const uint8_t bytes[] = {0x0B, 0xE8, 0x07, 0x02, 0x1D, 0x17, 0x3B, 0x3B, 0x3F, 0x42, 0x0F, 0x00};
    for (int type = 0; type < 256; type++) {
        bool listed = type <= 16 || type == 242 || type >= 245;
        for (size_t n = 0; n <= sizeof bytes; n++) {
            lent s = lend_bytes(bytes, n);
            value v;
            uint8_t r = read_value(s, (uint8_t)type, 0, &v);
            CHECK((r == MK_BAD_TYPE) == !listed, "type %d on %zu bytes: %s", type, n, mk_refusal_text(r));
            if (r == MK_OK)
                CHECK(v.next <= n && v.kind <= MK_TIME, "type %d on %zu bytes", type, n);
            else
                CHECK(v.kind == 99 && v.next == STALE && v.place == STALE, "type %d on %zu bytes: a refusal wrote", type, n);
            lend_back(s);
        }
    }
    CHECK(mk_read_value(NULL, 0, 0, 6, 0, &(uint8_t){0}, &(int64_t){0}, &(uint64_t){0}, &(size_t){0}, &(size_t){0}, &(size_t){0}) == MK_OK, "type 6 takes no bytes");
}

static void floats(void)
{
    static const uint32_t singles[] = {0, 0x80000000, 0x3F800000, 0x7F800000, 0xFF800000, 0x7FC00000, 0xFFC00001, 0x7F800001, 0xFF812345};
    for (size_t i = 0; i < sizeof singles / sizeof *singles; i++) {
        lent d = lend_end(4);
        size_t next = STALE;
        value v;
        CHECK(mk_put_float(d.at, 4, 0, singles[i], &next) == MK_OK && next == 4, "%zu", i);
        CHECK(read_value(d, 4, 0, &v) == MK_OK && v.kind == MK_FLOAT && v.bits == singles[i] && v.next == 4, "%zu: %llx", i, (unsigned long long)v.bits);
        lend_back(d);
        uint64_t wide = (uint64_t)singles[i] << 32 | 1;
        lent e = lend_end(8);
        CHECK(mk_put_double(e.at, 8, 0, wide, &next) == MK_OK && next == 8, "%zu", i);
        CHECK(read_value(e, 5, 0, &v) == MK_OK && v.kind == MK_DOUBLE && v.bits == wide, "%zu: %llx", i, (unsigned long long)v.bits);
        lend_back(e);
    }
}

static void dates(void)
{
    /* E8, and each length: 4 or more a day, 7 or more a time, exactly 11 microseconds; all bytes used up */
    for (size_t n = 0; n < 256; n++) {
        uint8_t bytes[256] = {0};
        static const uint8_t full[] = {0xE8, 0x07, 2, 29, 23, 59, 58, 1, 2, 3, 4};
        bytes[0] = (uint8_t)n;
        memcpy(bytes + 1, full, sizeof full);
        lent s = lend_bytes(bytes, n + 1);
        uint16_t year = 9999;
        uint8_t month = 99, day = 99, hour = 99, minutes = 99, seconds = 99;
        uint32_t us = 99;
        size_t next = STALE;
        CHECK(mk_read_date(s.at, s.len, 0, &year, &month, &day, &hour, &minutes, &seconds, &us, &next) == MK_OK && next == n + 1, "length %zu", n);
        CHECK((year == 2024 && month == 2 && day == 29) == (n >= 4) && (hour == 23 && minutes == 59 && seconds == 58) == (n >= 7), "length %zu", n);
        CHECK(us == (n == 11 ? 0x04030201u : 0), "length %zu: %u", n, us);
        uint16_t kept = year;
        CHECK(mk_read_date(s.at, n, 0, &year, &month, &day, &hour, &minutes, &seconds, &us, &next) == MK_SHORT && year == kept && next == n + 1, "length %zu, one byte less", n);
        lend_back(s);
    }
    uint8_t d[12];
    size_t next = STALE;
    CHECK(mk_put_date(d, 12, 0, 0, 0, 0, 0, 0, 0, 0, &next) == MK_OK && next == 1 && d[0] == 0, "zero date");
    CHECK(mk_put_date(d, 12, 0, 2024, 2, 29, 0, 0, 0, 0, &next) == MK_OK && next == 5 && d[0] == 4, "a day");
    CHECK(mk_put_date(d, 12, 0, 2024, 2, 29, 0, 0, 1, 0, &next) == MK_OK && next == 8 && d[0] == 7, "a second");
    CHECK(mk_put_date(d, 12, 0, 2024, 2, 29, 0, 0, 0, 1, &next) == MK_OK && next == 12 && d[0] == 11, "a microsecond");
    next = STALE;
    CHECK(mk_put_date(d, 11, 0, 2024, 2, 29, 0, 0, 0, 1, &next) == MK_NO_ROOM && next == STALE, "a byte short");
    CHECK(mk_put_time(d, 12, 0, 1, 0, 0, 0, 0, 0, &next) == MK_OK && next == 1 && d[0] == 0, "negative zero time");
    CHECK(mk_put_int(d, 12, 0, -2, &next) == MK_OK && next == 8 && d[0] == 0xFE && d[7] == 0xFF, "minus two");
    CHECK(mk_put_uint(d, 12, 4, UINT64_MAX - 1, &next) == MK_OK && next == 12 && d[4] == 0xFE, "2^64 - 2");
    CHECK(mk_put_int(d, 12, 5, 1, &next) == MK_NO_ROOM && next == 12, "a byte short");
}

static void texts(void)
{
    uint8_t kind = 99;
    size_t place = STALE, len = STALE, next = STALE;
    CHECK(mk_read_text(NULL, 0, 0, &kind, &place, &len, &next) == MK_SHORT && kind == 99 && next == STALE, "empty input");
    lent n = lend_bytes("\373", 1), s = lend_bytes("\2ab", 3), b = lend_bytes("\377ab", 3);
    CHECK(mk_read_text(n.at, 1, 0, &kind, &place, &len, &next) == MK_OK && kind == MK_NULL && next == 1 && place == STALE, "0xFB is NULL");
    CHECK(mk_read_text(s.at, 3, 0, &kind, &place, &len, &next) == MK_OK && kind == MK_BYTES && place == 1 && len == 2 && next == 3, "a string");
    CHECK(mk_read_text(b.at, 3, 0, &kind, &place, &len, &next) == MK_BAD_LEAD && kind == MK_BYTES && next == 3, "0xFF");
    lend_back(n);
    lend_back(s);
    lend_back(b);
}

/* ---- rows */

static void rows(void)
{
    /* E10: ten columns, bitmap 04 08: columns 0 and 9 NULL; the others one byte each */
    static const char row[] = "\0\4\10abcdefgh";
    static const uint8_t types[10] = {1, 1, 1, 1, 1, 1, 1, 1, 1, 1}, signs[10] = {0};
    lent s = lend_bytes(row, sizeof row - 1), starts = lend_end(10 * sizeof(size_t));
    size_t *at = (size_t *)(void *)starts.at, nulls = STALE, used = STALE;
    for (size_t i = 0; i < 10; i++) at[i] = STALE;
    CHECK(mk_read_row(s.at, s.len, types, 10, signs, 9, at, 10, &nulls, &used) == MK_BAD_COLUMNS, "unequal lists");
    CHECK(mk_read_row(s.at, s.len, types, 0, signs, 0, at, 10, &nulls, &used) == MK_BAD_COLUMNS, "no column");
    CHECK(mk_read_row(s.at, s.len, types, 10, signs, 10, at, 9, &nulls, &used) == MK_NO_ROOM, "a list one short");
    CHECK(mk_read_row(s.at, 0, types, 10, signs, 10, at, 10, &nulls, &used) == MK_SHORT, "no byte");
    CHECK(mk_read_row(s.at + 1, 8, types, 10, signs, 10, at, 10, &nulls, &used) == MK_BAD_ROW, "first byte not 0");
    for (size_t n = 1; n < s.len; n++) CHECK(mk_read_row(s.at, n, types, 10, signs, 10, at, 10, &nulls, &used) == MK_SHORT, "%zu bytes", n);
    CHECK(nulls == STALE && used == STALE, "a refusal wrote");
    for (size_t i = 0; i < 10; i++) CHECK(at[i] == STALE, "a refusal wrote start %zu", i);
    CHECK(mk_read_row(s.at, s.len, types, 10, signs, 10, at, 10, &nulls, &used) == MK_OK && nulls == 2 && used == s.len, "%zu NULLs, %zu bytes", nulls, used);
    for (size_t i = 0; i < 10; i++) CHECK(at[i] == (i == 0 ? 3 : i + 2), "start %zu is %zu", i, at[i]);
    uint8_t is_null = 9;
    CHECK(mk_null_bit(s.at + 1, 2, 0, 9, &is_null) == MK_OK && is_null == 1, "column 9");
    CHECK(mk_null_bit(s.at + 1, 2, 0, 8, &is_null) == MK_OK && is_null == 0, "column 8");
    CHECK(mk_null_bit(s.at + 1, 2, 1, 2, &is_null) == MK_OK && is_null == 1, "parameter 2");
    CHECK(mk_null_bit(s.at + 1, 2, 0, 14, &is_null) == MK_SHORT && mk_null_bit(s.at, 0, 0, SIZE_MAX, &is_null) == MK_SHORT && is_null == 1, "no such bit");
    CHECK(mk_null_count(s.at + 1, 2, 0, 10, &nulls) == MK_OK && nulls == 2, "%zu", nulls);
    CHECK(mk_null_count(s.at + 1, 2, 0, 9, &nulls) == MK_OK && nulls == 1, "bits outside the columns count: %zu", nulls);
    CHECK(mk_null_count(s.at + 1, 2, 0, 0, &nulls) == MK_BAD_COLUMNS && mk_null_count(s.at + 1, 2, 0, 4097, &nulls) == MK_BAD_COLUMNS && mk_null_count(s.at + 1, 1, 0, 10, &nulls) == MK_SHORT && nulls == 1, "refusals");
    lend_back(s);
    lend_back(starts);

    static uint8_t many[4097], signs_of[4097], big[1 + 513 + 4096];
    static size_t list[4097];
    memset(many, 1, sizeof many);
    CHECK(mk_read_row(big, sizeof big, many, 4096, signs_of, 4096, list, 4096, &nulls, &used) == MK_OK && nulls == 0 && used == sizeof big, "4,096 columns");
    CHECK(mk_read_row(big, sizeof big, many, 4097, signs_of, 4097, list, 4097, &nulls, &used) == MK_BAD_COLUMNS, "4,097 columns");
    CHECK(mk_read_params(big, 512 + 4096, many, 4096, signs_of, 4096, list, 4096, &nulls, &used) == MK_OK && used == 512 + 4096 && list[0] == 512, "4,096 parameters");
    many[4095] = 17;
    CHECK(mk_read_row(big, sizeof big, many, 4096, signs_of, 4096, list, 4096, &nulls, &used) == MK_BAD_TYPE, "the last type is bad");
}

/* ---- quotes */

static void quotes(void)
{
    static const struct {
        uint8_t mode;
        const char *in, *out;
        size_t n, m;
    } cases[] = {
        {1, "a'b", "'a''b'", 3, 6}, /* E9 */
        {0, "a'b", "'a\\'b'", 3, 6},
        {0, "\0\n\r\32\\'\"", "'\\0\\n\\r\\Z\\\\\\'\\\"'", 7, 16},
        {1, "\0\n\r\32\\'\"", "'\0\n\r\32\\''\"'", 7, 10},
        {0, "", "''", 0, 2},
    };
    for (size_t i = 0; i < sizeof cases / sizeof *cases; i++) {
        lent s = lend_bytes(cases[i].in, cases[i].n), d = lend_end(cases[i].m + 1);
        size_t len = STALE, next = STALE;
        CHECK(mk_escaped_len(s.at, s.len, cases[i].mode, &len) == MK_OK && len == cases[i].m, "case %zu: %zu", i, len);
        CHECK(mk_escaped(d.at, cases[i].m, 1, s.at, s.len, cases[i].mode, &next) == MK_NO_ROOM && next == STALE && d.at[1] == CANARY, "case %zu: a byte short", i);
        CHECK(mk_escaped(d.at, d.len, 1, s.at, s.len, cases[i].mode, &next) == MK_OK && next == d.len, "case %zu", i);
        CHECK(d.at[0] == CANARY && memcmp(d.at + 1, cases[i].out, cases[i].m) == 0, "case %zu", i);
        lend_back(s);
        lend_back(d);
    }
}

/* ---- session records */

static void records(void)
{
    size_t place = STALE, len = STALE, used = STALE, next = STALE;
    uint8_t tracked = 9;
    lent one = lend_bytes("\0011", 2), long_one = lend_bytes("\374\1\0001", 4), zero = lend_bytes("\0010x", 3);
    CHECK(mk_read_record(one.at, 2, 2, &place, &len, &tracked, &used) == MK_OK && tracked == 1 && used == 2 && place == STALE, "01 31 is tracked");
    CHECK(mk_read_record(long_one.at, 4, 2, &place, &len, &tracked, &used) == MK_OK && tracked == 1 && used == 4, "FC 01 00 31 too");
    CHECK(mk_read_record(zero.at, 3, 2, &place, &len, &tracked, &used) == MK_OK && tracked == 0 && used == 2, "01 30 is not, and a byte behind it stays");
    for (int kind = 0; kind < 256; kind++) {
        place = len = used = STALE;
        tracked = 9;
        uint8_t r = mk_read_record(zero.at, 3, (uint8_t)kind, &place, &len, &tracked, &used);
        CHECK(r == MK_OK && (tracked == 9) == (kind != 2), "type %d", kind);
        if (kind == 0)
            CHECK(used == 0 && place == STALE, "type 0");
        else if (kind == 1 || kind == 4 || kind == 5)
            CHECK(used == 2 && place == 1 && len == 1, "type %d", kind);
        else if (kind != 2)
            CHECK(used == 3 && place == 0 && len == 3, "type %d", kind);
        used = STALE;
        r = mk_read_record(NULL, 0, (uint8_t)kind, &place, &len, &tracked, &used);
        CHECK(r == (kind == 1 || kind == 2 || kind == 4 || kind == 5 ? MK_SHORT : MK_OK) && (used == STALE) == (r != MK_OK), "type %d, empty", kind);
        /* written and read back */
        uint8_t d[8] = {0};
        CHECK(mk_put_record(d, sizeof d, 1, (uint8_t)kind, (const uint8_t *)"abc", 3, 1, &next) == MK_OK, "type %d", kind);
        CHECK(mk_read_record(d + 1, next - 1, (uint8_t)kind, &place, &len, &tracked, &used) == MK_OK && used == next - 1, "type %d", kind);
        if (kind == 2)
            CHECK(tracked == 1 && next == 3, "type 2");
        else if (kind != 0)
            CHECK(len == 3 && memcmp(d + 1 + place, "abc", 3) == 0, "type %d", kind);
        size_t end = next;
        if (end > 1) CHECK(mk_put_record(d, end - 1, 1, (uint8_t)kind, (const uint8_t *)"abc", 3, 1, &next) == MK_NO_ROOM && next == end, "type %d", kind);
    }
    lend_back(one);
    lend_back(long_one);
    lend_back(zero);

    uint8_t d[64], found = 9;
    size_t na = STALE, nl = STALE, va = STALE, vl = STALE;
    CHECK(mk_put_variable(d, sizeof d, 0, (const uint8_t *)"autocommit", 10, (const uint8_t *)"ON", 2, &next) == MK_OK && next == 14, "%zu", next);
    CHECK(mk_put_variable(d, sizeof d, 14, (const uint8_t *)"x", 1, NULL, 0, &next) == MK_OK && next == 17, "%zu", next);
    CHECK(mk_put_variable(d, 16, 14, (const uint8_t *)"x", 1, NULL, 0, &next) == MK_NO_ROOM && next == 17, "a byte short");
    lent s = lend_bytes(d, 17);
    CHECK(mk_next_variable(s.at, 17, 0, &found, &na, &nl, &va, &vl, &next) == MK_OK && found == 1 && na == 1 && nl == 10 && va == 12 && vl == 2 && next == 14, "first");
    CHECK(mk_next_variable(s.at, 17, 14, &found, &na, &nl, &va, &vl, &next) == MK_OK && found == 1 && nl == 1 && vl == 0 && next == 17, "second");
    CHECK(mk_next_variable(s.at, 17, 17, &found, &na, &nl, &va, &vl, &next) == MK_OK && found == 0 && nl == 1 && next == 17, "the end");
    found = 9;
    CHECK(mk_next_variable(s.at, 17, 18, &found, &na, &nl, &va, &vl, &next) == MK_SHORT && found == 9 && next == 17, "beyond it");
    CHECK(mk_next_variable(s.at, 16, 14, &found, &na, &nl, &va, &vl, &next) == MK_SHORT && found == 9, "a name without a value");
    lend_back(s);
}

/* ---- hostile: random bytes at every reader, each against its end */

static void hostile(void)
{
    for (int i = 0; i < 20000; i++) {
        size_t n = random_below(24);
        lent s = lend_end(n);
        random_fill(s.at, n);
        size_t at = random_below(n + 3), a = 0, b = 0, c = 0, e = 0, f = 0;
        uint8_t k = 0, x[4];
        int64_t z = 0;
        uint64_t u = 0;
        uint32_t w[2];
        uint16_t y = 0;
        size_t list[8];
        uint8_t types[8], signs[8];
        random_fill(types, 8);
        random_fill(signs, 8);
        CHECK(mk_lenenc_int(s.at, n, at, &u, &a) != MK_OK || a <= n, "at %zu of %zu", at, n);
        CHECK(mk_lenenc_str(s.at, n, at, &a, &b) != MK_OK || a + b <= n, "at %zu of %zu", at, n);
        CHECK(mk_read_duration(s.at, n, at, &z, &a) != MK_OK || a <= n, "at %zu of %zu", at, n);
        CHECK(mk_read_time(s.at, n, at, &k, &w[0], &x[0], &x[1], &x[2], &w[1], &a) != MK_OK || a <= n, "at %zu of %zu", at, n);
        CHECK(mk_read_date(s.at, n, at, &y, &k, &x[0], &x[1], &x[2], &x[3], &w[0], &a) != MK_OK || a <= n, "at %zu of %zu", at, n);
        CHECK(mk_read_value(s.at, n, at, (uint8_t)random_u64(), (uint8_t)random_u64(), &k, &z, &u, &a, &b, &c) != MK_OK || c <= n || (c == at && k == MK_NULL), "at %zu of %zu", at, n);
        CHECK(mk_read_text(s.at, n, at, &k, &a, &b, &c) != MK_OK || c <= n, "at %zu of %zu", at, n);
        CHECK(mk_read_row(s.at, n, types, 8, signs, 8, list, 8, &a, &b) != MK_OK || (a <= 8 && b <= n), "%zu", n);
        CHECK(mk_read_params(s.at, n, types, 8, signs, 8, list, 8, &a, &b) != MK_OK || (a <= 8 && b <= n), "%zu", n);
        CHECK(mk_read_record(s.at, n, (uint8_t)random_below(8), &a, &b, &k, &c) != MK_OK || c <= n, "%zu", n);
        CHECK(mk_next_variable(s.at, n, at, &k, &a, &b, &c, &e, &f) != MK_OK || k == 0 || (f <= n && f > at), "at %zu of %zu", at, n);
        lend_back(s);
    }
}

static void words(void)
{
    for (int i = 0; i < 256; i++) CHECK(mk_refusal_text((uint8_t)i) != NULL && mk_refusal_text((uint8_t)i)[0] != 0, "%d", i);
    CHECK(strcmp(mk_refusal_text(3), "3: out of sync") == 0, "%s", mk_refusal_text(3));
    CHECK(strcmp(mk_version(), MK_VERSION) == 0, "%s", mk_version());
}

int main(void)
{
    integers();
    strings();
    durations();
    integers_of_columns();
    every_type();
    floats();
    dates();
    texts();
    rows();
    quotes();
    records();
    hostile();
    words();
    return checks_done("values");
}
