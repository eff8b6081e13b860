/*
 * Rows packed into statements, from C: mk_plan and mk_judge at their edges and on proposals that nobody would make, and the station names as
 * INSERT statements that a box of 61,440 bytes can send.
 *
 *   pack          the tests
 *   pack FILE     the tests, and the statements into FILE, one a line, for a server's client
 *
 * The names are ../data/station-names.txt, or the file that MISHKELDUR_NAMES says.
 */
#include "lend.h"
#include "mishkeldur.h"

static const uint64_t MARK = 0x7654321000000000u; /* no end comes near it */

enum { REFUSED = 100000, BOX = 61440 };

/* What the planner says: the number of groups, or REFUSED and the refusal's number, and then nothing may be written. */
static size_t plan(const uint32_t *rows, size_t n, uint64_t overhead, uint64_t limit, uint64_t *ends, size_t room)
{
    lent l = lend_bytes(rows, 4 * n), e = lend_end(8 * room);
    uint64_t *list = (uint64_t *)(void *)e.at;
    size_t groups = STALE;
    for (size_t i = 0; i < room; i++) list[i] = MARK;
    uint8_t r = mk_plan((const uint32_t *)(void *)l.at, n, overhead, limit, list, room, &groups);
    size_t kept = r == MK_OK ? groups : 0;
    CHECK(r == MK_OK ? groups <= room && groups <= n : groups == STALE, "status %d, %zu groups", r, groups);
    for (size_t i = 0; i < room; i++) CHECK((list[i] == MARK) == (i >= kept), "end %zu of %zu", i, kept);
    CHECK(n == 0 || memcmp(l.at, rows, 4 * n) == 0, "the rows were written");
    if (ends && kept) memcpy(ends, list, 8 * kept);
    lend_back(l);
    lend_back(e);
    return r == MK_OK ? groups : REFUSED + (size_t)r;
}

/* What the judge says: 1 or 0, or REFUSED and the refusal's number. */
static size_t judge(const uint32_t *rows, size_t n, uint64_t overhead, uint64_t limit, const uint64_t *proposal, size_t k)
{
    lent l = lend_bytes(rows, 4 * n), p = lend_bytes(proposal, 8 * k);
    uint8_t accepted = CANARY;
    uint8_t r = mk_judge((const uint32_t *)(void *)l.at, n, overhead, limit, (const uint64_t *)(void *)p.at, k, &accepted);
    CHECK(r == MK_OK ? accepted <= 1 : accepted == CANARY, "status %d, accepted %d", r, accepted);
    CHECK(k == 0 || memcmp(p.at, proposal, 8 * k) == 0, "the proposal was written");
    lend_back(l);
    lend_back(p);
    return r == MK_OK ? accepted : REFUSED + (size_t)r;
}

#define ROWS(...) (const uint32_t[]){__VA_ARGS__}, sizeof((const uint32_t[]){__VA_ARGS__}) / 4
#define ENDS(...) (const uint64_t[]){__VA_ARGS__}, sizeof((const uint64_t[]){__VA_ARGS__}) / 8

/* ---- the edges */

static void at_the_limit(void)
{
    CHECK(plan(ROWS(3, 4), 2, 10, NULL, 2) == 1, "two rows at the limit");
    CHECK(plan(ROWS(3, 4), 2, 9, NULL, 2) == 2, "two rows one over");
    CHECK(judge(ROWS(3, 4), 2, 10, ENDS(2)) == 1, "two rows judged");
    CHECK(judge(ROWS(3, 4), 2, 9, ENDS(2)) == 0, "two rows judged one over");
    CHECK(judge(ROWS(3, 4), 2, 9, ENDS(1, 2)) == 1, "each by itself");
    CHECK(plan(ROWS(5), 2, 7, NULL, 1) == 1, "a row at the limit");
    CHECK(plan(ROWS(5), 2, 6, NULL, 1) == REFUSED + MK_ROW_TOO_LONG, "a row one over");
    CHECK(judge(ROWS(5), 2, 6, ENDS(1)) == 0, "to the judge it is simply a no");
    CHECK(plan(ROWS(0, 0, 0), 0, 2, NULL, 3) == 1, "empty rows at the limit");
    CHECK(plan(ROWS(0, 0, 0), 0, 1, NULL, 3) == 2, "empty rows one over");
    CHECK(plan(ROWS(0, 0, 0), 0, 0, NULL, 3) == 3, "empty rows and no room");
    CHECK(plan(ROWS(1, 2, 9, 1), 0, 8, NULL, 0) == REFUSED + MK_ROW_TOO_LONG, "16 before 6");
    CHECK(plan(ROWS(0, 0, 0), 0, 0, NULL, 2) == REFUSED + MK_NO_ROOM, "a list one short");
    CHECK(plan(ROWS(0, 0, 0), 0, 0, NULL, 0) == REFUSED + MK_NO_ROOM, "no list");
}

static void no_rows(void)
{
    size_t groups = STALE;
    uint8_t accepted = CANARY;
    CHECK(plan(NULL, 0, 5, 0, NULL, 0) == 0 && plan(NULL, 0, 5, 9, NULL, 3) == 0, "no rows give no groups, whatever the limit");
    CHECK(mk_plan(NULL, 0, 1, 0, NULL, 0, &groups) == MK_OK && groups == 0, "NULL of no rows");
    CHECK(mk_judge(NULL, 0, 1, 0, NULL, 0, &accepted) == MK_OK && accepted == 1, "no groups of no rows");
    CHECK(judge(NULL, 0, 0, 9, ENDS(0)) == 0 && judge(NULL, 0, 0, 9, ENDS(1)) == 0, "any group of no rows");
    CHECK(judge(ROWS(1, 1), 0, 9, NULL, 0) == 0, "rows in no group");
    CHECK(judge(ROWS(1, 1), 0, 9, ENDS(1)) == 0, "a row left over");
    CHECK(judge(ROWS(1, 1), 0, 9, ENDS(2, 2)) == 0 && judge(ROWS(1, 1), 0, 9, ENDS(0, 2)) == 0, "an empty group");
    CHECK(judge(ROWS(1, 1), 0, 9, ENDS(2, 1)) == 0 && judge(ROWS(1, 1), 0, 9, ENDS(3)) == 0, "back, and past the end");
    CHECK(judge(ROWS(1, 1), 0, 9, ENDS(UINT64_MAX)) == 0 && judge(ROWS(1, 1), 0, 9, ENDS(1, UINT64_MAX, 2)) == 0, "far past the end");
    CHECK(judge(ROWS(1, 1), 0, 9, ENDS(0x100000002u)) == 0, "the low half alone would be right");
}

/* 8,192 rows and one more; rows of 2^32 - 1 bytes under the largest limit: together they take 2^45 - 1 bytes. */
static void many(void)
{
    enum { MOST = MK_MAX_ROWS };
    static uint32_t rows[MOST + 1];
    static uint64_t ends[MOST];
    const uint64_t top = UINT64_MAX, exact = 0xFFFFE00000000000u, alone = 0xFFFFFFFF00000000u;

    for (size_t i = 0; i <= MOST; i++) rows[i] = 1;
    CHECK(plan(rows, MOST, 0, 16383, NULL, MOST) == 1, "8,192 rows");
    CHECK(plan(rows, MOST, 0, 16382, NULL, MOST) == 2, "8,192 rows one over");
    CHECK(judge(rows, MOST, 0, 16383, ENDS(MOST)) == 1, "8,192 judged");
    CHECK(judge(rows, MOST, 0, 16382, ENDS(MOST)) == 0, "8,192 judged one over");
    CHECK(plan(rows, MOST + 1, 0, top, NULL, MOST) == REFUSED + MK_TOO_MANY_ROWS, "8,193 rows");
    CHECK(plan(rows, MOST + 1, 9, 0, NULL, 0) == REFUSED + MK_TOO_MANY_ROWS, "17 before 16 and 6");
    CHECK(judge(rows, MOST + 1, 0, top, ENDS(MOST + 1)) == REFUSED + MK_TOO_MANY_ROWS, "8,193 rows judged");
    CHECK(judge(rows, MOST + 1, 0, top, NULL, 0) == REFUSED + MK_TOO_MANY_ROWS, "8,193 rows and no proposal");

    for (size_t i = 0; i < MOST; i++) rows[i] = UINT32_MAX;
    CHECK(plan(rows, MOST, 0, top, NULL, MOST) == 1, "tall rows");
    CHECK(plan(rows, MOST, exact, top, NULL, MOST) == 1, "tall rows exactly");
    CHECK(plan(rows, MOST, exact + 1, top, NULL, MOST) == 2, "tall rows one over");
    CHECK(judge(rows, MOST, exact, top, ENDS(MOST)) == 1, "tall rows judged");
    CHECK(judge(rows, MOST, exact + 1, top, ENDS(MOST)) == 0, "tall rows judged one over");
    CHECK(plan(rows, MOST, alone, top, ends, MOST) == MOST, "each alone");
    CHECK(judge(rows, MOST, alone, top, ends, MOST) == 1, "each alone judged");
    CHECK(plan(rows, MOST, alone, top, NULL, MOST - 1) == REFUSED + MK_NO_ROOM, "a list one short");
    CHECK(plan(rows, MOST, alone + 1, top, NULL, MOST) == REFUSED + MK_ROW_TOO_LONG, "too long by one");
    CHECK(plan(rows, MOST, top, top, NULL, MOST) == REFUSED + MK_ROW_TOO_LONG, "no room at all");
    CHECK(judge(rows, MOST, top, top, ENDS(MOST)) == 0, "no room judged");
}

/* ---- every cut of short lists, and odd proposals, against a plain re-count */

static bool recount(const uint32_t *rows, size_t n, uint64_t overhead, uint64_t limit, const uint64_t *ends, size_t k)
{
    uint64_t at = 0;
    for (size_t i = 0; i < k; at = ends[i++]) {
        if (ends[i] <= at || ends[i] > n) return false;
        uint64_t sum = overhead + (ends[i] - at - 1);
        for (uint64_t j = at; j < ends[i]; j++) sum += rows[j];
        if (sum > limit) return false;
    }
    return at == n;
}

static void cuts(void)
{
    for (size_t list = 0; list < 200; list++) {
        uint32_t rows[8];
        uint64_t ends[8], overhead = random_below(9), limit = 10 + random_below(30);
        size_t n = list % 9, least = REFUSED + MK_ROW_TOO_LONG;
        for (size_t i = 0; i < n; i++) rows[i] = (uint32_t)random_below(13);
        for (size_t bits = 0; bits < (n ? (size_t)1 << (n - 1) : 1); bits++) {
            size_t k = 0;
            for (size_t i = 1; i <= n; i++)
                if (i == n || (bits >> (i - 1) & 1)) ends[k++] = i;
            bool right = recount(rows, n, overhead, limit, ends, k);
            CHECK(judge(rows, n, overhead, limit, ends, k) == right, "list %zu, cut %zu", list, bits);
            if (right && k < least) least = k;
        }
        CHECK(plan(rows, n, overhead, limit, ends, n) == least, "list %zu: the fewest groups are %zu", list, least);
        if (least <= n) CHECK(judge(rows, n, overhead, limit, ends, least) == 1, "list %zu: the plan", list);
        if (least != 0 && least <= n) CHECK(plan(rows, n, overhead, limit, NULL, least - 1) == REFUSED + MK_NO_ROOM, "list %zu", list);
        for (size_t odd = 0; odd < 20; odd++) {
            size_t k = random_below(5);
            for (size_t i = 0; i < k; i++) ends[i] = random_below(8) ? i + random_below(4) : random_u64();
            CHECK(judge(rows, n, overhead, limit, ends, k) == recount(rows, n, overhead, limit, ends, k), "list %zu, odd %zu", list, odd);
        }
    }
}

/* ---- the station names */

static uint8_t *file_of(const char *path, size_t *len)
{
    FILE *f = fopen(path, "rb");
    if (!f) {
        perror(path);
        exit(2);
    }
    size_t room = 1 << 20;
    uint8_t *bytes = malloc(room);
    *len = bytes ? fread(bytes, 1, room, f) : 0;
    if (*len == 0 || *len == room) {
        fprintf(stderr, "%s: no names, or too many\n", path);
        exit(2);
    }
    fclose(f);
    return bytes;
}

/* The name in the bytes of a quoted one, by the server's rule for a backslash, and how many bytes it took. */
static size_t unquoted(const uint8_t *s, size_t n, uint8_t *name, size_t *len)
{
    size_t i = 1;
    *len = 0;
    if (n == 0 || s[0] != '\'') return 0;
    while (i < n && s[i] != '\'') {
        uint8_t c = s[i++];
        if (c == '\\' && i < n) {
            c = s[i++];
            c = c == '0' ? 0 : c == 'n' ? '\n' : c == 'r' ? '\r' : c == 'Z' ? 26 : c;
        }
        name[(*len)++] = c;
    }
    return i < n ? i + 1 : 0;
}

static void stations(const char *out)
{
    static const char front[] = "INSERT INTO stations (name) VALUES ";
    static uint32_t rows[MK_MAX_ROWS];
    static size_t starts[MK_MAX_ROWS + 1];
    static uint64_t ends[MK_MAX_ROWS];
    /* a command's byte, and the statement's front */
    const size_t overhead = 1 + sizeof front - 1;
    const char *path = getenv("MISHKELDUR_NAMES");
    size_t len, n = 0, at = 0;
    uint8_t *names = file_of(path ? path : "../data/station-names.txt", &len);
    uint8_t *quoted = malloc(3 * len + 4), *again = malloc(len);
    FILE *f = out ? fopen(out, "wb") : NULL;
    if (!quoted || !again || (out && !f)) {
        perror(out ? out : "malloc");
        exit(2);
    }

    /* each name as ('name'), one behind the other */
    for (size_t from = 0; from < len && n < MK_MAX_ROWS; n++) {
        const uint8_t *stop = memchr(names + from, '\n', len - from);
        size_t to = stop ? (size_t)(stop - names) : len;
        starts[n] = at;
        quoted[at++] = '(';
        CHECK(mk_escaped(quoted, 3 * len + 4, at, names + from, to - from, 0, &at) == MK_OK, "name %zu", n);
        quoted[at++] = ')';
        rows[n] = (uint32_t)(at - starts[n]);
        from = to + 1;
    }
    starts[n] = at;

    size_t groups = plan(rows, n, overhead, BOX, ends, MK_MAX_ROWS);
    CHECK(groups > 1 && groups < 20, "%zu statements of %zu names", groups, n);
    CHECK(judge(rows, n, overhead, BOX, ends, groups) == 1, "the plan is rejected");
    CHECK(judge(rows, n, overhead, BOX, ends, groups - 1) == 0, "accepted without its last group");
    CHECK(plan(rows, n, overhead, BOX, NULL, groups - 1) == REFUSED + MK_NO_ROOM, "a list one short");
    if (groups >= REFUSED) return;

    /* each statement as the box sends it, and the names out of it again */
    size_t first = 0, back = 0, longest = 0;
    for (size_t g = 0; g < groups; g++) {
        lent packet = lend_end(BOX);
        uint8_t *s = packet.at, state[MK_STATE_SIZE];
        static uint8_t wire[MK_PLAIN_SIZE(BOX)];
        size_t m = 0, written = 0, to = (size_t)ends[g];
        s[m++] = 3; /* a query */
        memcpy(s + m, front, sizeof front - 1);
        m += sizeof front - 1;
        CHECK(m == overhead, "the overhead is %zu", m);
        for (size_t i = first; i < to && m + 1 + rows[i] <= BOX; i++) {
            if (i > first) s[m++] = ',';
            memcpy(s + m, quoted + starts[i], rows[i]);
            m += rows[i];
        }
        CHECK(to > first && m == overhead + (starts[to] - starts[first]) + (to - first - 1) && m <= BOX, "statement %zu: %zu bytes", g, m);
        if (to < n) CHECK(m + 1 + rows[to] > BOX, "statement %zu has room for one row more", g);
        CHECK(mk_open(state, sizeof state, BOX) == MK_OK && mk_write(state, sizeof state, s, m, wire, sizeof wire, &written) == MK_OK
              && written == m + 4, "statement %zu can't be sent", g);
        if (f) {
            fwrite(s + 1, 1, m - 1, f);
            fputs(";\n", f);
        }
        if (m > longest) longest = m;
        for (size_t i = overhead; i < m && back < len;) {
            size_t k, took = unquoted(s + i + 1, m - i - 1, again + back, &k);
            CHECK(took != 0 && s[i] == '(' && s[i + 1 + took] == ')', "statement %zu, byte %zu", g, i);
            if (took == 0) break;
            back += k;
            again[back++] = '\n';
            i += took + 2;
            CHECK(i == m || s[i] == ',', "statement %zu, byte %zu", g, i);
            i++;
        }
        first = to;
        lend_back(packet);
    }
    CHECK(first == n && back == len && memcmp(again, names, len) == 0, "%zu bytes of names came back, of %zu", back, len);
    CHECK(!f || fclose(f) == 0, "%s can't be written", out);
    printf("pack: %zu names in %zu statements, the longest of %zu bytes\n", n, groups, longest);
    free(names);
    free(quoted);
    free(again);
}

int main(int argc, char **argv)
{
    CHECK(strcmp(mk_refusal_text(MK_ROW_TOO_LONG), "16: row too long") == 0, "16");
    CHECK(strcmp(mk_refusal_text(MK_TOO_MANY_ROWS), "17: too many rows") == 0, "17");
    at_the_limit();
    no_rows();
    many();
    cuts();
    stations(argc > 1 ? argv[1] : NULL);
    return checks_done("pack");
}
