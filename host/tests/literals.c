/*
 * Other programs' quotes from C: the examples of docs/LITERALS.md, the list that a plain restatement of the grammar made, what a
 * MariaDB server answered, and whatever mk_escaped writes. Each input ends at a page that may not be touched, and so does each buffer.
 *
 *   literals [LIST]     LIST is the server's answers, crates/literals/data/literals-mariadb.txt if none is named
 */
#include "lend.h"
#include "mishkeldur.h"

#define OURS "../crates/literals/data/literals.txt"
#define SERVER "../crates/literals/data/literals-mariadb.txt"
#define LONGEST 4096

/* What both entries say of an input, held to each other: the status, and the number of bytes meant, which stand in `meant`, or the place. */
static uint8_t judge(const uint8_t *input, size_t n, uint8_t mode, uint8_t *meant, size_t *answer)
{
    lent s = lend_bytes(input, n);
    size_t len = STALE, place = STALE;
    uint8_t r = mk_literal_len(s.at, s.len, mode, &len, &place);

    CHECK(r == MK_OK || r == MK_BAD_LITERAL, "%s", mk_refusal_text(r));
    CHECK((len == STALE) == (r != MK_OK) && (place == STALE) == (r != MK_BAD_LITERAL), "%s: len %zu, place %zu", mk_refusal_text(r), len, place);
    *answer = r == MK_OK ? len : place;
    if (r == MK_OK)
        CHECK(len + 2 <= n, "%zu bytes mean %zu", n, len);
    else
        CHECK(place <= n, "place %zu of %zu", place, n);

    /* Just the room, some more, and one byte less; a bad literal is bad with any room. */
    size_t need = r == MK_OK ? len : 0;
    for (int way = 0; way < 3; way++) {
        if (way == 2 && need == 0) break;
        lent d = lend_end(way == 0 ? need : way == 1 ? need + 5 : need - 1);
        size_t len2 = STALE, place2 = STALE;
        uint8_t q = mk_literal(d.at, d.len, s.at, s.len, mode, &len2, &place2);

        if (way == 2) {
            CHECK(q == MK_NO_ROOM && len2 == STALE && place2 == STALE, "%s: len %zu, place %zu", mk_refusal_text(q), len2, place2);
        } else {
            CHECK(q == r && len2 == len && place2 == place, "%s and %s", mk_refusal_text(r), mk_refusal_text(q));
        }
        /* What is not written stays. */
        for (size_t i = way == 2 || q != MK_OK ? 0 : need; i < d.len; i++) CHECK(d.at[i] == CANARY, "byte %zu has changed", i);
        if (way == 0 && need != 0) memcpy(meant, d.at, need);
        lend_back(d);
    }
    CHECK(n == 0 || memcmp(s.at, input, n) == 0, "the input has changed");
    lend_back(s);
    return r;
}

/* ---- the page's examples */

static void examples(void)
{
    static const struct {
        const char *input;
        uint8_t mode;
        const char *means; /* or NULL, and the place */
        size_t n;          /* the bytes meant, or the place */
    } cases[] = {
        {"''", 0, "", 0},
        {"''", 1, "", 0},
        {"'a''b'", 0, "a'b", 3},
        {"'a''b'", 255, "a'b", 3},
        {"''''", 0, "'", 1},
        {"'a\\'b'", 0, "a'b", 3},
        {"'a\\'b'", 1, NULL, 4},
        {"'\\\\'", 0, "\\", 1},
        {"'\\\\'", 1, "\\\\", 2},
        {"'\\n\\t\\0'", 0, "\n\t\0", 3},
        {"'\\n\\t\\0'", 1, "\\n\\t\\0", 6},
        {"'\\b\\r\\Z'", 0, "\b\r\032", 3},
        {"'\\%\\_'", 0, "\\%\\_", 4},
        {"'\\x\"'", 0, "x\"", 2},
        {"'\\'", 0, NULL, 3},
        {"'\\'", 2, "\\", 1},
        {"'a\\", 0, NULL, 3},
        {"'a''", 0, NULL, 4},
        {"'a''", 1, NULL, 4},
        {"'a' 'b'", 0, NULL, 3},
        {"\"a\"", 0, NULL, 0},
        {"a", 1, NULL, 0},
        {"", 0, NULL, 0},
        {"", 1, NULL, 0},
    };
    for (size_t i = 0; i < sizeof cases / sizeof *cases; i++) {
        uint8_t meant[16];
        size_t answer;
        uint8_t r = judge((const uint8_t *)cases[i].input, strlen(cases[i].input), cases[i].mode, meant, &answer);
        CHECK(r == (cases[i].means ? MK_OK : MK_BAD_LITERAL) && answer == cases[i].n, "case %zu: %s, %zu", i, mk_refusal_text(r), answer);
        if (r == MK_OK && cases[i].means) CHECK(memcmp(meant, cases[i].means, answer) == 0, "case %zu", i);
    }
    size_t len = STALE, place = STALE;
    CHECK(mk_literal_len(NULL, 0, 0, &len, &place) == MK_BAD_LITERAL && len == STALE && place == 0, "no bytes at all");
    CHECK(mk_literal(NULL, 0, (const uint8_t *)"''", 2, 0, &len, &place) == MK_OK && len == 0 && place == 0, "no buffer for no bytes");
    /* 15 comes before 6. */
    len = place = STALE;
    CHECK(mk_literal(NULL, 0, (const uint8_t *)"'abc", 4, 0, &len, &place) == MK_BAD_LITERAL && len == STALE && place == 4, "15 before 6");
    CHECK(strcmp(mk_refusal_text(MK_BAD_LITERAL), "15: bad literal") == 0, "its text");
}

/* ---- lists: a mode, the input in hex, a sign, and what the sign has; one space between them */

typedef struct {
    uint8_t mode;
    uint8_t input[LONGEST];
    size_t n;
    char sign;
    const char *rest;
} entry;

static size_t unhex(const char *text, size_t digits, uint8_t *to)
{
    for (size_t i = 0; i < digits / 2; i++) {
        unsigned byte;
        if (sscanf(text + 2 * i, "%2x", &byte) != 1) exit(2);
        to[i] = (uint8_t)byte;
    }
    return digits / 2;
}

static size_t each(const char *path, void (*look)(const entry *))
{
    static char line[4 * LONGEST];
    static entry e;
    size_t lines = 0;
    FILE *f = fopen(path, "r");
    if (f == NULL) {
        perror(path);
        exit(2);
    }
    while (fgets(line, sizeof line, f) != NULL) {
        line[strcspn(line, "\n")] = 0;
        size_t digits = strspn(line + 2, "0123456789abcdef");
        const char *sign = line + 2 + digits + 1;
        if ((line[0] != 'b' && line[0] != 'o') || line[1] != ' ' || sign[-1] != ' ' || digits / 2 > LONGEST) {
            fprintf(stderr, "%s: not a line of the list: %s\n", path, line);
            exit(2);
        }
        e.mode = line[0] == 'o';
        e.n = unhex(line + 2, digits, e.input);
        e.sign = sign[0];
        e.rest = sign[1] == ' ' ? sign + 2 : "";
        look(&e);
        lines++;
    }
    fclose(f);
    return lines;
}

static bool means(const entry *e, const uint8_t *meant, size_t n)
{
    static uint8_t want[LONGEST];
    size_t digits = strlen(e->rest);
    return digits == strspn(e->rest, "0123456789abcdef") && n == unhex(e->rest, digits, want) && memcmp(meant, want, n) == 0;
}

static void as_the_grammar(const entry *e)
{
    static uint8_t meant[LONGEST];
    size_t answer;
    uint8_t r = judge(e->input, e->n, e->mode, meant, &answer);
    if (e->sign == '=')
        CHECK(r == MK_OK && means(e, meant, answer), "%.*s in mode %d", (int)e->n, (const char *)e->input, e->mode);
    else
        CHECK(r == MK_BAD_LITERAL && answer == strtoul(e->rest, NULL, 10), "%.*s in mode %d: %zu", (int)e->n, (const char *)e->input, e->mode, answer);
}

static size_t both_take, both_refuse, server_takes;

/*
 * What we take, the server takes and means the same by. What it refuses we refuse. It takes more than we do only where the input is more than
 * a single-quoted literal: it does not begin with ', or a whole literal is followed by something; never where we say that the rest is missing.
 */
static void as_the_server(const entry *e)
{
    static uint8_t meant[LONGEST];
    size_t answer, whole, none;
    uint8_t r = judge(e->input, e->n, e->mode, meant, &answer);
    if (r == MK_OK) {
        CHECK(e->sign == '=' && means(e, meant, answer), "%.*s in mode %d: the server says %c %s", (int)e->n, (const char *)e->input, e->mode, e->sign, e->rest);
        both_take++;
    } else if (e->sign == '!') {
        both_refuse++;
    } else {
        CHECK(answer < e->n, "%.*s in mode %d: the server takes a beginning", (int)e->n, (const char *)e->input, e->mode);
        if (answer == 0)
            CHECK(e->input[0] != '\'', "%.*s in mode %d", (int)e->n, (const char *)e->input, e->mode);
        else
            CHECK(mk_literal_len(e->input, answer, e->mode, &whole, &none) == MK_OK, "%.*s in mode %d", (int)e->n, (const char *)e->input, e->mode);
        server_takes++;
    }
}

/* ---- what mk_escaped writes is taken and means its input */

static void escaped(void)
{
    static const uint8_t odd[] = {'\'', '\\', '"', 0, '\n', '\r', 0x1A, '%', '_', 'n', 'Z', '0', 0xFF};
    static uint8_t input[600], quoted[1202], meant[1202];
    for (int i = 0; i < 4000; i++) {
        size_t n = random_below(i % 100 == 0 ? 600 : 24), end = STALE, answer;
        for (size_t k = 0; k < n; k++) input[k] = random_below(3) ? odd[random_below(sizeof odd)] : (uint8_t)random_u64();
        for (uint8_t mode = 0; mode < 2; mode++) {
            CHECK(mk_escaped(quoted, sizeof quoted, 0, input, n, mode, &end) == MK_OK, "turn %d", i);
            CHECK(judge(quoted, end, mode, meant, &answer) == MK_OK && answer == n && memcmp(meant, input, n) == 0, "turn %d, mode %d", i, mode);
            /* Without its last byte it is a beginning, and with one more it is none. */
            CHECK(judge(quoted, end - 1, mode, meant, &answer) == MK_BAD_LITERAL && answer == end - 1, "turn %d, mode %d: cut", i, mode);
            if (end < sizeof quoted) {
                quoted[end] = 'a';
                CHECK(judge(quoted, end + 1, mode, meant, &answer) == MK_BAD_LITERAL && answer == end, "turn %d, mode %d: more", i, mode);
            }
        }
    }
}

/* ---- any bytes: judge() itself holds the two entries to each other */

static void random_bytes(void)
{
    static const uint8_t few[] = {'\'', '\'', '\\', 'a', '%'};
    uint8_t input[12], meant[12];
    size_t answer;
    for (int i = 0; i < 6000; i++) {
        size_t n = random_below(sizeof input + 1);
        for (size_t k = 0; k < n; k++) input[k] = k == 0 && i % 4 ? '\'' : few[random_below(sizeof few)];
        judge(input, n, (uint8_t)(i % 2), meant, &answer);
    }
}

int main(int argc, char **argv)
{
    const char *list = argc > 1 ? argv[1] : SERVER;
    examples();
    size_t lines = each(OURS, as_the_grammar);
    size_t asked = each(list, as_the_server);
    escaped();
    random_bytes();
    CHECK(lines > 2000 && asked > 2000 && both_take > 1000 && both_refuse > 500, "a list is cut: %zu and %zu lines", lines, asked);
    printf("literals: %zu by the grammar; of %zu that a server was asked both take %zu, both refuse %zu, the server alone takes %zu\n", lines, asked, both_take,
           both_refuse, server_takes);
    return checks_done("literals");
}
