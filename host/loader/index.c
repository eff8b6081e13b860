/*
 * A capture's index: a strict reader of just the JSON that such an index has. Anything else is refused: an index that is not
 * understood would lead to bytes being read as something that they are not.
 */
#include "loader.h"

#include <errno.h>
#include <stdio.h>
#include <stdlib.h>
#include <string.h>

enum { INDEX_LONGEST = 16 * 1024 * 1024 };

struct text {
    const char *file;
    const uint8_t *bytes;
    size_t len, at;
};

static bool stream_read(FILE *stream, size_t most, uint8_t **bytes, size_t *len)
{
    size_t room = 0, got;
    *bytes = NULL;
    *len = 0;
    do {
        if (*len == room) {
            room = room ? 2 * room : 4096;
            uint8_t *grown = realloc(*bytes, room);
            if (!grown)
                return false;
            *bytes = grown;
        }
        got = fread(*bytes + *len, 1, room - *len, stream);
        *len += got;
    } while (got > 0 && *len <= most);
    return !ferror(stream) && *len <= most;
}

/* A whole file of at most `most` bytes, to be freed by the caller. */
bool file_read(const char *file, size_t most, uint8_t **bytes, size_t *len)
{
    FILE *stream = fopen(file, "rb");
    if (!stream)
        return fail("%s can't be opened: %s", file, strerror(errno));
    /* Passwords come this way too: no copy of the bytes is to stay behind in the stream's own buffer. */
    setvbuf(stream, NULL, _IONBF, 0);
    bool good = stream_read(stream, most, bytes, len);
    fclose(stream);
    if (good)
        return true;
    free(*bytes);
    *bytes = NULL;
    return fail("%s can't be read, or is longer than %zu bytes", file, most);
}

static bool odd(const struct text *text, const char *wanted)
{
    return fail("%s: at byte %zu of this index there should be %s", text->file, text->at, wanted);
}

static void skip_space(struct text *text)
{
    while (text->at < text->len && memchr(" \t\r\n", text->bytes[text->at], 4))
        text->at++;
}

/* Takes one sign if it comes next. */
static bool sign(struct text *text, char wanted)
{
    skip_space(text);
    if (text->at == text->len || text->bytes[text->at] != (uint8_t)wanted)
        return false;
    text->at++;
    return true;
}

static bool escape(struct text *text)
{
    static const char hex[] = "0123456789abcdefABCDEF";
    if (text->at == text->len)
        return false;
    uint8_t kind = text->bytes[text->at++];
    if (kind != 'u')
        return memchr("\"\\/bfnrt", kind, 8) != NULL;
    for (int i = 0; i < 4; i++, text->at++)
        if (text->at == text->len || !memchr(hex, text->bytes[text->at], sizeof hex - 1))
            return false;
    return true;
}

/* A string as it stands between its quotes. Escapes are passed over: no name that is looked for has one. */
static bool string(struct text *text, const uint8_t **start, size_t *len)
{
    if (!sign(text, '"'))
        return odd(text, "a string");
    size_t from = text->at;
    while (text->at < text->len && text->bytes[text->at] >= 0x20) {
        uint8_t byte = text->bytes[text->at++];
        if (byte == '"') {
            *start = text->bytes + from;
            *len = text->at - 1 - from;
            return true;
        }
        if (byte == '\\' && !escape(text))
            break;
    }
    return odd(text, "the rest of a string");
}

static bool number(struct text *text, uint64_t *value)
{
    skip_space(text);
    size_t from = text->at;
    uint64_t sum = 0;
    while (text->at < text->len && text->bytes[text->at] >= '0' && text->bytes[text->at] <= '9') {
        uint64_t digit = text->bytes[text->at] - '0';
        if (sum > (UINT64_MAX - digit) / 10)
            return odd(text, "a smaller number");
        sum = 10 * sum + digit;
        text->at++;
    }
    if (text->at == from || (text->bytes[from] == '0' && text->at - from > 1))
        return odd(text, "a number");
    *value = sum;
    return true;
}

static bool word(struct text *text, const char *wanted)
{
    size_t len = strlen(wanted);
    if (text->len - text->at < len || memcmp(text->bytes + text->at, wanted, len) != 0)
        return false;
    text->at += len;
    return true;
}

static bool yes_or_no(struct text *text, bool *value)
{
    skip_space(text);
    *value = word(text, "true");
    return *value || word(text, "false") || odd(text, "true or false");
}

/* A value that is not needed: a string, a number, true or false. */
static bool skip_value(struct text *text)
{
    const uint8_t *start;
    size_t len;
    uint64_t value;
    bool flag;
    skip_space(text);
    uint8_t first = text->at < text->len ? text->bytes[text->at] : 0;
    if (first == '"')
        return string(text, &start, &len);
    if (first == 't' || first == 'f')
        return yes_or_no(text, &flag);
    return number(text, &value);
}

static bool part(struct text *text, struct part *part)
{
    if (!sign(text, '['))
        return odd(text, "[offset, length]");
    if (!number(text, &part->at))
        return false;
    if (!sign(text, ','))
        return odd(text, "a comma");
    if (!number(text, &part->len))
        return false;
    if (!sign(text, ']'))
        return odd(text, "]");
    return part->len <= UINT64_MAX - part->at || odd(text, "a part that a file can hold");
}

/* Takes a name and its colon, and answers where it stands in a list, or `count`. */
static bool name(struct text *text, const char *const *names, size_t count, size_t *which)
{
    const uint8_t *start = NULL;
    size_t len = 0;
    if (!string(text, &start, &len))
        return false;
    if (!sign(text, ':'))
        return odd(text, "a colon");
    for (*which = 0; *which < count; ++*which)
        if (strlen(names[*which]) == len && memcmp(names[*which], start, len) == 0)
            break;
    return true;
}

static bool exchange(struct text *text, struct exchange *exchange)
{
    static const char *const names[] = {"framed", "c2s", "s2c", "label"};
    unsigned seen = 0;
    if (!sign(text, '{'))
        return odd(text, "an exchange");
    do {
        size_t which = 0;
        if (!name(text, names, 4, &which))
            return false;
        if (which == 4 || (seen & 1u << which))
            return odd(text, "framed, c2s, s2c and label, once each");
        seen |= 1u << which;
        if (!(which == 0 ? yes_or_no(text, &exchange->framed)
                         : which == 1 ? part(text, &exchange->c2s) : which == 2 ? part(text, &exchange->s2c) : skip_value(text)))
            return false;
    } while (sign(text, ','));
    if (!sign(text, '}'))
        return odd(text, "}");
    return (seen & 7) == 7 || odd(text, "framed, c2s and s2c in every exchange");
}

/* The list is bounded by the file: an exchange takes far more than one byte of it. */
static bool exchanges(struct text *text, struct capture_index *index)
{
    size_t room = 0;
    if (index->exchanges)
        return odd(text, "one list of exchanges");
    if (!sign(text, '['))
        return odd(text, "a list of exchanges");
    do {
        if (index->count == room) {
            room = room ? 2 * room : 64;
            struct exchange *grown = realloc(index->exchanges, room * sizeof *grown);
            if (!grown)
                return fail("no memory for %zu exchanges", room);
            index->exchanges = grown;
        }
        if (!exchange(text, &index->exchanges[index->count]))
            return false;
        index->count++;
    } while (sign(text, ','));
    return sign(text, ']') || odd(text, "]");
}

static bool whole(struct text *text, struct capture_index *index)
{
    static const char *const names[] = {"exchanges", "deprecate_eof", "session_track"};
    if (!sign(text, '{'))
        return odd(text, "{");
    do {
        size_t which = 0;
        if (!name(text, names, 3, &which))
            return false;
        if (!(which == 0 ? exchanges(text, index)
                         : which == 1 ? yes_or_no(text, &index->deprecate_eof)
                                      : which == 2 ? yes_or_no(text, &index->session_track) : skip_value(text)))
            return false;
    } while (sign(text, ','));
    if (!sign(text, '}'))
        return odd(text, "}");
    skip_space(text);
    if (text->at != text->len)
        return odd(text, "nothing more");
    return index->count > 0 || odd(text, "exchanges");
}

bool index_read(struct capture_index *index, const char *file)
{
    uint8_t *bytes = NULL;
    struct text text = {.file = file};
    memset(index, 0, sizeof *index);
    if (!file_read(file, INDEX_LONGEST, &bytes, &text.len))
        return false;
    text.bytes = bytes;
    bool good = whole(&text, index);
    free(bytes);
    return good;
}
