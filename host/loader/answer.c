/* What a server answers to a prepared statement: its numbers, column definitions, rows. */
#include "loader.h"

#include <inttypes.h>
#include <string.h>

enum { PREPARED = 0x00, MORE_RESULTS = 0x0008, UNSIGNED_FLAG = 0x20, TIME_TYPE = 11 };

/* The next packet of an answer. No packet that belongs to a good answer starts with 0xFF, so here it is always an ERR. */
bool answer_next(struct load *load)
{
    struct line *line = &load->line;
    if (!line_next(line))
        return false;
    if (line->len == 0)
        return fail("packet %" PRIu64 " of the server is empty", line->packets);
    return line->packet[0] == MK_ANSWER_ERR ? server_error(load) : true;
}

/* The numbers of the OK or EOF that the line has read last. */
bool answer_read(const struct load *load, uint64_t numbers[MK_ANSWER_NUMBERS])
{
    const struct line *line = &load->line;
    uint8_t status = mk_read_answer(line->packet, line->len, load->tracking, numbers, MK_ANSWER_NUMBERS);
    return status == MK_OK || refused(line, status);
}

static bool read_eof(struct load *load)
{
    uint64_t numbers[MK_ANSWER_NUMBERS];
    if (!answer_next(load))
        return false;
    if (load->line.packet[0] != MK_ANSWER_EOF)
        return fail("packet %" PRIu64 " should be the EOF behind the column definitions", load->line.packets);
    return answer_read(load, numbers);
}

/* A column definition: six strings, the fifth of them its name, then twelve fixed bytes and what a server may add. */
struct definition {
    const uint8_t *name;
    size_t name_len;
    uint8_t type;
    bool is_unsigned;
};

static bool read_definition(struct load *load, struct definition *definition)
{
    enum { STRINGS = 6, NAME = 4, FIXED = 12 };
    struct line *line = &load->line;
    size_t at = 0, place = 0, len = 0;
    uint64_t fixed = 0;
    if (!answer_next(load))
        return false;
    for (int i = 0; i < STRINGS; i++) {
        uint8_t status = mk_lenenc_str(line->packet, line->len, at, &place, &len);
        if (status != MK_OK)
            return refused(line, status);
        if (i == NAME) {
            definition->name = line->packet + place;
            definition->name_len = len;
        }
        at = place + len;
    }
    uint8_t status = mk_lenenc_int(line->packet, line->len, at, &fixed, &at);
    if (status != MK_OK)
        return refused(line, status);
    if (fixed < FIXED || line->len - at < FIXED)
        return fail("the column definition in packet %" PRIu64 " is cut short", line->packets);
    definition->type = line->packet[at + 6];
    definition->is_unsigned = (little(line->packet + at + 7, 2) & UNSIGNED_FLAG) != 0;
    return true;
}

static bool skip_definitions(struct load *load, size_t count)
{
    struct definition unused = {0};
    for (size_t i = 0; i < count; i++)
        if (!read_definition(load, &unused))
            return false;
    return count == 0 || read_eof(load);
}

/* The answer to COM_STMT_PREPARE: the statement's number, and definitions that are read again, and used, with the rows. */
bool answer_prepared(struct load *load, uint32_t *statement)
{
    struct line *line = &load->line;
    if (!answer_next(load))
        return false;
    if (line->packet[0] != PREPARED || line->len < 12)
        return fail("packet %" PRIu64 " is no answer to a prepare", line->packets);
    *statement = little(line->packet + 1, 4);
    size_t columns = little(line->packet + 5, 2), parameters = little(line->packet + 7, 2);
    return skip_definitions(load, parameters) && skip_definitions(load, columns);
}

static bool read_column_count(struct load *load, size_t *count)
{
    struct line *line = &load->line;
    uint64_t value = 0;
    size_t next = 0;
    uint8_t status = mk_lenenc_int(line->packet, line->len, 0, &value, &next);
    if (status != MK_OK)
        return refused(line, status);
    if (value > MK_MAX_COLUMNS)
        return refused(line, MK_BAD_COLUMNS);
    if (next != line->len)
        return fail("packet %" PRIu64 " should be a column count alone", line->packets);
    *count = (size_t)value;
    return true;
}

static bool read_columns(struct load *load, size_t count)
{
    struct columns *columns = &load->columns;
    const char *wanted = load->options->offset;
    size_t found = 0;
    columns->count = count;
    for (size_t i = 0; i < count; i++) {
        struct definition definition = {0};
        if (!read_definition(load, &definition))
            return false;
        columns->types[i] = definition.type;
        columns->signs[i] = definition.is_unsigned;
        clean(columns->names[i], sizeof columns->names[i], definition.name, definition.name_len);
        if (definition.name_len == strlen(wanted) && memcmp(definition.name, wanted, definition.name_len) == 0) {
            columns->offset = i;
            found++;
        }
    }
    if (found != 1)
        return fail("%s column is named '%s'", found ? "more than one" : "no", wanted);
    if (columns->types[columns->offset] != TIME_TYPE)
        return fail("column %s is no TIME column: its type is %u, not %d", columns->names[columns->offset],
                    (unsigned)columns->types[columns->offset], TIME_TYPE);
    return read_eof(load);
}

/* mk_read_row says what is wrong, not where: walk to the value that is refused, so that people know its column. */
static const char *refused_column(const struct line *line, const struct columns *columns)
{
    size_t map = (columns->count + 9) / 8, at = 1 + map;
    if (line->len < at || line->packet[0] != 0)
        return NULL;
    for (size_t i = 0; i < columns->count; i++) {
        uint8_t is_null = 0, kind;
        int64_t integer;
        uint64_t bits;
        size_t place, len;
        if (mk_null_bit(line->packet + 1, map, 0, i, &is_null) != MK_OK)
            return NULL;
        if (!is_null && mk_read_value(line->packet, line->len, at, columns->types[i], columns->signs[i], &kind, &integer, &bits, &place,
                                      &len, &at) != MK_OK)
            return columns->names[i];
    }
    return NULL;
}

static bool read_offset(struct load *load, bool *is_null, int64_t *offset)
{
    struct line *line = &load->line;
    const struct columns *columns = &load->columns;
    uint8_t null_bit = 0;
    size_t next = 0;
    line->column = columns->names[columns->offset];
    uint8_t status = mk_null_bit(line->packet + 1, (columns->count + 9) / 8, 0, columns->offset, &null_bit);
    if (status == MK_OK && !null_bit)
        status = mk_read_duration(line->packet, line->len, columns->starts[columns->offset], offset, &next);
    if (status != MK_OK)
        return refused(line, status);
    line->column = NULL;
    *is_null = null_bit;
    return true;
}

static bool read_row(struct load *load)
{
    struct line *line = &load->line;
    struct columns *columns = &load->columns;
    size_t nulls = 0, used = 0;
    uint8_t status = mk_read_row(line->packet, line->len, columns->types, columns->count, columns->signs, columns->count,
                                 columns->starts, columns->count, &nulls, &used);
    if (status != MK_OK) {
        line->column = refused_column(line, columns);
        return refused(line, status);
    }
    if (used != line->len)
        return fail("row %" PRIu64 " (packet %" PRIu64 ") has %zu bytes behind its last value", line->row, line->packets, line->len - used);
    bool is_null = false;
    int64_t offset = 0;
    if (!read_offset(load, &is_null, &offset))
        return false;
    load->rows++;
    load->nulls += is_null;
    return is_null || queue_add(&load->queue, offset, line->row);
}

static bool read_rows(struct load *load)
{
    struct line *line = &load->line;
    uint64_t numbers[MK_ANSWER_NUMBERS];
    for (;;) {
        line->row = load->rows + 1;
        if (!answer_next(load))
            return false;
        if (line->packet[0] == MK_ANSWER_EOF)
            break;
        if (!read_row(load))
            return false;
        progress(load);
    }
    if (!answer_read(load, numbers))
        return false;
    line->row = 0;
    if (numbers[MK_ANSWER_STATUS] & MORE_RESULTS)
        return fail("the server announces a second result, and only one was asked for");
    return true;
}

/* The answer to COM_STMT_EXECUTE: an OK of a statement without rows, or columns and rows. */
bool answer_rows(struct load *load)
{
    size_t count = 0;
    uint64_t numbers[MK_ANSWER_NUMBERS];
    if (!answer_next(load))
        return false;
    if (load->line.packet[0] == MK_ANSWER_OK)
        return answer_read(load, numbers);
    if (!read_column_count(load, &count) || !read_columns(load, count) || !read_rows(load))
        return false;
    load->results++;
    return true;
}
