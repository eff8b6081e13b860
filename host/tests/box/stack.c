/*
 * The deepest stack of each entry: it is called on a stack that was painted before, and what is no longer paint was used. The few
 * bytes of the function that calls it are in the figure too.
 */
#define _GNU_SOURCE
#include "mishkeldur.h"
#include <stdio.h>
#include <stdlib.h>
#include <string.h>
#include <ucontext.h>

enum { ROOM = 1 << 16, PAINT = 0xD7, BUDGET = 2048 };

static uint8_t stack[ROOM] __attribute__((aligned(64)));
static uint8_t state[MK_STATE_SIZE], framed[MK_STATE_SIZE], stream[MK_STREAM_SIZE], wire[300], wire_framed[300], staging[400], packet[200], out[600];
static size_t a, b, c, d, e, list[16];
static uint64_t u;
static int64_t z;
static uint32_t w[2];
static uint16_t y;
static uint8_t k, x[4], types[10] = {1, 2, 3, 8, 4, 5, 11, 12, 253, 6}, signs[10];
static const uint8_t row[] = {0, 0, 0, 1, 1, 2, 1, 2, 3, 4, 1, 2, 3, 4, 5, 6, 7, 8, 0, 0, 128, 63, 1, 2, 3, 4, 5, 6, 7, 8, 8, 1, 0, 0, 0, 0, 0, 1, 0, 4, 232, 7, 2, 29, 3, 'a', 'b', 'c'};

static const uint32_t lengths[] = {3, 4, 3, 4};
static const uint64_t proposal[] = {2, 4};
static uint64_t ends[4];
static const uint8_t ok[] = "\0\1\2\2\100\0\0\1m\10\1\3\2ab\2\1" "1";
static uint64_t numbers[MK_ANSWER_NUMBERS];

static size_t wire_len, wire_framed_len;

static void fresh(uint8_t *st, int frames)
{
    mk_open(st, MK_STATE_SIZE, 150);
    if (frames) mk_frames_on(st, MK_STATE_SIZE);
}

#define ENTRY(name, call) static void name(void) { k = (uint8_t)(call); }
ENTRY(open_, mk_open(state, sizeof state, 150))
ENTRY(frames_on, mk_frames_on(state, sizeof state))
ENTRY(reset, mk_reset_seq_id(state, sizeof state))
ENTRY(sync_, mk_sync_seq_id(framed, sizeof framed))
ENTRY(look, mk_look(state, sizeof state, &x[0], &x[1], &a, &x[2], &x[3]))
ENTRY(read_plain, mk_read(state, sizeof state, wire, wire_len, NULL, 0, packet, sizeof packet, &a, &b))
ENTRY(read_framed, mk_read(framed, sizeof framed, wire_framed, wire_framed_len, staging, sizeof staging, packet, sizeof packet, &a, &b))
ENTRY(write_plain, mk_write(state, sizeof state, packet, 120, out, sizeof out, &a))
ENTRY(write_framed, mk_write(framed, sizeof framed, packet, 150, out, sizeof out, &a))
ENTRY(stream_open, mk_stream_open(stream, sizeof stream, 150))
ENTRY(stream_seq_id, mk_stream_seq_id(stream, sizeof stream, 3))
ENTRY(stream_read, mk_stream_read(stream, sizeof stream, wire, wire_len, &a, &b, &c, &k))
ENTRY(lenenc_int, mk_lenenc_int(row, sizeof row, 3, &u, &a))
ENTRY(lenenc_str, mk_lenenc_str(row, sizeof row, 44, &a, &b))
ENTRY(lenenc_len, mk_lenenc_int_len(70000))
ENTRY(put_int_, mk_put_lenenc_int(out, sizeof out, 0, 70000, &a))
ENTRY(put_str, mk_put_lenenc_str(out, sizeof out, 0, packet, 100, &a))
ENTRY(time_, mk_read_time(row, sizeof row, 30, &x[0], &w[0], &x[1], &x[2], &x[3], &w[1], &a))
ENTRY(duration, mk_read_duration(row, sizeof row, 30, &z, &a))
ENTRY(duration_of, mk_duration_of(1, 1, 2, 3, 4, 5, &z))
ENTRY(value_, mk_read_value(row, sizeof row, 10, 8, 0, &k, &z, &u, &a, &b, &c))
ENTRY(value_date, mk_read_value(row, sizeof row, 39, 12, 0, &k, &z, &u, &a, &b, &c))
ENTRY(text, mk_read_text(row, sizeof row, 44, &k, &a, &b, &c))
ENTRY(date, mk_read_date(row, sizeof row, 39, &y, &k, &x[0], &x[1], &x[2], &x[3], &w[0], &a))
ENTRY(put_int, mk_put_int(out, sizeof out, 0, -5, &a))
ENTRY(put_uint, mk_put_uint(out, sizeof out, 0, 5, &a))
ENTRY(put_float, mk_put_float(out, sizeof out, 0, 5, &a))
ENTRY(put_double, mk_put_double(out, sizeof out, 0, 5, &a))
ENTRY(put_date, mk_put_date(out, sizeof out, 0, 2024, 2, 29, 1, 2, 3, 4, &a))
ENTRY(put_time, mk_put_time(out, sizeof out, 0, 1, 2, 3, 4, 5, 6, &a))
ENTRY(row_, mk_read_row(row, sizeof row, types, 10, signs, 10, list, 16, &a, &b))
ENTRY(params, mk_read_params(row + 1, sizeof row - 1, types, 9, signs, 9, list, 16, &a, &b))
ENTRY(null_bit, mk_null_bit(row, sizeof row, 0, 9, &k))
ENTRY(null_count, mk_null_count(row, sizeof row, 0, 20, &a))
ENTRY(escaped, mk_escaped(out, sizeof out, 0, packet, 150, 0, &a))
ENTRY(escaped_len, mk_escaped_len(packet, 150, 0, &a))
ENTRY(record, mk_read_record(row + 44, 4, 1, &a, &b, &k, &c))
ENTRY(variable, mk_next_variable((const uint8_t *)"\1a\1b", 4, 0, &k, &a, &b, &c, &d, &e))
ENTRY(put_record, mk_put_record(out, sizeof out, 0, 1, packet, 20, 0, &a))
ENTRY(put_variable, mk_put_variable(out, sizeof out, 0, packet, 20, packet, 30, &a))
ENTRY(stretches, mk_stretches(150, wire, wire_len, &a))
ENTRY(salvage, mk_salvage(150, row, sizeof row, list, 16, &a))
ENTRY(plan, mk_plan(lengths, 4, 2, 10, ends, 4, &a))
ENTRY(judge, mk_judge(lengths, 4, 2, 10, proposal, 2, &x[0]))
ENTRY(answer, mk_read_answer(ok, sizeof ok - 1, 1, numbers, MK_ANSWER_NUMBERS))
ENTRY(next_record, mk_next_record(ok, sizeof ok - 1, 10, 18, &x[0], &x[1], &a, &b, &c))
ENTRY(put_ok, mk_put_ok(out, sizeof out, 0, 70000, 70000, 0x4002, 0, packet, 100, packet, 50, 1, &a))
ENTRY(put_err, mk_put_err(out, sizeof out, 0, 1146, packet, 5, packet, 100, &a))
ENTRY(put_eof, mk_put_eof(out, sizeof out, 0, 0, 2, &a))
ENTRY(put_typed_record, mk_put_typed_record(out, sizeof out, 0, 1, packet, 100, &a))
ENTRY(nothing, 0)

static const struct {
    const char *name;
    void (*call)(void);
} entries[] = {
    {"(nothing: the caller alone)", nothing}, {"mk_open", open_}, {"mk_frames_on", frames_on}, {"mk_reset_seq_id", reset}, {"mk_sync_seq_id", sync_},
    {"mk_look", look}, {"mk_read, plain", read_plain}, {"mk_read, framed", read_framed}, {"mk_write, plain", write_plain}, {"mk_write, framed", write_framed},
    {"mk_stream_open", stream_open}, {"mk_stream_seq_id", stream_seq_id}, {"mk_stream_read", stream_read},
    {"mk_lenenc_int", lenenc_int}, {"mk_lenenc_str", lenenc_str}, {"mk_lenenc_int_len", lenenc_len}, {"mk_put_lenenc_int", put_int_}, {"mk_put_lenenc_str", put_str},
    {"mk_read_time", time_}, {"mk_read_duration", duration}, {"mk_duration_of", duration_of}, {"mk_read_value, integer", value_}, {"mk_read_value, date", value_date},
    {"mk_read_text", text}, {"mk_read_date", date}, {"mk_put_int", put_int}, {"mk_put_uint", put_uint}, {"mk_put_float", put_float}, {"mk_put_double", put_double},
    {"mk_put_date", put_date}, {"mk_put_time", put_time}, {"mk_read_row", row_}, {"mk_read_params", params}, {"mk_null_bit", null_bit}, {"mk_null_count", null_count},
    {"mk_escaped", escaped}, {"mk_escaped_len", escaped_len}, {"mk_read_record", record}, {"mk_next_variable", variable}, {"mk_put_record", put_record}, {"mk_put_variable", put_variable},
    {"mk_stretches", stretches}, {"mk_salvage", salvage},
    {"mk_plan", plan}, {"mk_judge", judge},
    {"mk_read_answer", answer}, {"mk_next_record", next_record}, {"mk_put_ok", put_ok}, {"mk_put_err", put_err}, {"mk_put_eof", put_eof},
    {"mk_put_typed_record", put_typed_record},
};

static ucontext_t here, there;

static size_t used_by(void (*call)(void))
{
    memset(stack, PAINT, sizeof stack);
    getcontext(&there);
    there.uc_stack.ss_sp = stack;
    there.uc_stack.ss_size = sizeof stack;
    there.uc_link = &here;
    makecontext(&there, call, 0);
    swapcontext(&here, &there);
    size_t i = 0;
    while (i < sizeof stack && stack[i] == PAINT) i++;
    return sizeof stack - i;
}

int main(void)
{
    size_t deepest = 0, own = used_by(nothing), written;
    const char *which = "";
    for (size_t i = 0; i < sizeof entries / sizeof *entries; i++) {
        uint8_t st[MK_STATE_SIZE];
        fresh(st, 0), mk_write(st, sizeof st, packet, 100, wire, sizeof wire, &wire_len);
        fresh(st, 1), mk_write(st, sizeof st, packet, 150, wire_framed, sizeof wire_framed, &written), wire_framed_len = written;
        fresh(state, 0), fresh(framed, 1), mk_stream_open(stream, sizeof stream, 150);
        size_t n = used_by(entries[i].call);
        printf("%6zu  %s\n", n, entries[i].name);
        if (n > deepest) deepest = n, which = entries[i].name;
    }
    printf("deepest: %zu bytes of stack (%s), %zu of them the caller's\n", deepest, which, own);
    return deepest <= BUDGET ? 0 : 1;
}
