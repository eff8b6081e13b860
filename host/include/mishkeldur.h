/*
 * mishkeldur.h - the MySQL client/server protocol, proved, for C11 and C++.
 *
 * Link with libmishkeldur.a (`pkg-config --cflags --libs mishkeldur`). The library calls no function of libc, keeps nothing
 * between calls, allocates nothing, and may be called from any thread as long as no two calls share a lent buffer or state.
 *
 * How to read this page
 * ---------------------
 * - Bytes are lent as a pointer and a length. A pointer may be NULL where its length is 0.
 * - Every entry ends and answers, whatever bytes and numbers it is lent. It answers a status (below): MK_OK, a refusal, or
 *   MK_NEED_MORE from mk_read and mk_stream_read alone.
 * - What an entry gives it writes to the numbers that it is lent by pointer. ON A REFUSAL IT LEAVES THEM, AND EVERY BYTE
 *   LENT TO IT, AS THEY WERE, but for what mk_open, mk_read, mk_stream_open, mk_stream_read, mk_literal and mk_literal_len say of
 *   themselves.
 * - A pointer to a number must not be NULL.
 * - A "place" counts bytes from the front of the slice that it belongs to. Any place may be given; one beyond the end is refused
 *   wherever a byte is read or written there (a value of type 6 takes no bytes, and is NULL at any place).
 * - A flag is 0 for no and anything else for yes when you give it, and 0 or 1 when you get it.
 *
 * What no callee can test, and so is up to the caller: that a pointer is good for the length given with it, and that no buffer
 * that an entry may write overlaps another one lent in the same call.
 *
 * The promises made here are proved; docs/STATEMENTS.md says where.
 */
#ifndef MISHKELDUR_H
#define MISHKELDUR_H

#include <stddef.h>
#include <stdint.h>

#ifdef __cplusplus
extern "C" {
#endif

#define MK_VERSION_MAJOR 0
#define MK_VERSION_MINOR 1
#define MK_VERSION_PATCH 0
#define MK_VERSION "0.1.0"

/* ---- Statuses ------------------------------------------------------------------------------------------------------- */

enum {
    MK_OK = 0,
    MK_BAD_LIMIT = 1,         /* a limit of 0 or above MK_MAX_LIMIT */
    MK_TOO_LARGE = 2,         /* a packet, a chunk or a frame header above the limit */
    MK_OUT_OF_SYNC = 3,       /* a complete chunk or frame has the wrong number */
    MK_BAD_FRAME_HEADER = 4,  /* frame length 0, plain length not 0 */
    MK_PACKED = 5,            /* a packed (zlib) frame: only stored ones are read */
    MK_NO_ROOM = 6,           /* a lent buffer, list or state is too short */
    MK_CLOSED = 7,            /* the state is closed: open it anew */
    MK_SHORT = 8,             /* a value or record ends too early */
    MK_BAD_LEAD = 9,          /* a length starts with 0xFB or 0xFF */
    MK_BAD_TYPE = 10,         /* a column type that the protocol does not list */
    MK_OUT_OF_RANGE = 11,     /* a duration that no int64_t of microseconds holds at both signs */
    MK_BAD_ROW = 12,          /* a row's first byte is not 0 */
    MK_BAD_COLUMNS = 13,      /* 0 or more than MK_MAX_COLUMNS columns, or lists of unequal length */
    MK_BAD_PACKET = 14,       /* a packet that is no OK, ERR or EOF, or an ERR without its SQL state's mark */
    MK_BAD_LITERAL = 15,      /* bytes that are no quoted literal */
    MK_ROW_TOO_LONG = 16,     /* a row that fits into no statement */
    MK_TOO_MANY_ROWS = 17,    /* more than MK_MAX_ROWS rows */
    MK_NEED_MORE = 255        /* mk_read, mk_stream_read: no refusal; lend more bytes */
};

/* A status in words, as "3: out of sync"; never NULL. */
const char *mk_refusal_text(uint8_t status);

/* The version of the library that was linked, as MK_VERSION. */
const char *mk_version(void);

/* ---- Sizes ---------------------------------------------------------------------------------------------------------- */

#define MK_MAX_LIMIT 1073741824u   /* the largest limit: 1 GiB */
#define MK_MAX_PAYLOAD 16777215u   /* the largest payload of a chunk or of a frame */
#define MK_MAX_COLUMNS 4096u
#define MK_MAX_ROWS 8192u          /* the most rows that mk_plan and mk_judge look at */
#define MK_STATE_SIZE 128u         /* the bytes of a state; mk_state_size() answers the same */
#define MK_STREAM_SIZE 64u         /* the bytes of a stream's state */

/* Staging for mk_read with frames on: with so many bytes, and a packet buffer of `limit` bytes, it never answers MK_NO_ROOM. */
#define MK_STAGING_SIZE(limit) (2 * (size_t)(limit) + 4)

/* The bytes that mk_write needs for a packet of n bytes, n at most the limit: plain, and with frames on. */
#define MK_PLAIN_SIZE(n) ((size_t)(n) + 4 * ((size_t)(n) / MK_MAX_PAYLOAD + 1))
#define MK_FRAMED_SIZE(n, limit)                                                                                                    \
    (MK_PLAIN_SIZE(n) + 7 * ((MK_PLAIN_SIZE(n) + MK_FRAME_PIECE(limit) - 1) / MK_FRAME_PIECE(limit)))
#define MK_FRAME_PIECE(limit) ((size_t)(limit) < MK_MAX_PAYLOAD ? (size_t)(limit) : (size_t)MK_MAX_PAYLOAD)

/* ---- A connection --------------------------------------------------------------------------------------------------- */

/*
 * The state of one end of a connection lives in MK_STATE_SIZE bytes that you keep: static, on the stack, anywhere, and at any
 * alignment. Copy it freely; a copy is a state of its own. Any content is some state: zeroed or foreign memory is almost
 * surely a closed one, and at worst an open one that refuses what does not fit it. A slice of fewer bytes is MK_NO_ROOM, tested
 * before all else, and then nothing is changed.
 *
 * One sequence number serves reading and writing. Against a real server: mk_reset_seq_id before each command, mk_write the
 * command, mk_read the answer until it ends; with frames on call mk_sync_seq_id between commands and never inside an answer.
 */

/* MK_STATE_SIZE. */
size_t mk_state_size(void);

/*
 * Opens a state for packets of at most `limit` bytes: number 0, idle, frames off.
 * MK_NO_ROOM: a short state. MK_BAD_LIMIT: limit is 0 or above MK_MAX_LIMIT; the state is then written, and closed.
 */
uint8_t mk_open(uint8_t *state, size_t state_len, size_t limit);

/*
 * Turns stored frames on, once both ends have agreed to them: frame number 0, nothing unread. On again does nothing.
 * A packet that has been read in part goes on. There is no way back but mk_open. MK_NO_ROOM: a short state.
 */
uint8_t mk_frames_on(uint8_t *state, size_t state_len);

/* Sets the next number, of chunks and of frames, to 0 and touches nothing else. MK_NO_ROOM: a short state. */
uint8_t mk_reset_seq_id(uint8_t *state, size_t state_len);

/*
 * With frames on and nothing unread in staging: the next chunk's number becomes the next frame's. Else nothing.
 * MK_NO_ROOM: a short state.
 */
uint8_t mk_sync_seq_id(uint8_t *state, size_t state_len);

/*
 * What a state holds: the next chunk's number, the next frame's, the bytes unread at staging's front, and whether frames are on
 * and the state is closed. MK_NO_ROOM: a short state.
 */
uint8_t mk_look(const uint8_t *state, size_t state_len, uint8_t *number, uint8_t *frame, size_t *unread, uint8_t *framed,
                uint8_t *closed);

/*
 * Reads at most one packet out of `src` into `packet`.
 *
 * MK_OK: a packet of *len bytes stands at packet's front. MK_NEED_MORE: take away what was used, and call again with more bytes
 * behind the rest. On EVERY answer *used says how many bytes of src were used (0 on a short state); *len is written on MK_OK alone.
 * Call again with the rest until it says MK_NEED_MORE: with frames on a packet can come with 0 bytes used.
 *
 * Lend the same packet buffer, its bytes left as they were, until a packet is whole. `staging` holds the unread bytes of frames at its
 * front between calls: lend the same one each time. What stands behind the unread bytes is unspecified after a call. With frames
 * off it is ignored and unchanged, and may be NULL with length 0.
 *
 * MK_CLOSED: nothing changes. MK_TOO_LARGE, MK_OUT_OF_SYNC, MK_BAD_FRAME_HEADER, MK_PACKED: the state is then closed.
 * MK_NO_ROOM: the packet buffer or staging is too short; the state stays open, and the same call with more room goes on.
 * A refused call keeps the complete chunks and frames that it took before (counted in *used), and writes nothing of the refused one.
 */
uint8_t mk_read(uint8_t *state, size_t state_len, const uint8_t *src, size_t src_len, uint8_t *staging, size_t staging_len,
                uint8_t *packet, size_t packet_len, size_t *used, size_t *len);

/*
 * Writes a packet to the front of `dst`, as chunks or as frames: *written bytes (MK_PLAIN_SIZE, MK_FRAMED_SIZE). What lies behind
 * them stays. In this order: MK_CLOSED; MK_TOO_LARGE: longer than the limit; MK_NO_ROOM: dst is too short. A refusal changes nothing,
 * and closes nothing.
 */
uint8_t mk_write(uint8_t *state, size_t state_len, const uint8_t *packet, size_t packet_len, uint8_t *dst, size_t dst_len,
                 size_t *written);

/* ---- Packets longer than any buffer ------------------------------------------------------------------------------------- */

/*
 * A second reader of plain chunks, for who can't hold a packet, or not even a chunk, whole. Nothing is copied and nothing is waited for: each
 * call takes bytes up to one chunk's end and says which of them are payload. A host hands these on as they come:
 *
 *     uint8_t stream[MK_STREAM_SIZE], bytes[4096];
 *     status = mk_stream_open(stream, sizeof stream, limit);
 *     while ((n = receive(bytes, sizeof bytes)) > 0) {
 *         for (size_t from = 0; from < n; from += used) {
 *             status = mk_stream_read(stream, sizeof stream, bytes + from, n - from, &used, &place, &len, &ends);
 *             if (status == MK_NEED_MORE) continue;      // a part of a header; all bytes are used
 *             if (status != MK_OK) return status;        // a refusal: throw away what came of this packet
 *             hand_on(bytes + from + place, len);
 *             if (ends) packet_is_whole();
 *         }
 *     }
 *
 * WHAT IS NOT VOUCHED FOR: THE BYTES OF A PACKET WHOSE END HAS NOT BEEN MARKED. The rest may be refused, or never come; do nothing with them
 * that can't be undone. The marked packets are, however the bytes are cut, those that mk_read hands out with enough room, and a refusal is
 * the same once mk_read has the whole chunk; but MK_OUT_OF_SYNC comes as soon as the header is there.
 *
 * The state is MK_STREAM_SIZE bytes that you keep, as those of a connection, and any content is some state: zeroed or foreign memory is almost
 * surely a closed one. A connection's state is a closed stream, and a stream's a closed connection. There are no frames here.
 *
 * One number serves both ways. A host that writes its commands with mk_write tells the stream the number that the answer begins with:
 * mk_look, then mk_stream_seq_id; 0 is a reset.
 */

/*
 * Opens a stream of packets of at most `limit` bytes each: number 0, between two packets.
 * MK_NO_ROOM: a short state. MK_BAD_LIMIT: limit is 0 or above MK_MAX_LIMIT; the state is then written, and closed.
 */
uint8_t mk_stream_open(uint8_t *state, size_t state_len, size_t limit);

/* The next chunk has this number; nothing else changes, and a closed stream stays closed. MK_NO_ROOM: a short state. */
uint8_t mk_stream_seq_id(uint8_t *state, size_t state_len, uint8_t number);

/*
 * Takes bytes of `src` up to one chunk's end, header bytes included.
 *
 * MK_OK: the *len bytes at src + *place are the next of the packet, and *ends is 1 if it ends with them, else 0. *len may be 0: a header came and
 * nothing behind it, or an empty chunk. MK_NEED_MORE: src was empty, or held a part of a header, which the state keeps. On EVERY answer *used
 * says how many bytes of src were used (0 on a refusal); *place, *len and *ends are written on MK_OK alone. Lend the rest again.
 *
 * In this order: MK_NO_ROOM: a short state; MK_CLOSED; MK_TOO_LARGE: the packet would exceed the limit; MK_OUT_OF_SYNC: the header has the wrong
 * number. The last two close the state. No byte of src is changed.
 */
uint8_t mk_stream_read(uint8_t *state, size_t state_len, const uint8_t *src, size_t src_len, size_t *used, size_t *place, size_t *len,
                       uint8_t *ends);

/* ---- Length-encoded integers and strings ---------------------------------------------------------------------------------- */

/* The integer at a place, and the place behind it. MK_SHORT, MK_BAD_LEAD. Longer forms than needed are read. */
uint8_t mk_lenenc_int(const uint8_t *s, size_t s_len, size_t at, uint64_t *value, size_t *next);

/* The string at a place: the *len bytes of s from *place on. It ends at *place + *len. MK_SHORT, MK_BAD_LEAD. */
uint8_t mk_lenenc_str(const uint8_t *s, size_t s_len, size_t at, size_t *place, size_t *len);

/* The bytes that mk_put_lenenc_int takes: 1, 3, 4 or 9. */
size_t mk_lenenc_int_len(uint64_t v);

/*
 * Writers (all entries mk_put_..): they write at a place of dst and answer the place behind. MK_NO_ROOM: it does not fit, and no byte
 * is changed. What lies before and behind stays.
 */
uint8_t mk_put_lenenc_int(uint8_t *dst, size_t dst_len, size_t at, uint64_t v, size_t *next);
uint8_t mk_put_lenenc_str(uint8_t *dst, size_t dst_len, size_t at, const uint8_t *src, size_t src_len, size_t *next);

/* ---- Durations ----------------------------------------------------------------------------------------------------------- */

/* The fields of the binary TIME value at a place, as they stand. Only sign byte 1 is minus (*neg = 1). MK_SHORT. */
uint8_t mk_read_time(const uint8_t *s, size_t s_len, size_t at, uint8_t *neg, uint32_t *days, uint8_t *hours, uint8_t *minutes,
                     uint8_t *seconds, uint32_t *micros, size_t *next);

/* The signed microseconds of the binary TIME value at a place. MK_SHORT, then MK_OUT_OF_RANGE. */
uint8_t mk_read_duration(const uint8_t *s, size_t s_len, size_t at, int64_t *micros, size_t *next);

/* The signed microseconds of the fields of a TIME value, as they stand. MK_OUT_OF_RANGE: the size is above INT64_MAX. */
uint8_t mk_duration_of(uint8_t neg, uint32_t days, uint8_t hours, uint8_t minutes, uint8_t seconds, uint32_t micros, int64_t *out);

/* ---- Values -------------------------------------------------------------------------------------------------------------- */

enum {
    MK_NULL = 0,
    MK_BYTES = 1,   /* *place, *len: a part of s */
    MK_INT = 2,     /* *integer */
    MK_UINT = 3,    /* *bits: an unsigned eight-byte number above INT64_MAX */
    MK_FLOAT = 4,   /* *bits: the bits of a float, NaN included, in the low four bytes */
    MK_DOUBLE = 5,  /* *bits: the bits of a double, NaN included */
    MK_DATE = 6,    /* read it with mk_read_date at the same place */
    MK_TIME = 7     /* read it with mk_read_time or mk_read_duration at the same place */
};

/*
 * The binary value at a place, of a column of a type (the protocol's code) and sign. *kind and *next are written, and of the others
 * those that the kind names; the rest stay. In this order: MK_BAD_TYPE, MK_SHORT or MK_BAD_LEAD.
 */
uint8_t mk_read_value(const uint8_t *s, size_t s_len, size_t at, uint8_t column_type, uint8_t is_unsigned, uint8_t *kind,
                      int64_t *integer, uint64_t *bits, size_t *place, size_t *len, size_t *next);

/* The text value at a place: MK_NULL or MK_BYTES. MK_SHORT (also at the end), MK_BAD_LEAD. */
uint8_t mk_read_text(const uint8_t *s, size_t s_len, size_t at, uint8_t *kind, size_t *place, size_t *len, size_t *next);

/* The fields of the binary date at a place, as they stand; those that its length does not name are 0. MK_SHORT. */
uint8_t mk_read_date(const uint8_t *s, size_t s_len, size_t at, uint16_t *year, uint8_t *month, uint8_t *day, uint8_t *hour,
                     uint8_t *minutes, uint8_t *seconds, uint32_t *micros, size_t *next);

/*
 * Binary values as parameters: integers in eight bytes, floats by their bits, dates and times in the shortest form that loses nothing
 * (but that a negative zero time loses its sign). Strings: mk_put_lenenc_str. NULL takes no bytes.
 */
uint8_t mk_put_int(uint8_t *dst, size_t dst_len, size_t at, int64_t v, size_t *next);
uint8_t mk_put_uint(uint8_t *dst, size_t dst_len, size_t at, uint64_t v, size_t *next);
uint8_t mk_put_float(uint8_t *dst, size_t dst_len, size_t at, uint32_t bits, size_t *next);
uint8_t mk_put_double(uint8_t *dst, size_t dst_len, size_t at, uint64_t bits, size_t *next);
uint8_t mk_put_date(uint8_t *dst, size_t dst_len, size_t at, uint16_t year, uint8_t month, uint8_t day, uint8_t hour, uint8_t minutes,
                    uint8_t seconds, uint32_t micros, size_t *next);
uint8_t mk_put_time(uint8_t *dst, size_t dst_len, size_t at, uint8_t neg, uint32_t days, uint8_t hours, uint8_t minutes, uint8_t seconds,
                    uint32_t micros, size_t *next);

/* ---- Rows ---------------------------------------------------------------------------------------------------------------- */

/*
 * A binary row: `types` and `signs` (0 signed, else unsigned) have a byte for each column. Each column's place in the row goes to
 * `starts` (read its value there with mk_read_value); a NULL column's is where the next value would start. *nulls is how many columns are
 * NULL, *used how many bytes the row took; bytes may follow.
 * In this order: MK_BAD_COLUMNS; MK_NO_ROOM: starts is shorter than types; MK_SHORT: no byte; MK_BAD_ROW: the first is not 0; MK_SHORT: no
 * whole NULL bitmap; then each value's own, MK_BAD_TYPE, MK_SHORT, MK_BAD_LEAD, in column order.
 */
uint8_t mk_read_row(const uint8_t *row, size_t row_len, const uint8_t *types, size_t types_len, const uint8_t *signs, size_t signs_len,
                    size_t *starts, size_t starts_len, size_t *nulls, size_t *used);

/* The values of a parameter list: a NULL bitmap and values, no byte in front. As mk_read_row, without MK_BAD_ROW. */
uint8_t mk_read_params(const uint8_t *list, size_t list_len, const uint8_t *types, size_t types_len, const uint8_t *signs,
                       size_t signs_len, size_t *starts, size_t starts_len, size_t *nulls, size_t *used);

/* Whether column i is NULL in a bitmap by itself, of a row or of parameters. MK_SHORT: the bitmap has no such bit. */
uint8_t mk_null_bit(const uint8_t *map, size_t map_len, uint8_t is_params, size_t i, uint8_t *is_null);

/* How many of n columns are NULL in a bitmap by itself. MK_BAD_COLUMNS: n is 0 or above MK_MAX_COLUMNS; MK_SHORT. */
uint8_t mk_null_count(const uint8_t *map, size_t map_len, uint8_t is_params, size_t n, size_t *nulls);

/* ---- Quotes -------------------------------------------------------------------------------------------------------------- */

/*
 * Bytes as an SQL string literal, quotes included. With no_backslash_escape only ' is doubled; else 0x00, 0x0A, 0x0D, 0x1A, \, ' and "
 * get a backslash: for the server's mode NO_BACKSLASH_ESCAPES and its default. Quoting works byte by byte: in backslash mode it is safe
 * for utf8mb4, latin1, ascii and binary, and NOT for gbk, sjis and big5, where 0x5C can be the second half of a character.
 */
uint8_t mk_escaped(uint8_t *dst, size_t dst_len, size_t at, const uint8_t *input, size_t input_len, uint8_t no_backslash_escape,
                   size_t *next);

/* The bytes that mk_escaped takes. MK_NO_ROOM: more than a size_t holds. */
uint8_t mk_escaped_len(const uint8_t *input, size_t input_len, uint8_t no_backslash_escape, size_t *len);

/* ---- Session state records ------------------------------------------------------------------------------------------------- */

/*
 * A record's bytes (behind its type and length) by its type: 1 schema, 4 transaction characteristics, 5 transaction state: one string, *place
 * and *len, and bytes behind it stay unread; 2 tracked: *tracked is 1 only for the one-byte string "1"; 3 GTIDs and all types from 6 on: all
 * the bytes as *place and *len; 0 variables: nothing here, read them pair by pair. *used is written for each. MK_SHORT, MK_BAD_LEAD.
 * Real servers send type 2 as `02 01 31`: hand on a one-byte body from its length byte.
 */
uint8_t mk_read_record(const uint8_t *s, size_t s_len, uint8_t kind, size_t *place, size_t *len, uint8_t *tracked, size_t *used);

/*
 * The pair of name and value at a place of a record of variables, 0 at first: *found = 1, the pair, and the next place. At the end
 * *found = 0 and the others stay. MK_SHORT (also beyond the end), MK_BAD_LEAD.
 */
uint8_t mk_next_variable(const uint8_t *s, size_t s_len, size_t at, uint8_t *found, size_t *name_at, size_t *name_len, size_t *value_at,
                         size_t *value_len, size_t *next);

/* A record's bytes as mk_read_record takes them: `text` for every type but 2, which has the flag. Type 0 writes nothing. */
uint8_t mk_put_record(uint8_t *dst, size_t dst_len, size_t at, uint8_t kind, const uint8_t *text, size_t text_len, uint8_t is_tracked,
                      size_t *next);
uint8_t mk_put_variable(uint8_t *dst, size_t dst_len, size_t at, const uint8_t *name, size_t name_len, const uint8_t *value,
                        size_t value_len, size_t *next);

/* ---- OK, ERR and EOF packets ------------------------------------------------------------------------------------------------- */

/*
 * What a server answers to a command, in the forms of protocol 4.1. A packet is read into a list of numbers, filled whole, with 0 where its
 * kind has no such field.
 */
enum {
    MK_ANSWER_KIND = 0,        /* MK_ANSWER_OK, MK_ANSWER_ERR or MK_ANSWER_EOF */
    MK_ANSWER_USED = 1,        /* how many bytes of the packet were read; those behind stay unread */
    MK_ANSWER_STATUS = 2,      /* OK, EOF: the server's status */
    MK_ANSWER_WARNINGS = 3,    /* OK, EOF: how many warnings */
    MK_ANSWER_ROWS = 4,        /* OK: how many rows were affected */
    MK_ANSWER_INSERT_ID = 5,   /* OK: the last insert id */
    MK_ANSWER_CODE = 6,        /* ERR: the error code */
    MK_ANSWER_MESSAGE = 7,     /* OK, ERR: the message's place in the packet, and its length */
    MK_ANSWER_MESSAGE_LEN = 8,
    MK_ANSWER_RECORDS = 9,     /* OK: the session records' place and length, for mk_next_record */
    MK_ANSWER_RECORDS_LEN = 10,
    MK_ANSWER_STATE = 9,       /* ERR: the place of the SQL state, and its length: always 5 */
    MK_ANSWER_STATE_LEN = 10
};

#define MK_ANSWER_NUMBERS 11u /* the numbers of the list */

/* The kind is the packet's header byte. */
enum { MK_ANSWER_OK = 0x00, MK_ANSWER_EOF = 0xFE, MK_ANSWER_ERR = 0xFF };

/* The bit of an OK's status which says that session records follow its message. */
#define MK_SESSION_STATE_CHANGED 0x4000u

/*
 * The OK, ERR or EOF in a packet, to the front of `out`; out_len counts numbers, and what lies behind the MK_ANSWER_NUMBERS stays. `tracking`
 * says whether session tracking was agreed at the login (CLIENT_SESSION_TRACK): if so an OK's message has a length, and records follow if
 * the status has MK_SESSION_STATE_CHANGED; else the message runs to the end of the packet.
 * In this order: MK_NO_ROOM: out has fewer numbers; MK_SHORT: an empty packet; MK_BAD_PACKET: another header byte, an EOF of 9 bytes or more,
 * or an ERR without `#` (as servers send them before the login is done); MK_SHORT, MK_BAD_LEAD: the packet ends too early, or a length is none.
 */
uint8_t mk_read_answer(const uint8_t *packet, size_t packet_len, uint8_t tracking, uint64_t *out, size_t out_len);

/*
 * The session record at a place of an OK packet, out[MK_ANSWER_RECORDS] at first; `end` is that place and the records' length together. *found = 1,
 * the record's type, the part of the packet that mk_read_record(packet + *place, *len, *kind, ..) takes (or mk_next_variable, for type 0), and
 * the next place. At the end *found = 0 and the others stay. MK_SHORT (also beyond the end, and where the end lies beyond the packet), MK_BAD_LEAD.
 */
uint8_t mk_next_record(const uint8_t *packet, size_t packet_len, size_t at, size_t end, uint8_t *found, uint8_t *kind, size_t *place,
                       size_t *len, size_t *next);

/*
 * The same packets written. Without tracking an OK has neither a length before its message nor records; with it the records are written if the
 * status has MK_SESSION_STATE_CHANGED. mk_put_err: MK_SHORT first, if the SQL state is not 5 bytes long; then nothing is changed either.
 */
uint8_t mk_put_ok(uint8_t *dst, size_t dst_len, size_t at, uint64_t rows, uint64_t insert_id, uint16_t status, uint16_t warnings,
                  const uint8_t *message, size_t message_len, const uint8_t *records, size_t records_len, uint8_t tracking, size_t *next);
uint8_t mk_put_err(uint8_t *dst, size_t dst_len, size_t at, uint16_t code, const uint8_t *state, size_t state_len, const uint8_t *message,
                   size_t message_len, size_t *next);
uint8_t mk_put_eof(uint8_t *dst, size_t dst_len, size_t at, uint16_t warnings, uint16_t status, size_t *next);

/* One of an OK packet's records: its type, its length, and `body`, which is what mk_put_record or mk_put_variable wrote for that type. */
uint8_t mk_put_typed_record(uint8_t *dst, size_t dst_len, size_t at, uint8_t kind, const uint8_t *body, size_t body_len, size_t *next);

/* ---- Damaged captures ------------------------------------------------------------------------------------------------------ */

/*
 * What can still be read of a capture of plain chunks after a line fault. It is read from its first byte, with the first chunk's number as
 * it stands. At a bad place (MK_TOO_LARGE, MK_OUT_OF_SYNC, or MK_SHORT for a chunk that is cut) it goes on at the first later byte from
 * which three whole chunks follow, none above the limit, with numbers that rise by one, 255 to 0. So a capture is good stretches, each
 * of whole packets, and lost ones between them: they lie end to end from its first byte to its last, and none is empty.
 * The limit is below MK_MAX_PAYLOAD, so that every chunk is a packet. Any part of a capture may be lent; places count from its front.
 */
enum {
    MK_LOST = 0, /* offset, bytes, the refusal that began it: MK_TOO_LARGE, MK_OUT_OF_SYNC or MK_SHORT */
    MK_GOOD = 1  /* offset, bytes, packets */
};

#define MK_STRETCH_NUMBERS 4u /* a stretch in the list: MK_GOOD or MK_LOST, then its three numbers */

/* A capture of n bytes has no more stretches than this. */
#define MK_MOST_STRETCHES(n) ((2 * (size_t)(n) + 22) / 13)

/* How many stretches there are. MK_BAD_LIMIT: limit is 0, or MK_MAX_PAYLOAD or above. */
uint8_t mk_stretches(size_t limit, const uint8_t *capture, size_t capture_len, size_t *count);

/*
 * The stretches in order to the front of `out`, MK_STRETCH_NUMBERS each; out_len counts numbers. *count is how many there are, and what
 * lies behind them in the list stays. In this order: MK_BAD_LIMIT; MK_NO_ROOM: they don't all fit, and none is written.
 */
uint8_t mk_salvage(size_t limit, const uint8_t *capture, size_t capture_len, size_t *out, size_t out_len, size_t *count);

/* ---- Other programs' quotes ------------------------------------------------------------------------------------------------- */

/*
 * Whether the input is one single-quoted SQL literal, all of it, and how many bytes it means: *len. docs/LITERALS.md has the grammar; the
 * mode is as for mk_escaped, whose literals are taken and mean their input. Byte by byte too: not for gbk, sjis and big5 in backslash mode.
 * MK_BAD_LITERAL: *place is the place of the first byte that no literal could continue with, or input_len where the rest is missing.
 * *len is written on MK_OK alone, and *place on MK_BAD_LITERAL alone.
 */
uint8_t mk_literal_len(const uint8_t *input, size_t input_len, uint8_t no_backslash_escape, size_t *len, size_t *place);

/*
 * The same, and the bytes meant go to the front of dst; what lies behind them stays. They are at most input_len - 2. In this order:
 * MK_BAD_LITERAL; MK_NO_ROOM: dst is too short. Either changes no byte of dst.
 */
uint8_t mk_literal(uint8_t *dst, size_t dst_len, const uint8_t *input, size_t input_len, uint8_t no_backslash_escape, size_t *len,
                   size_t *place);

/* ---- Rows packed into statements --------------------------------------------------------------------------------------- */

/*
 * Where to cut a list of rows into statements, in order. A row is given by its length in bytes. A statement takes `overhead` bytes, its rows,
 * and one separator byte between two of them, and may have `limit` bytes; no sum of these wraps. Group i is the rows from ends[i - 1] (0 for
 * the first) up to, and without, ends[i]. *groups is how many there are, and no other way to cut has fewer; what lies behind them in `ends`
 * stays. No rows give no groups. As many ends as rows are always enough.
 * In this order: MK_TOO_MANY_ROWS; MK_ROW_TOO_LONG: some row and the overhead exceed the limit; MK_NO_ROOM: ends is shorter than the groups.
 */
uint8_t mk_plan(const uint32_t *rows, size_t rows_len, uint64_t overhead, uint64_t limit, uint64_t *ends, size_t ends_len, size_t *groups);

/*
 * Whether a proposal of this form, whoever made it, of any length and content, is right: *accepted is 1 exactly if every row is in one group, no
 * group is empty and every group fits, and else 0; so it is 0 where a row fits into no statement. MK_TOO_MANY_ROWS.
 */
uint8_t mk_judge(const uint32_t *rows, size_t rows_len, uint64_t overhead, uint64_t limit, const uint64_t *proposal, size_t proposal_len,
                 uint8_t *accepted);

#ifdef __cplusplus
}
#endif

#endif /* MISHKELDUR_H */
