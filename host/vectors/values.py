#!/usr/bin/env python3
"""Makes values.txt, values-times.txt and rooms.txt: values around every limit, read, written and read back.   usage: values.py OUT

The answers are those of the reader and the writer below, which are written from the paper over Python's struct module and share nothing with the
proved code. rooms.txt has what the entries for C lack: the bytes that a value takes, and the writer of a value of any kind."""
import struct
import sys

from vectors import List, room
from wire import Refused, answer, length, microseconds, need, string, written_length, written_string

NULL, BYTES, INT, UINT, FLOAT, DOUBLE, DATE, TIME = range(8)
STRINGS = {0, 15, 16, 242} | set(range(245, 256))
INTEGERS = {1: 'b', 2: 'h', 13: 'h', 3: 'i', 9: 'i', 8: 'q'}
DATES = {7, 10, 12, 14}
TOP = 2**64 - 1


# ---- the model

class Got:
    """A value that was read: its kind, the place behind it, the bytes that it is written in, and what its kind has."""
    def __init__(self, kind, next, written, integer=None, bits=None, place=None, len=None, fields=()):
        self.kind, self.next, self.written, self.fields = kind, next, written, list(fields)
        self.integer, self.bits, self.place, self.len = integer, bits, place, len

    def said(self):
        return [self.kind, self.integer, self.bits, self.place, self.len, self.next]


def text_of(s, at):
    place, n = string(s, at)
    return Got(BYTES, place + n, written_string(s[place:place + n]), place=place, len=n)


def integer(s, at, code):
    n = struct.calcsize('<' + code)
    x = struct.unpack('<' + code, need(s, at, n))[0]
    if x > 2**63 - 1:
        return Got(UINT, at + n, struct.pack('<Q', x), bits=x)
    return Got(INT, at + n, struct.pack('<q', x), integer=x)


def real(s, at, n, kind):
    """Floats keep their bits."""
    raw = need(s, at, n)
    return Got(kind, at + n, raw, bits=int.from_bytes(raw, 'little'))


def date_fields(s, at):
    """Year, month, day, hour, minute, second, microseconds, and the place behind the date."""
    n = need(s, at, 1)[0]
    b = need(s, at + 1, n)
    day = struct.unpack('<HBB', b[:4]) if n >= 4 else (0, 0, 0)
    clock = struct.unpack('<BBB', b[4:7]) if n >= 7 else (0, 0, 0)
    micros = struct.unpack('<I', b[7:11]) if n == 11 else (0,)
    return [*day, *clock, *micros, at + 1 + n]


def written_date(year, month, day, hour, minute, second, micros):
    whole = struct.pack('<HBBBBBI', year, month, day, hour, minute, second, micros)
    size = 11 if micros else 7 if hour or minute or second else 4 if year or month or day else 0
    return bytes([size]) + whole[:size]


def time_fields(s, at):
    """Whether it is negative, days, hours, minutes, seconds, microseconds, and the place behind the time."""
    n = need(s, at, 1)[0]
    b = need(s, at + 1, n)
    sign, *clock = struct.unpack('<BIBBB', b[:8]) if n >= 8 else (0, 0, 0, 0, 0)
    micros = struct.unpack('<I', b[8:12]) if n == 12 else (0,)
    return [int(sign == 1), *clock, *micros, at + 1 + n]


def written_time(neg, days, hours, minutes, seconds, micros):
    whole = struct.pack('<BIBBBI', neg, days, hours, minutes, seconds, micros)
    size = 12 if micros else 8 if days or hours or minutes or seconds else 0
    return bytes([size]) + whole[:size]


def duration(s, at):
    *fields, next = time_fields(s, at)
    return microseconds(*fields) + [next]


def binary(s, at, column_type, unsigned):
    """The binary value at a place."""
    if column_type in STRINGS:
        return text_of(s, at)
    if column_type in INTEGERS:
        code = INTEGERS[column_type]
        return integer(s, at, code.upper() if unsigned else code)
    if column_type == 4:
        return real(s, at, 4, FLOAT)
    if column_type == 5:
        return real(s, at, 8, DOUBLE)
    if column_type == 6:
        return Got(NULL, at, b'')
    if column_type in DATES:
        *fields, next = date_fields(s, at)
        return Got(DATE, next, written_date(*fields), fields=fields)
    if column_type == 11:
        *fields, next = time_fields(s, at)
        return Got(TIME, next, written_time(*fields), fields=fields)
    raise Refused(10)


def text(s, at):
    """The text value at a place: kind, place, length and the place behind it."""
    if need(s, at, 1)[0] == 0xFB:
        return [NULL, None, None, at + 1]
    place, n = string(s, at)
    return [BYTES, place, n, place + n]


# ---- the lists

WHOSE = ('read, written into just enough room and into one byte too few, and read back. The answers are those of a reader and a writer over Python\'s struct module, written '
         'from the paper. Made by host/vectors/values.py.')
values = List(f'Values around every limit: {WHOSE}')
times = List(f'Dates and times of every length, and around their limits: {WHOSE}')
rooms = List('What the entries for C lack: the bytes that a value takes, and the writer of a value of any kind. The values and the answers are those of values.txt and '
             'values-times.txt; made by host/vectors/values.py too.')

# The type and the sign of a column that brings a written value back, and the writer of its kind.
BACK = {NULL: (6, 0), BYTES: (253, 0), INT: (8, 0), UINT: (8, 1), FLOAT: (4, 0), DOUBLE: (5, 0), DATE: (12, 0), TIME: (11, 0)}
WRITERS = {INT: 'put_int', UINT: 'put_uint', FLOAT: 'put_float', DOUBLE: 'put_double', DATE: 'put_date', TIME: 'put_time'}


def put_value(made, s, g):
    """The value as its kind's writer is given it; NULL has none."""
    if g.kind == BYTES:
        made.put('put_lenenc_str', [s[g.place:g.place + g.len]], g.written)
    elif g.kind != NULL:
        made.put(WRITERS[g.kind], g.fields or [g.integer if g.kind == INT else g.bits], g.written)


def read_value(made, s, at, column_type, unsigned):
    """By the reader of all kinds, and by those of the type's own kind."""
    made.once('read_value', [s, at, column_type, unsigned], answer(lambda: binary(s, at, column_type, unsigned).said()))
    if column_type in DATES:
        made.once('read_date', [s, at], answer(date_fields, s, at))
    if column_type == 11:
        made.once('read_time', [s, at], answer(time_fields, s, at))
        made.once('read_duration', [s, at], answer(duration, s, at))
    if column_type in STRINGS:
        lenenc(made, s, at)


def lenenc(made, s, at):
    made.once('lenenc_str', [s, at], answer(string, s, at))
    made.once('lenenc_int', [s, at], answer(length, s, at))


def hold(made, s):
    if len(s) > 20 and s not in made.held:
        made.hold(s)


def case(made, column_type, unsigned, s, at=0):
    """A binary value: read, written, and what was written read back."""
    s = bytes(s)
    hold(made, s)
    read_value(made, s, at, column_type, unsigned)
    try:
        g = binary(s, at, column_type, unsigned)
    except Refused:
        return
    put_value(made, s, g)
    read_value(made, g.written, 0, *BACK[g.kind])
    if g.kind == TIME:
        made.once('duration_of', g.fields, answer(microseconds, *g.fields))
    hold(rooms, s)
    rooms.once('bin_len', [s, at, column_type, unsigned], [0, len(g.written)])
    rooms.put('serialize', [s, at, column_type, unsigned], g.written)


def text_case(s, at=0):
    """A text value. One that is a string is written as a binary one is; NULL takes no bytes."""
    s = bytes(s)
    hold(values, s)
    values.once('read_text', [s, at], answer(text, s, at))
    lenenc(values, s, at)


# ---- the cases

RUN = bytes(i % 256 for i in range(512))


def dates_and_times():
    # every length of a date and of a time: byte i of the run says i, and what stands behind it is the body; and one byte short
    for t in (12, 11):
        for n in range(256):
            case(times, t, 0, RUN, n)
        for n in list(range(1, 16)) + [127, 128, 250, 251, 252, 253, 254, 255]:
            case(times, t, 0, RUN[:n + n], n)
    # shapes that real servers send, and around them
    for t in (7, 10, 12, 14):
        for s in ('05e807021dff', '04e807021d', '07e807021d173b3b', '0be807021d173b3b3f420f00', '0b00000000000000ffffffff', '07000000000000ff', '04000000ff', '00', ''):
            for unsigned in (0, 1):
                case(times, t, unsigned, bytes.fromhex(s))
    # signs: only 1 is minus, and a negative zero is written without one
    for sign in (0, 1, 2, 255):
        case(times, 11, 0, bytes([8, sign]) + bytes.fromhex('00000000000100'))
        case(times, 11, 0, bytes([8, sign]) + bytes(7))
        case(times, 11, 0, bytes([12, sign]) + bytes(7) + bytes.fromhex('01000000'))
        case(times, 11, 0, bytes([12, sign]) + b'\xff' * 11)
        case(times, 11, 1, bytes([13, sign]) + b'\xff' * 12)
        # the longest duration that is one, and a microsecond more; the most of each field with the others about it, and one more
        for fields in ((34, 22, 59, 59, 0), (34, 22, 59, 59, 1), (34, 22, 59, 58, 999_999), (34, 23, 0, 0, 0), (35, 0, 0, 0, 0), (0, 23, 59, 59, 999_999),
                       (0, 24, 0, 0, 0), (0, 0, 60, 0, 0), (0, 1, 75, 0, 0), (0, 0, 0, 60, 0), (0, 0, 0, 0, 1_000_000), (33, 24, 59, 59, 0), (0, 255, 0, 0, 0),
                       (106751991, 4, 0, 54, 775807), (2**32 - 1, 255, 255, 255, 2**32 - 1)):
            case(times, 11, 0, struct.pack('<BBIBBBI', 12, sign, *fields))


def reals():
    # NaNs, quiet and signalling, of both signs; zeros, infinities, the smallest and the largest
    for x in (0x7FC00000, 0xFFC00000, 0x7F800001, 0xFF800001, 0x7FFFFFFF, 0xFFFFFFFF, 0x7FBFFFFF, 0, 0x80000000, 0x7F800000, 0xFF800000, 1, 0x80000001,
              0x007FFFFF, 0x00800000, 0x7F7FFFFF, 0x3F800000, 0xC0490FDB):
        case(values, 4, 0, struct.pack('<I', x))
        case(values, 4, 1, struct.pack('<I', x)[:3])
    for x in (0x7FF8000000000000, 0xFFF8000000000000, 0x7FF0000000000001, 0xFFF0000000000001, 0x7FFFFFFFFFFFFFFF, 0xFFFFFFFFFFFFFFFF, 0, 1 << 63,
              0x7FF0000000000000, 0xFFF0000000000000, 1, 0x000FFFFFFFFFFFFF, 0x0010000000000000, 0x7FEFFFFFFFFFFFFF, 0x3FF0000000000000, 0xC00921FB54442D18):
        case(values, 5, 0, struct.pack('<Q', x))
        case(values, 5, 1, struct.pack('<Q', x)[:7])


def integers():
    # every width at both signs, around the sign bit and at both ends
    for t, code in INTEGERS.items():
        k = struct.calcsize('<' + code)
        top = 1 << (8 * k)
        for x in (0, 1, top // 2 - 1, top // 2, top // 2 + 1, top - 2, top - 1):
            for unsigned in (0, 1, 255):
                case(values, t, unsigned, x.to_bytes(k, 'little'))
        case(values, t, 0, bytes(k - 1))
        case(values, t, 1, bytes(k) + b'\x07', 1)


def types():
    # all 256 on nothing and on 300 bytes; a place past the end, where only type 6 is anything
    for t in range(256):
        case(values, t, 0, b'')
        case(values, t, t % 2, RUN[3:303], 5)
    for t in (1, 4, 6, 11, 12, 17, 253):
        for at in (4, 5, 9, TOP - 1, TOP):
            case(values, t, 0, b'\x03abc', at)


def strings():
    # one, three, four and nine bytes of length; text NULL; no lengths; a place past the end
    eight = struct.pack('<Q', 3)
    for s in (b'\0', b'\x03abc', b'\x03ab', b'\xfa' + b'x' * 250, b'\xfa' + b'x' * 249, b'\xfb', b'\xff', b'\xfc', b'\xfc\xfb', b'\xfc\xfb\0' + b'y' * 251, b'\xfc\x03\0abc',
              b'\xfc\x03\0ab', b'\xfd\x03\0\0abc', b'\xfd\x03\0', b'\xfe' + eight + b'abc', b'\xfe' + eight[:7], b'\xfe' + b'\xff' * 8 + b'abc', b'\xfe' + struct.pack('<Q', 1 << 63),
              b''):
        case(values, 253, 0, s)
        case(values, 253, 1, b'zz' + s, 2)
        text_case(s)
        text_case(b'zz' + s, 2)
    for at in (4, 5, 9, TOP):
        text_case(b'\x03abc', at)


def lengths():
    # around each width: the shortest form and longer ones, each cut at every length
    for v in (0, 1, 250, 251, 252, 253, 254, 255, 256, 2**16 - 1, 2**16, 2**24 - 1, 2**24, 2**32 - 1, 2**32, 2**63 - 1, 2**63, TOP):
        shortest = written_length(v)
        values.once('lenenc_int_len', [v], [len(shortest)])
        values.put('put_lenenc_int', [v], shortest)
        forms = [bytes([lead]) + v.to_bytes(n, 'little') for lead, n in ((0xFC, 2), (0xFD, 3), (0xFE, 8)) if v < 1 << (8 * n)]
        for s in dict.fromkeys([shortest] + forms):
            for n in range(len(s) + 1):
                values.once('lenenc_int', [s[:n], 0], answer(length, s[:n], 0))
            values.once('lenenc_int', [b'\xfb' + s + b'\xff', 1], answer(length, b'\xfb' + s + b'\xff', 1))
    for at in (2, 3, TOP - 7, TOP):
        values.once('lenenc_int', [b'\x01\x02', at], answer(length, b'\x01\x02', at))


def places():
    # places where a writer has no room, up to the last one: no sum of them wraps
    for at in (1, 8, 9, 2**32, 2**63, TOP - 8, TOP - 7, TOP):
        for name, asked in (('put_int', [5]), ('put_uint', [5]), ('put_float', [5]), ('put_double', [5]), ('put_date', [2024, 2, 29, 0, 0, 1, 0]),
                            ('put_time', [0, 0, 0, 0, 1, 0]), ('put_lenenc_int', [2**32]), ('put_lenenc_str', [b'abcdefg'])):
            if (name, at) != ('put_float', 1):
                values.case(name, [room(8), at, *asked], [6])
    # and what stands behind a value stays
    for name, asked, written in (('put_int', [-2], b'\xfe' + b'\xff' * 7), ('put_uint', [TOP], b'\xff' * 8), ('put_float', [1], b'\1\0\0\0'), ('put_double', [1], b'\1' + bytes(7)),
                                 ('put_date', [0] * 7, b'\0'), ('put_time', [1] + [0] * 5, b'\0'), ('put_lenenc_int', [300], b'\xfc\x2c\x01'), ('put_lenenc_str', [b''], b'\0')):
        values.case(name, [room(20), 0, *asked], [0, len(written), written])


def main(out):
    dates_and_times()
    reals()
    integers()
    types()
    strings()
    lengths()
    places()
    values.write(f'{out}/values.txt')
    times.write(f'{out}/values-times.txt')
    rooms.write(f'{out}/rooms.txt')


main(*sys.argv[1:])
