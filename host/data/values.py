#!/usr/bin/env python3
"""Makes crates/values/data/vectors: values around every limit, and the answers that Python's struct module gives.

The file, low bytes first: the number of cases (2 bytes, 2 unused), 40 bytes for each, and the bytes they speak of.
    0 entry: 0 binary, 1 text    1 column type    2 unsigned    3 refusal, or 0
    4 place of the source in the file (2)    6 its length (2)    8 place of the value in it (2)    10 place behind the value (2)
    12 case of the value    13 whether a time is negative    14 month, day, hour, minute, second, or hour, minute, second of a time
    19 whether the time is negative once it was written and read back
    20 number (8): year, days, unsigned number, NaN bits, place of a string    28 microseconds or length of a string (4)
    32 place of the bytes it is written in (2)    34 how many they are (2)    36 unused
Run it at the root: it writes the file, and prints how many cases there are of each entry.
"""
import math
import struct

NULL, BYTES, INT, UINT, FLOAT, NAN_FLOAT, DOUBLE, NAN_DOUBLE, DATE, TIME = range(10)
STRINGS = {0, 15, 16, 242} | set(range(245, 256))
WIDTHS = {1: 1, 2: 2, 13: 2, 3: 4, 9: 4, 8: 8}
DATES = {7, 10, 12, 14}


class Refused(Exception):
    def __init__(self, number):
        self.number = number


def need(s, at, n):
    if len(s) < at + n:
        raise Refused(8)
    return s[at:at + n]


def length(s, at):
    """The length-encoded number at a place, and the place behind it."""
    lead = need(s, at, 1)[0]
    if lead < 251:
        return lead, at + 1
    if lead in (0xFB, 0xFF):
        raise Refused(9)
    n = {0xFC: 2, 0xFD: 3, 0xFE: 8}[lead]
    return int.from_bytes(need(s, at + 1, n), 'little'), at + 1 + n


def short_length(n):
    if n < 251:
        return bytes([n])
    if n < 1 << 16:
        return b'\xfc' + struct.pack('<H', n)
    if n < 1 << 24:
        return b'\xfd' + struct.pack('<I', n)[:3]
    return b'\xfe' + struct.pack('<Q', n)


class Got:
    """A value that was read: its case and fields, the place behind it, and the bytes that it is written in."""
    def __init__(self, case, next, written, number=0, micros=0, fields=(), neg=False, back=False):
        self.case, self.next, self.written, self.number, self.micros = case, next, written, number, micros
        self.fields, self.neg, self.back = tuple(fields), neg, back


def string(s, at):
    n, p = length(s, at)
    body = need(s, p, n)
    return Got(BYTES, p + n, short_length(n) + body, number=p, micros=n)


def integer(s, at, width, unsigned):
    raw = need(s, at, width)
    x = struct.unpack('<' + {1: 'b', 2: 'h', 4: 'i', 8: 'q'}[width].upper() if unsigned else '<' + {1: 'b', 2: 'h', 4: 'i', 8: 'q'}[width], raw)[0]
    if x > 0x7FFF_FFFF_FFFF_FFFF:
        return Got(UINT, at + width, struct.pack('<Q', x), number=x)
    return Got(INT, at + width, struct.pack('<q', x))


def real(s, at, width, code, case, nan_case):
    raw = need(s, at, width)
    x = struct.unpack('<' + code, raw)[0]
    if math.isnan(x):
        return Got(nan_case, at + width, raw, number=int.from_bytes(raw, 'little'))
    return Got(case, at + width, struct.pack('<' + code, x))


def date(s, at):
    n = need(s, at, 1)[0]
    b = need(s, at + 1, n)
    year, month, day = struct.unpack('<HBB', b[:4]) if n >= 4 else (0, 0, 0)
    hour, minute, second = struct.unpack('<BBB', b[4:7]) if n >= 7 else (0, 0, 0)
    micros = struct.unpack('<I', b[7:11])[0] if n == 11 else 0
    all = struct.pack('<HBBBBBI', year, month, day, hour, minute, second, micros)
    size = 11 if micros else 7 if hour or minute or second else 4 if year or month or day else 0
    return Got(DATE, at + 1 + n, bytes([size]) + all[:size], number=year, micros=micros, fields=(month, day, hour, minute, second))


def time(s, at):
    n = need(s, at, 1)[0]
    b = need(s, at + 1, n)
    sign, days, hour, minute, second = struct.unpack('<BIBBB', b[:8]) if n >= 8 else (0, 0, 0, 0, 0)
    micros = struct.unpack('<I', b[8:12])[0] if n == 12 else 0
    neg = sign == 1
    all = struct.pack('<BIBBBI', 1 if neg else 0, days, hour, minute, second, micros)
    size = 12 if micros else 8 if days or hour or minute or second else 0
    return Got(TIME, at + 1 + n, bytes([size]) + all[:size], number=days, micros=micros, fields=(hour, minute, second), neg=neg, back=neg and size > 0)


def binary(s, at, column_type, unsigned):
    if column_type in STRINGS:
        return string(s, at)
    if column_type in WIDTHS:
        return integer(s, at, WIDTHS[column_type], unsigned)
    if column_type == 4:
        return real(s, at, 4, 'f', FLOAT, NAN_FLOAT)
    if column_type == 5:
        return real(s, at, 8, 'd', DOUBLE, NAN_DOUBLE)
    if column_type == 6:
        return Got(NULL, at, b'')
    if column_type in DATES:
        return date(s, at)
    if column_type == 11:
        return time(s, at)
    raise Refused(10)


def text(s, at):
    if need(s, at, 1)[0] == 0xFB:
        return Got(NULL, at + 1, b'')
    return string(s, at)


cases = []
pool = bytearray()
known = {}


def place(b):
    b = bytes(b)
    if b not in known:
        found = bytes(pool).find(b)
        if found < 0:
            found = len(pool)
            pool.extend(b)
        known[b] = found
    return known[b]


def case(entry, column_type, unsigned, s, at=0):
    s = bytes(s)
    head = struct.pack('<BBB', entry, column_type, unsigned)
    where = [place(s), len(s), at]
    try:
        g = text(s, at) if entry else binary(s, at, column_type, unsigned)
        cases.append((head + b'\0', where, g))
    except Refused as r:
        cases.append((head + bytes([r.number]), where, None))


def everything():
    run = bytes(i % 256 for i in range(512))
    # every length of a date and of a time: byte i of the run says i, and what stands behind it is the body; and one byte short
    for t in (12, 11):
        for n in range(256):
            case(0, t, 0, run, n)
        for n in list(range(1, 16)) + [127, 128, 250, 251, 252, 253, 254, 255]:
            case(0, t, 0, run[:n + n], n)
    # shapes that real servers send, and around them; sign bytes 0, 1, 2, 255
    for t in (7, 10, 12, 14):
        case(0, t, 0, bytes.fromhex('05e807021dff'))
        case(0, t, 1, bytes.fromhex('04e807021d'))
        case(0, t, 0, bytes.fromhex('07e807021d173b3b'))
        case(0, t, 0, bytes.fromhex('0be807021d173b3b3f420f00'))
        case(0, t, 0, bytes.fromhex('0b00000000000000ffffffff'))
        case(0, t, 0, bytes.fromhex('07000000000000ff'))
        case(0, t, 0, bytes.fromhex('04000000ff'))
        case(0, t, 0, b'\0')
        case(0, t, 0, b'')
    for sign in (0, 1, 2, 255):
        case(0, 11, 0, bytes([8, sign]) + bytes.fromhex('00000000000100'))
        case(0, 11, 0, bytes([8, sign]) + bytes(7))
        case(0, 11, 0, bytes([12, sign]) + bytes(7) + bytes.fromhex('01000000'))
        case(0, 11, 0, bytes([12, sign]) + b'\xff' * 11)
        case(0, 11, 1, bytes([13, sign]) + b'\xff' * 12)
    # NaNs of both kinds, quiet and signalling, both signs; zeros, infinities, the smallest and the largest
    for x in (0x7FC00000, 0xFFC00000, 0x7F800001, 0xFF800001, 0x7FFFFFFF, 0xFFFFFFFF, 0x7FBFFFFF, 0, 0x80000000, 0x7F800000, 0xFF800000, 1, 0x80000001,
              0x007FFFFF, 0x00800000, 0x7F7FFFFF, 0x3F800000, 0xC0490FDB):
        case(0, 4, 0, struct.pack('<I', x))
        case(0, 4, 1, struct.pack('<I', x)[:3])
    for x in (0x7FF8000000000000, 0xFFF8000000000000, 0x7FF0000000000001, 0xFFF0000000000001, 0x7FFFFFFFFFFFFFFF, 0xFFFFFFFFFFFFFFFF, 0, 1 << 63,
              0x7FF0000000000000, 0xFFF0000000000000, 1, 0x000FFFFFFFFFFFFF, 0x0010000000000000, 0x7FEFFFFFFFFFFFFF, 0x3FF0000000000000, 0xC00921FB54442D18):
        case(0, 5, 0, struct.pack('<Q', x))
        case(0, 5, 1, struct.pack('<Q', x)[:7])
    # integers of every width at both signs, around the sign bit and at both ends
    for t, k in ((1, 1), (2, 2), (13, 2), (3, 4), (9, 4), (8, 8)):
        top = 1 << (8 * k)
        for x in (0, 1, top // 2 - 1, top // 2, top // 2 + 1, top - 2, top - 1):
            for unsigned in (0, 1, 255):
                case(0, t, unsigned, x.to_bytes(k, 'little'))
        case(0, t, 0, bytes(k - 1))
        case(0, t, 1, bytes(k) + b'\x07', 1)
    # all 256 types on nothing and on 300 bytes
    for t in range(256):
        case(0, t, 0, b'')
        case(0, t, t % 2, run[3:303], 5)
    # strings: one, three, four and nine bytes of length; text NULL; no lengths; a place past the end
    for entry in (0, 1):
        for s in (b'\0', b'\x03abc', b'\x03ab', b'\xfa' + b'x' * 250, b'\xfa' + b'x' * 249, b'\xfb', b'\xff', b'\xfc', b'\xfc\xfb', b'\xfc\xfb\0' + b'y' * 251, b'\xfc\x03\0abc',
                  b'\xfc\x03\0ab', b'\xfd\x03\0\0abc', b'\xfd\x03\0', b'\xfe' + struct.pack('<Q', 3) + b'abc', b'\xfe' + struct.pack('<Q', 3)[:7], b'\xfe' + b'\xff' * 8 + b'abc',
                  b'\xfe' + struct.pack('<Q', 1 << 63), b''):
            case(entry, 253, 0, s)
            case(entry, 253, 1, b'zz' + s, 2)
        case(entry, 253, 0, b'\x03abc', 4)
        case(entry, 253, 0, b'\x03abc', 5)
        case(entry, 6, 0, b'\x03abc', 9)


everything()
base = 4 + 40 * len(cases)
out = bytearray()
for head, where, g in cases:
    p = [base + where[0], where[1], where[2]]
    if g is None:
        out += head + struct.pack('<HHHH', *p, 0) + bytes(28)
        continue
    w = place(g.written)
    fields = bytes(g.fields) + bytes(5 - len(g.fields))
    out += head + struct.pack('<HHHH', *p, g.next) + bytes([g.case, g.neg]) + fields + bytes([g.back])
    out += struct.pack('<QIHHI', g.number, g.micros, base + w, len(g.written), 0)
assert len(out) + 4 == base and base + len(pool) <= 65536, (base, len(pool))
with open('crates/values/data/vectors', 'wb') as f:
    f.write(struct.pack('<HH', len(cases), 0) + out + pool)
print('binary', sum(1 for h, w, g in cases if h[0] == 0))
print('text', sum(1 for h, w, g in cases if h[0] == 1))
print('refused', sum(1 for h, w, g in cases if g is None))
