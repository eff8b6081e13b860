#!/usr/bin/env python3
"""Hand-made rows, parameter lists, NULL bits and NULL counts around every limit of document 01, with the answers.
The answers are computed here from the paper's words, by a decoder of its own that shares nothing with the proved code.
usage: rowvectors.py OUT    (OUT: crates/rowvectors/data/vectors)

The file: a word (two bytes, low first) with the number of cases, then twelve words a case, then the bytes they point to:
  kind 0 row, 1 parameter list: bytes at, length, types at, length, signs at, length, room of the list, status, nulls, used,
  starts at (a word each; as many as there are types, where the status is 0)
  kind 2 NULL bit, 3 NULL count: bitmap at, length, side (0 server, 1 client), column or count in four words, status, answer, 0, 0"""
import struct, sys

STRINGS = {0, 15, 16, 242} | set(range(245, 256))
FIXED = {1: 1, 2: 2, 13: 2, 3: 4, 9: 4, 4: 4, 8: 8, 5: 8, 6: 0}
COUNTED = {7, 10, 12, 14, 11}


class Refused(Exception):
    pass


def need(ok, number):
    if not ok:
        raise Refused(number)


def end_of(s, at, t):
    """Where the value of type t that starts at a place ends."""
    if t in FIXED:
        need(t == 6 or at + FIXED[t] <= len(s), 8)
        return at + FIXED[t]
    if t in COUNTED:
        need(at < len(s) and at + 1 + s[at] <= len(s), 8)
        return at + 1 + s[at]
    need(t in STRINGS, 10)
    need(at < len(s), 8)
    lead = s[at]
    need(lead not in (0xFB, 0xFF), 9)
    wide = {0xFC: 2, 0xFD: 3, 0xFE: 8}.get(lead, 0)
    need(at + 1 + wide <= len(s), 8)
    n = int.from_bytes(s[at + 1:at + 1 + wide], 'little') if wide else lead
    need(at + 1 + wide + n <= len(s), 8)
    return at + 1 + wide + n


def bit(bitmap, off, i):
    return bitmap[(i + off) // 8] >> ((i + off) % 8) & 1


def columns(s, off, types, signs, room):
    """Status, nulls, used, starts."""
    try:
        n = len(types)
        need(1 <= n <= 4096 and n == len(signs), 13)
        need(room >= n, 6)
        lead = 0
        if off == 2:
            need(len(s) > 0, 8)
            need(s[0] == 0, 12)
            lead = 1
        size = (n + off + 7) // 8
        need(lead + size <= len(s), 8)
        bitmap = s[lead:lead + size]
        at, starts = lead + size, []
        for i in range(n):
            starts.append(at)
            if not bit(bitmap, off, i):
                at = end_of(s, at, types[i])
        return 0, sum(bit(bitmap, off, i) for i in range(n)), at, starts
    except Refused as r:
        return r.args[0], 0, 0, []


def null_bit(bitmap, off, i):
    return (0, bit(bitmap, off, i)) if (i + off) // 8 < len(bitmap) else (8, 0)


def null_count(bitmap, off, n):
    if not 1 <= n <= 4096:
        return 13, 0
    if (n + off + 7) // 8 > len(bitmap):
        return 8, 0
    return 0, sum(bit(bitmap, off, i) for i in range(n))


lists, bits, counts = [], [], []


def case(kind, s, types, signs=None, room=None):
    types = bytes(types)
    signs = bytes(len(types)) if signs is None else bytes(signs)
    lists.append((kind, bytes(s), types, signs, len(types) if room is None else room))


def both(values, types, **k):
    """The same values as a row and as parameters, none of them NULL."""
    n = len(types)
    case(0, bytes(1 + (n + 9) // 8) + bytes(values), types, **k)
    case(1, bytes((n + 7) // 8) + bytes(values), types, **k)


def mapped(kind, n, nulls, also=()):
    """A lead byte and a bitmap with these columns NULL, and these bits set besides."""
    off = 0 if kind else 2
    b = bytearray((n + off + 7) // 8)
    for p in [i + off for i in nulls] + list(also):
        b[p // 8] |= 1 << p % 8
    return bytes(1 - kind) + bytes(b)


# how many columns
both([], [])
for n in (1, 5, 6, 7, 8, 9, 13, 14, 15, 16, 17):
    both(range(n), [1] * n)
    case(0, mapped(0, n, range(n)), [1] * n)
    case(1, mapped(1, n, range(n)), [1] * n)
for n in (4095, 4096, 4097):
    case(0, mapped(0, n, range(n)), [77] * n)
case(0, bytes(1 + 513), [6] * 4096)
case(1, mapped(1, 4096, range(0, 4096, 2)), [6] * 4096)
case(1, b'', [6] * 4097)
# lists of unequal length, and too few starts; 13 comes before 6, and both before the row is looked at
both([1, 2], [1, 1], signs=[0])
both([1, 2], [1, 1], signs=[0, 0, 0])
both([1, 2], [1, 1], signs=[])
both([1, 2], [1, 1], signs=[0, 0, 0], room=0)
both([1, 2, 3], [1, 1, 1], room=2)
both([1, 2, 3], [1, 1, 1], room=3)
both([1, 2, 3], [1, 1, 1], room=7)
both([1, 2, 3], [1, 1, 1], room=0)
case(0, b'\x01', [1, 1], room=1)
case(0, b'', [1], signs=[0, 0])
# signs do not matter to the walk
both([0xFF] * 4, [1, 1, 2], signs=[0, 1, 255])
# an empty row, a first byte that is not 0, a short bitmap
case(0, b'', [1])
case(0, b'\x01', [1])
case(0, b'\x01\x00\x05', [1])
case(0, b'\xFF\x00\x05', [1])
case(0, b'\x00', [1])
case(1, b'', [1])
for n in (6, 7, 14, 15):
    case(0, mapped(0, n, range(n))[:-1], [1] * n)
    case(0, mapped(0, n, range(n)), [1] * n)
for n in (8, 9, 16, 17):
    case(1, mapped(1, n, range(n))[:-1], [1] * n)
    case(1, mapped(1, n, range(n)), [1] * n)
# every type by itself: whole, one byte short, and NULL (when it is not tested)
for t in range(256):
    v = {1: b'\x7F', 2: b'ab', 13: b'\xD0\x07', 3: b'abcd', 9: b'abcd', 4: b'abcd', 8: b'12345678', 5: b'12345678', 6: b'',
         7: b'\x04abcd', 10: b'\x04abcd', 12: b'\x07abcdefg', 14: b'\x00', 11: b'\x08abcdefgh'}.get(t, b'\x03xyz')
    case(0, mapped(0, 1, []) + v, [t])
    if t in (0, 6, 17, 241, 242, 243, 244, 245, 255) or t <= 20:
        case(0, mapped(0, 1, []) + v[:-1], [t])
        case(0, mapped(0, 1, [0]), [t])
        case(1, mapped(1, 1, []) + v + b'behind', [t])
# leads of lengths, and lengths that end too early
for v in (b'\xFB', b'\xFF', b'\xFC', b'\xFC\x01', b'\xFC\x01\x00', b'\xFC\x01\x00z', b'\xFD\x01\x00', b'\xFD\x01\x00\x00z', b'\xFE\x01\0\0\0\0\0\0',
          b'\xFE\x01\0\0\0\0\0\0\0z', b'\xFE' + b'\xFF' * 8, b'\xFE' + b'\xFF' * 8 + b'zzz', b'\xFA' + b'q' * 250, b'\xFA' + b'q' * 249,
          b'\xFC\xFB\x00' + b'q' * 251, b'\x01', b''):
    both(v, [253])
for v in (b'\xFB' + b'd' * 251, b'\xFB' + b'd' * 250, b'\x05abcde', b'\xFF' + b'd' * 255, b'\x00', b''):
    both(v, [7])
    both(v, [11])
# the order within a row: the first refusal, and nothing is written before it
both(b'abc' + b'\x05abcd', [1, 2, 253, 99])
both(b'abc' + b'\x04abcd', [1, 2, 253, 99])
both(b'abc' + b'\x04abcd', [1, 2, 253, 6])
both(b'abc', [1, 99, 253, 1])
both(b'abc\xFF', [1, 2, 253, 99])
case(0, mapped(0, 4, [3]) + b'abc\x04abcd', [1, 2, 253, 99])
case(0, mapped(0, 4, [0, 1, 2]), [99, 98, 97, 96])
case(0, mapped(0, 4, [0, 1, 2]) + b'z', [99, 98, 97, 1])
# bits outside the columns are not counted: 0 and 1 of a row, and those behind the last
case(0, mapped(0, 3, [1], also=[0, 1, 5, 6, 7]) + b'ac', [1, 1, 1])
case(0, mapped(0, 6, [5], also=[0, 1]) + b'abcde', [1] * 6)
case(0, mapped(0, 7, [6], also=[0, 1, 9, 15]) + b'abcdef', [1] * 7)
case(1, mapped(1, 3, [1], also=[3, 4, 5, 6, 7]) + b'ac', [1, 1, 1])
case(1, mapped(1, 9, [8], also=[9, 15]) + b'abcdefgh', [1] * 9)
# type 6 with its bit clear: NULL, no bytes, and not counted; with its bit set it is
case(0, mapped(0, 3, []) + b'ac', [1, 6, 1])
case(0, mapped(0, 3, [1]) + b'ac', [1, 6, 1])
case(1, mapped(1, 3, [0]) + b'a', [6, 6, 1])
# bytes behind the last value
both(b'abcxyz', [1, 2])
case(0, mapped(0, 2, [0, 1]) + b'xyz', [1, 2])
# E10
case(0, b'\x00\x04\x08' + bytes(range(11, 19)), [1] * 10, room=12)
bits += [(b'\x04\x08', off, i) for off in (2, 0) for i in range(17)]
bits += [(b'', off, 0) for off in (2, 0)] + [(b'\xFF' * 4, off, i) for off in (2, 0) for i in (29, 30, 31, 32, 2 ** 32, 2 ** 63, 2 ** 64 - 8, 2 ** 64 - 2, 2 ** 64 - 1)]
counts += [(b'\x04\x08', off, n) for off in (2, 0) for n in (0, 1, 2, 3, 6, 7, 9, 10, 13, 14, 15, 16, 17)]
for off in (2, 0):
    counts += [(b'\xFF' * size, off, n) for size in (0, 1, 2, 511, 512, 513, 514) for n in (0, 1, 6, 7, 8, 9, 4094, 4095, 4096, 4097, 2 ** 32, 2 ** 64 - 1)]
    counts += [(bytes([0xA5, 0x3C] * 300), off, n) for n in (1, 3, 5, 64, 1000, 4096)]

head, heap, places = b'', bytearray(), {}
total = len(lists) + len(bits) + len(counts)
base = 2 + 24 * total


def put(b):
    """The place of some bytes in the file: bytes that are there already are not put again."""
    if b not in places:
        at = heap.find(b)
        if at < 0:
            at = len(heap)
            heap.extend(b)
        places[b] = base + at
    return places[b]


answers = []
for kind, s, ts, us, room in lists:
    status, nulls, used, starts = columns(s, 0 if kind else 2, ts, us, room)
    answers.append((status, nulls, used, struct.pack(f'<{len(starts)}H', *starts)))
# the longest first, so that a part of another is found in it
for b in sorted({b for l, a in zip(lists, answers) for b in (l[1], l[2], l[3], a[3])}, key=lambda b: (-len(b), b)):
    put(b)
words = []
for (kind, s, ts, us, room), (status, nulls, used, starts) in zip(lists, answers):
    words.append([kind, put(s), len(s), put(ts), len(ts), put(us), len(us), room, status, nulls, used, put(starts)])
for kind, cases, answer in ((2, bits, null_bit), (3, counts, null_count)):
    for m, off, i in cases:
        status, x = answer(m, off, i)
        words.append([kind, put(m), len(m), 0 if off else 1] + [i >> k & 0xFFFF for k in (0, 16, 32, 48)] + [status, x, 0, 0])
out = struct.pack('<H', total) + b''.join(struct.pack('<12H', *w) for w in words) + bytes(heap)
open(sys.argv[1], 'wb').write(out)
kinds = [sum(w[0] == k for w in words) for k in range(4)]
print(f'{kinds[0]} rows, {kinds[1]} parameter lists, {kinds[2]} bits, {kinds[3]} counts; {len(out)} bytes')
print('refused:', {n: sum(w[8] == n for w in words) for n in (6, 8, 9, 10, 12, 13)})
