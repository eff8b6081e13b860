#!/usr/bin/env python3
"""Makes the data of the program `night`, and its numbers by itself: night.py CAPTURES OUT STDOUT

OUT gets both ways of the capture as they are, and OUT/index, in numbers of 4 bytes, low byte first: how many exchanges; for each the
place and length of the command in .c2s.bin, and the length of the answer in .s2c.bin, where the answers follow each other.

STDOUT is what the program must write. Every number in it comes from the decoder below, which shares no line with the proved rooms; it
is held to the decoded list: each packet's length and each row's NULLs. That list has no values of this capture, so the same decoder is
held to every value of the binary rows that the list of a small capture has.
"""
import json, lzma, shutil, struct, sys

BOX, WIDE = 61_440, 66_560
NAME = 'stored-eof-binary-rows.full'
STRINGS = {0, 15, 16, 242, *range(245, 256)}
INTS = {1: 1, 2: 2, 13: 2, 3: 4, 9: 4, 8: 8}

def lenenc(b, at):
    n = b[at]
    if n < 251:
        return n, at + 1
    k = {252: 2, 253: 3, 254: 8}[n]
    return int.from_bytes(b[at + 1:at + 1 + k], 'little'), at + 1 + k

def unframed(b):
    """The chunk stream of a framed answer."""
    out, at = b'', 0
    while at < len(b):
        n = int.from_bytes(b[at:at + 3], 'little')
        assert b[at + 4:at + 7] == b'\0\0\0'
        out += b[at + 7:at + 7 + n]
        at += 7 + n
    assert at == len(b)
    return out

def packets(b):
    """The packets of a chunk stream: none here has more than one chunk."""
    out, at = [], 0
    while at < len(b):
        n = int.from_bytes(b[at:at + 3], 'little')
        assert n < 0xFFFFFF
        out.append(b[at + 4:at + 4 + n])
        at += 4 + n
    assert at == len(b)
    return out

def column(b):
    at, names = 0, []
    for _ in range(6):
        n, at = lenenc(b, at)
        names.append(b[at:at + n])
        at += n
    assert b[at] == 12
    return names[4].decode(), b[at + 7], struct.unpack_from('<H', b, at + 8)[0] & 0x20 != 0

def value(b, at, kind, unsigned):
    if kind in STRINGS:
        n, at = lenenc(b, at)
        return ['bytes', at, n, b[at:at + n].hex()], at + n
    if kind in INTS:
        k = INTS[kind]
        v = int.from_bytes(b[at:at + k], 'little', signed=not unsigned)
        return ['uint' if v >= 2 ** 63 else 'int', v], at + k
    if kind in (4, 5):
        k, code, name = {4: (4, '<f', 'float'), 5: (8, '<d', 'double')}[kind]
        return [name, b[at:at + k][::-1].hex(), repr(struct.unpack(code, b[at:at + k])[0])], at + k
    n, body = b[at], b[at + 1:at + 1 + b[at]]
    if kind == 11:
        s, d, h, m, sec = struct.unpack('<BIBBB', body[:8]) if n >= 8 else (0, 0, 0, 0, 0)
        us = int.from_bytes(body[8:12], 'little') if n == 12 else 0
        size = (((d * 24 + h) * 60 + m) * 60 + sec) * 10 ** 6 + us
        return ['time', n, s, d, h, m, sec, us, -size if s == 1 else size, True], at + 1 + n
    y, mo, d = struct.unpack('<HBB', body[:4]) if n >= 4 else (0, 0, 0)
    h, mi, s = body[4:7] if n >= 7 else (0, 0, 0)
    us = int.from_bytes(body[7:11], 'little') if n == 11 else 0
    return ['date', n, y, mo, d, h, mi, s, us], at + 1 + n

def row(b, cols):
    n = len(cols)
    assert b[0] == 0
    width = (n + 9) // 8
    at, out = 1 + width, []
    for i, (_, kind, unsigned) in enumerate(cols):
        if b[1 + (i + 2) // 8] >> (i + 2) % 8 & 1:
            out.append(None)
        else:
            v, at = value(b, at, kind, unsigned)
            out.append(v)
    assert at == len(b)
    return out

def main(captures, out, stdout):
    path = f'{captures}/{NAME}'
    index = json.load(open(path + '.index.json'))['exchanges']
    s2c = open(path + '.s2c.bin', 'rb').read()
    at, data = 0, struct.pack('<I', len(index))
    for e in index:
        assert e['s2c'][0] == at
        at += e['s2c'][1]
        data += struct.pack('<III', *e['c2s'], e['s2c'][1])
    assert at == len(s2c)
    open(f'{out}/index', 'wb').write(data)
    for way in ('s2c', 'c2s'):
        shutil.copyfile(f'{path}.{way}.bin', f'{out}/{NAME}.{way}.bin')
    every = [packets((unframed if e['framed'] else bytes)(s2c[e['s2c'][0]:sum(e['s2c'])])) for e in index]
    answer = every[2]
    n, _ = lenenc(answer[0], 0)
    cols = [column(b) for b in answer[1:1 + n]]
    assert answer[1 + n][0] == answer[-1][0] == 0xFE
    rows = [row(b, cols) for b in answer[2 + n:-1]]
    # against the decoded list: packets by length, rows by their NULLs and the checksum of their values
    all_listed = [json.loads(x) for x in lzma.open(f'{captures}/decoded/{NAME}.jsonl.xz', 'rt')]
    listed = [x for x in all_listed if x['line'] == 'packet' and x['dir'] == 's2c']
    assert [x['len'] for x in listed] == [len(b) for e in every for b in e]
    rows_listed = [x for x in listed if x.get('kind') == 'row_binary']
    assert [x['nulls'] for x in rows_listed] == [r.count(None) for r in rows]
    print('rows', len(rows), 'and values of small rows that agree', small(captures))
    # how far a reader of the paper comes at the box's limit: up to the first chunk or frame that is longer
    frames = [x for x in all_listed if x['line'] == 'frame' and x['dir'] == 's2c'][1:]
    before, stream = [], 0
    for f in frames:
        if f['len'] > BOX:
            break
        stream += f['len']
    place = 0
    for b in answer:
        if place + 4 > stream or len(b) > BOX or place + 4 + len(b) > stream:
            break
        before.append(b)
        place += 4 + len(b)
    assert len(before) < len(answer)
    print('at the box\'s limit: packets of the answer', len(before), 'then one of', len(answer[len(before)]), 'bytes')
    print('rows longer than it:', [(k + 1, len(b)) for k, b in enumerate(answer[2 + n:-1]) if len(b) > BOX])
    text = said(BOX, 2, 2, sum(map(len, every[:2])) + len(before), rows[:len(before) - 2 - n], cols)
    text += said(WIDE, len(index), None, sum(map(len, every)), rows, cols)
    open(stdout, 'w').write('\n'.join(text) + '\n')

def said(limit, exchanges, refused, count, rows, cols):
    n, clock = len(cols), [c[0] for c in cols].index('t0')
    offsets = [(r[clock][8], k + 1) for k, r in enumerate(rows) if r[clock] is not None]
    queue = sorted(offsets)
    zs = [z for z, _ in queue]
    return [
        f'limit {limit}',
        f'exchanges {exchanges}',
    ] + ([f'then refused with {refused}'] if refused else []) + [
        f'packets of the server {count}',
        f'rows {len(rows)}',
        f'columns {n}',
        f'values {sum(v is not None for r in rows for v in r)}',
        f'NULLs {sum(v is None for r in rows for v in r)}',
        f'trains with an offset {len(zs)}',
        f'trains whose offset is NULL {len(rows) - len(zs)}',
        f'sum of the offsets {sum(zs)}',
        f'least {min(zs)}',
        f'greatest {max(zs)}',
        f'trains with a negative offset {sum(z < 0 for z in zs)}',
        f'trains at exactly -60000000 {zs.count(-60000000)}',
        f'  place of the last of them {len(zs) - zs[::-1].index(-60000000) if -60000000 in zs else 0}',
        f'place of the first train that is not negative {next((i + 1 for i, z in enumerate(zs) if z >= 0), 0)}',
        'trains out of order 0',
        'things that are not as they should be 0',
        'head of the queue',
    ] + [f'{z}\trow {k}' for z, k in queue[:20]]

def small(captures):
    """How many values of a small capture's binary rows are as listed: all must be."""
    path, name = captures, 'stored-eof-rows.small'
    s2c, count, e = open(f'{path}/{name}.s2c.bin', 'rb').read(), 0, None
    for line in lzma.open(f'{path}/decoded/{name}.jsonl.xz', 'rt'):
        x = json.loads(line)
        if x['line'] == 'exchange':
            e, cols = x, []
            b = s2c[x['s2c'][0]:sum(x['s2c'])]
            stream = unframed(b) if x['framed'] else b
        elif x['line'] == 'packet' and x['dir'] == 's2c':
            at, n, _ = x['chunks'][0]
            body = stream[at + 4:at + 4 + n]
            if x.get('kind') == 'column_def':
                cols.append(column(body))
            if x.get('kind') == 'row_binary':
                got = row(body, cols)
                assert [v and v[:9] for v in x['values']] == [v and v[:9] for v in got], (x['values'], got)
                count += len(got)
    return count

if __name__ == '__main__':
    main(*sys.argv[1:])
