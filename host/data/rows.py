#!/usr/bin/env python3
"""The rows of a capture, and what the independent decoder says of them, for the program `rows`.
usage: rows.py OUT CAPTURE..    (OUT: crates/rows/data/rows; a CAPTURE is a path without its .s2c.bin, and beside it lies decoded/)
Captures that hold the same rows make one file; others are an error, since one file has one list of types.

The file, in words (two bytes, low first): rows, columns, types at (a byte each, and the signs behind them), table at; in the table for
each row: its bytes at, length, nulls, used, starts at (a word each), values at (eight words each: tag and numbers, as `flat` says)."""
import json, lzma, os, struct, sys


def flat(v):
    """Tag and numbers of a value: eight words."""
    def wide(tag, n):
        return [tag] + [n >> k & 0xFFFF for k in (0, 16, 32, 48)] + [0, 0, 0]
    if v is None or v[0] == 'null':
        return [0] * 8
    kind = v[0]
    if kind == 'int':
        return wide(2 if v[1] < 0 else 1, abs(v[1]))
    if kind == 'uint':
        return wide(3, v[1])
    if kind == 'bytes':
        return [4, v[1], v[2], 0, 0, 0, 0, 0]
    if kind in ('float', 'double'):
        return wide({'float': 5, 'double': 6}[kind], int(v[1], 16))
    if kind == 'date':
        year, month, day, hour, minute, second, micros = v[2:9]
        return [7, year, month + 256 * day, hour + 256 * minute, second, micros & 0xFFFF, micros >> 16, 0]
    if kind == 'time':
        neg, days, hours, minutes, seconds, micros = v[2:8]
        assert v[8] == (-1 if neg else 1) * ((((days * 24 + hours) * 60 + minutes) * 60 + seconds) * 1000000 + micros)
        return [8, days & 0xFFFF, days >> 16, neg + 256 * hours, minutes + 256 * seconds, micros & 0xFFFF, micros >> 16, 0]
    raise ValueError(v)


def rows_of(capture):
    """Types and signs, and for each row its bytes and what the decoder says of it."""
    folder, name = os.path.split(capture)
    data = open(f'{capture}.s2c.bin', 'rb').read()
    rows, cols, lists, base = [], [], [], 0
    for line in lzma.open(f'{folder}/decoded/{name}.jsonl.xz', 'rt'):
        p = json.loads(line)
        if p['line'] == 'exchange':
            base, cols = p['s2c'][0], []
        elif p['line'] == 'packet' and p['dir'] == 's2c':
            if p.get('kind') == 'column_def':
                cols.append((p['type'], p['unsigned']))
            if p.get('kind') == 'row_binary':
                body = b''.join(data[base + o + 4:base + o + 4 + n] for o, n, _ in p['chunks'])
                rows.append((body, p['nulls'], p['used'], p['starts'], p['values']))
                lists = list(cols)
    return lists, rows


out, captures = sys.argv[1], sys.argv[2:]
cols, rows = rows_of(captures[0])
for c in captures[1:]:
    assert rows_of(c) == (cols, rows), c
n = len(cols)
lists = bytes(t for t, u in cols) + bytes(1 if u else 0 for t, u in cols)
table_at = 8 + len(lists)
heap_at = table_at + 12 * len(rows)
table, heap = b'', b''
for body, nulls, used, starts, vs in rows:
    place = heap_at + len(heap)
    table += struct.pack('<6H', place, len(body), nulls, used, place + len(body), place + len(body) + 2 * n)
    heap += body + struct.pack(f'<{n}H', *starts) + b''.join(struct.pack('<8H', *flat(v)) for v in vs)
whole = struct.pack('<4H', len(rows), n, 8, table_at) + lists + table + heap
assert len(whole) <= 65536
open(out, 'wb').write(whole)
print(f'{len(captures)} captures, {len(rows)} rows of {n} columns, {len(whole)} bytes')
