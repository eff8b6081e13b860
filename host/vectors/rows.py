#!/usr/bin/env python3
"""Makes rows-1.txt and so on: the rows of a real server's captures, every start and every value, and the rows cut short.

    rows.py CAPTURES OUT      out of the captures (a folder, with decoded/ in it)
    rows.py --cuts DATA OUT   all-row-cuts-1.txt and so on: each row of the lists in DATA cut at every length

The starts and values are those of the independent decoder that the captures come with, which was checked against what the server's own client
prints; durations are reckoned from its fields, and those that are none are refused by request W4's words. That a cut row is short (8) is the paper's word: each row is used to its last byte."""
import glob
import json
import lzma
import sys

from vectors import List
from wire import answer, microseconds

CAPTURES = ('plain-eof-binary-rows.small', 'plain-deprecate-eof-binary-rows.small')
KINDS = {'null': 0, 'bytes': 1, 'int': 2, 'uint': 3, 'float': 4, 'double': 5, 'date': 6, 'time': 7}
# More places than a row has columns: those behind must stay.
ROOM = 40


def rows_of(captures, name):
    """Types and signs, and for each row its bytes and what the decoder says of it."""
    data = open(f'{captures}/{name}.s2c.bin', 'rb').read()
    rows, columns, base = [], [], 0
    for line in lzma.open(f'{captures}/decoded/{name}.jsonl.xz', 'rt'):
        p = json.loads(line)
        if p['line'] == 'exchange':
            base, columns = p['s2c'][0], []
        if p['line'] != 'packet' or p['dir'] != 's2c':
            continue
        if p.get('kind') == 'column_def':
            columns.append((p['type'], int(p['unsigned'])))
        if p.get('kind') == 'row_binary':
            row = b''.join(data[base + at + 4:base + at + 4 + n] for at, n, _ in p['chunks'])
            rows.append((bytes(t for t, _ in columns), bytes(u for _, u in columns), row, p))
    return rows


def said(v):
    """Integer, bits, place and length of a value, as the reader of all kinds has them."""
    kind, integer, bits, place, n = KINDS[v[0]], None, None, None, None
    if kind == 1:
        place, n = v[1:3]
    if kind == 2:
        integer = v[1]
    if kind == 3:
        bits = v[1]
    if kind in (4, 5):
        bits = int(v[1], 16)
    return [kind, integer, bits, place, n]


def value(made, row, at, end, column, v):
    """A value that stands from a place to another."""
    made.case('read_value', [row, at, *column], [0, *said(v), end])
    if v[0] == 'date':
        made.case('read_date', [row, at], [0, *v[2:9], end])
    if v[0] == 'time':
        neg, days, hours, minutes, seconds, micros, signed = v[2:9]
        size = (((days * 24 + hours) * 60 + minutes) * 60 + seconds) * 1000000 + micros
        assert signed == (-size if neg else size)
        made.case('read_time', [row, at], [0, *v[2:8], end])
        due = answer(microseconds, *v[2:8])
        made.case('read_duration', [row, at], due if due[0] else [*due, end])


def bitmap_cases(made, row, values):
    """The bitmap by itself: each column's bit, and how many are set."""
    n = len(values)
    bitmap = row[1:1 + (n + 9) // 8]
    for i, v in enumerate(values):
        made.once('null_bit', [bitmap, 0, i], [0, int(v is None)])
    made.once('null_count', [bitmap, 0, n], [0, values.count(None)])


def cut(made, row, types, signs, n):
    made.case('read_row', [row[:n], types, signs, ROOM], [8])


def listed(made, k, types, signs, row, p):
    """Row k. Of its cuts those at the ends of every third value, by turns with k, and within it."""
    made.part()
    made.note(f'row {k + 1}')
    made.hold(row + types + signs)
    assert p['used'] == len(row)
    made.case('read_row', [row, types, signs, ROOM], [0, p['nulls'], p['used'], *p['starts']])
    ends = p['starts'][1:] + [p['used']]
    for i, v in enumerate(p['values']):
        if v is not None:
            value(made, row, p['starts'][i], ends[i], (types[i], signs[i]), v)
    bitmap_cases(made, row, p['values'])
    for n in sorted({c for i in range(k % 3, len(ends), 3) for c in (p['starts'][i], p['starts'][i] + 1, ends[i] - 1) if c < len(row)} | {0, 1, 5, len(row) - 1}):
        cut(made, row, types, signs, n)


def captured(captures, out):
    made = List('The rows of a timetable that a real server sent: every start, every value and every NULL bit, by the independent decoder that the captures come with; '
                'and rows cut short, which are refused with 8 (host/vectors/rows.py --cuts has each at every length). Made by host/vectors/rows.py.')
    rows = rows_of(captures, CAPTURES[0])
    for name in CAPTURES[1:]:
        assert [r[:3] for r in rows_of(captures, name)] == [r[:3] for r in rows], name
    for k, row in enumerate(rows):
        listed(made, k, *row)
    made.write_parts(f'{out}/rows')


def all_cuts(data, out):
    made = List('Each row of rows-1.txt and so on, cut at every length: a cut row is short, by the paper. Made by host/vectors/rows.py --cuts.')
    for path in sorted(glob.glob(f'{data}/rows-*.txt')):
        for line in open(path, encoding='ascii'):
            words = line.split()
            if words[:1] == ['bytes']:
                held = bytes.fromhex(words[1][1:])
            if words[:1] == ['read_row'] and words[5:7] == ['=', '0']:
                row, types, signs = (held[int(at):int(at) + int(n)] for at, n in (w[1:].split(',') for w in words[1:4]))
                made.part()
                made.hold(row + types + signs)
                for n in range(len(row)):
                    cut(made, row, types, signs, n)
    made.write_parts(f'{out}/all-row-cuts')


if sys.argv[1] == '--cuts':
    all_cuts(*sys.argv[2:])
else:
    captured(*sys.argv[1:])
