#!/usr/bin/env python3
"""Makes the data of the program `answers`: oracle --list 4000 --seed 30 | answers.py > answers

Standard input: lines of `oracle --list`, whose README ("Vectors") says what the fields are. Standard output: the same lines with
their fields as bytes. All numbers are low byte first.
  4 bytes: how many lines, n; then n + 1 places of 4 bytes: line k stands from place k up to place k + 1; then the lines
  line: 2 the operation, then 9 places of 2 bytes, counted from the line's start: field j stands from place j up to place j + 1,
        and fields that the line does not have are empty; then the fields' bytes

What the oracle's list holds that is not the original's own word: the numbers of refusals (the original answers nothing or an error
of its own kind; a type on which it panics is not run, and stands as 10), the whole answer of operation 04, which the list writes
down without a call, and the bytes used by a read that is refused, which are the definition's.
"""
import struct, sys

FIELDS = 8

def line_bytes(text):
    op, *fields = text.split(' ')
    fields = [b'' if f == '-' else bytes.fromhex(f) for f in fields]
    if len(fields) > FIELDS:
        sys.exit(f'answers.py: {len(fields)} fields: {text}')
    places, at = [], 2 + 2 * (FIELDS + 1)
    for f in fields + [b''] * (FIELDS + 1 - len(fields)):
        places.append(at)
        at += len(f)
    return struct.pack(f'<H{FIELDS + 1}H', int(op, 16), *places) + b''.join(fields)

lines = [line_bytes(text) for text in sys.stdin.read().splitlines()]
at = 4 + 4 * (len(lines) + 1)
out = [struct.pack('<I', len(lines))]
for line in lines:
    out.append(struct.pack('<I', at))
    at += len(line)
out.append(struct.pack('<I', at))
sys.stdout.buffer.write(b''.join(out + lines))
