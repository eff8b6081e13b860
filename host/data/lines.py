#!/usr/bin/env python3
"""What crates/lines must write, reckoned from the paper alone: no reader is run here. The generator is that of src/main.rt.
Prints the program's expected output; with the word `offs`, how far off the misplaced chunks are."""
import sys

M = 2147483647
LINES = 16000

def mixed(x):
    y = x % M
    return (y % 65536 * 32768 + y // 65536) % M * 48271 % M

def draw(s, what, n):
    return mixed(mixed(s % M * 48271 + what % M * 104729 + n % M * 69621 + 1))

def line(s):
    packets = 200 + draw(s, 1, 0) % 101 if s % 16 == 0 else 1 + draw(s, 1, 0) % 24
    c = draw(s, 6, 0) % 40 if s % 32 == 0 else draw(s, 6, 0) % (packets + 1)
    x = [c, c + 1, max(c - 1, 0), c + 255, c - 255 if c >= 255 else c, draw(s, 8, 0) % packets][draw(s, 7, 0) % 6]
    off = x != c and x < packets and abs(x - c) < 256
    more = [draw(s, 10, n) % packets for n in range(c + 1, c + 1 + draw(s, 9, 0) % 8)]
    sizes = [4 + draw(s, 4, j) % 61 for j in list(range(c)) + ([x] + more if off else [])]
    size = sum(sizes)
    due = sum(sizes[:c + 1]) if off else None
    got = k = refusals = 0
    while got != size:
        got = min(size, got + draw(s, 12, k) % (2 + draw(s, 11, 0) % 100))
        k += 1
        refusals += off and due <= got
    return packets, c, off, refusals + off, abs(x - c)

rows = [line(s) for s in range(LINES)]
if sys.argv[1:] == ['offs']:
    far = [r[4] for r in rows if r[2]]
    print(len(far), 'misplaced;', sum(d >= 100 for d in far), '100 or more places off;', sum(d == 255 for d in far), '255 places off')
else:
    print('lines', LINES)
    print('packets written', sum(r[0] for r in rows))
    print('packets handed out', sum(r[1] for r in rows))
    print('lines with a chunk out of its place', sum(r[2] for r in rows))
    print('refusals', sum(r[3] for r in rows))
    print('differences 0')
