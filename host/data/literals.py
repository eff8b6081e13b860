#!/usr/bin/env python3
"""Makes crates/literals/data/literals.txt: quoted literals of both modes, good and bad, and what docs/LITERALS.md says of each.

A line: the mode, `b` where backslashes escape and `o` where not; the input in hex; then `=` and the bytes that it means in hex, or `!` and the
place of the first byte that no literal could continue with, or the end. One space between them.

The answers come from the grammar and not from a walk: every way to cut the input into items is tried, and a beginning is one if some short
tail makes a literal of it. Run it at the root: it writes the file and prints how many lines there are of each kind.
"""
import itertools
import random

QUOTE, SLASH = b"'", b'\\'
TABLE = {b'0': b'\x00', b'b': b'\x08', b'n': b'\x0a', b'r': b'\x0d', b't': b'\x09', b'Z': b'\x1a', b'%': b'\\%', b'_': b'\\_'}
TAILS = [b''.join(t) for n in range(4) for t in itertools.product((QUOTE, SLASH, b'a'), repeat=n)]


def item(mode, w):
    """What w means by each rule that makes it one item."""
    if len(w) == 1 and w != QUOTE and not (mode == 'b' and w == SLASH):
        yield w
    if w == QUOTE + QUOTE:
        yield QUOTE
    if mode == 'b' and len(w) == 2 and w[:1] == SLASH:
        yield TABLE.get(w[1:], w[1:])


def items(mode, w):
    """What w means by each way to cut it into items."""
    ways = [[b'']]
    for end in range(1, len(w) + 1):
        ways.append([before + b for start in (end - 1, end - 2) if start >= 0 for b in item(mode, w[start:end]) for before in ways[start]])
    return ways[len(w)]


def literal(mode, s):
    """What s means by each way to read it as one literal: at most one, since each literal has one meaning."""
    found = items(mode, s[1:-1]) if len(s) >= 2 and s[:1] == QUOTE and s[-1:] == QUOTE else []
    assert len(found) < 2, (mode, s, found)
    return found


def begins(mode, s):
    return any(literal(mode, s + t) for t in TAILS)


def place(mode, s):
    return next((p for p in range(len(s)) if not begins(mode, s[:p + 1])), len(s))


def line(mode, s):
    found = literal(mode, s)
    return f'{mode} {s.hex()} ' + (f'= {found[0].hex()}' if found else f'! {place(mode, s)}')


def inputs():
    """Both modes get all of them."""
    # every byte by itself, behind a backslash, and behind the closing quote
    for n in range(256):
        c = bytes([n])
        yield QUOTE + c + QUOTE
        yield QUOTE + SLASH + c + QUOTE
    for c in (b'\x00', b' ', b'"', b'a', SLASH, b'\xff'):
        yield QUOTE + QUOTE + c
        yield c
        yield c + QUOTE + QUOTE
    # every input of up to four bytes over these
    for n in range(5):
        for s in itertools.product((QUOTE, SLASH, b'a', b'%'), repeat=n):
            yield b''.join(s)
    # the examples of the page, and some that people write
    for s in (r"""'hello'""", r"""'"hello"'""", r"""'""hello""'""", r"""'hel''lo'""", r"""'\'hello'""", r"""'This\nIs\nFour\nLines'""",
              r"""'disappearing\ backslash'""", r"""'a' 'b'""", r"""'a'  """, r"""'a';""", r"""'it''s'""", r"""'C:\\new\\table'""", r"""'100\%'""",
              r"""'snake\_case'""", r"""'\0\b\n\r\t\Z\%\_\'\"\\\x'""", r"""'\\''""", r"""'\\'''""", r"""'\''""", r"""'\'''""", r"""'''\'""", r"""'a''""",
              r"""'a\ """.strip(), r"""''''''""", r"""'''''""", r"""N'a'""", r"""_utf8'a'""", r""""a\"""", 'Þórshöfn', "'Þórshöfn'", "'Reykjavík''s'"):
        yield s.encode()
    # long runs, with something at the front, in the middle and at the end
    for n in (15, 16, 17, 31, 63, 120):
        run = bytes(97 + i % 26 for i in range(n))
        for s in (run, QUOTE + QUOTE + run, run + SLASH + b'n', run + QUOTE + QUOTE + run[:9], run + SLASH + b'%' + run[:5] + SLASH + SLASH, run + SLASH):
            yield QUOTE + s + QUOTE
            yield QUOTE + s
    # and mixtures
    rnd = random.Random(10)
    pieces = [QUOTE + QUOTE, SLASH + b'0', SLASH + b'Z', SLASH + b'_', SLASH + SLASH, SLASH + QUOTE, b'ab', b'c', b'\x00\xff', QUOTE, SLASH]
    for n in range(150):
        body = b''.join(rnd.choice(pieces[:9] if n % 3 else pieces) for _ in range(rnd.randrange(1, 12)))
        yield QUOTE + body + QUOTE


lines = list(dict.fromkeys(line(mode, s) for mode in 'bo' for s in inputs()))
with open('crates/literals/data/literals.txt', 'w', encoding='ascii') as f:
    f.writelines(l + '\n' for l in lines)
good = sum(' = ' in l for l in lines)
print(f'{len(lines)} lines, {sum(l[0] == "o" for l in lines)} of the other mode, {good} good, {len(lines) - good} bad, {sum(len(l) + 1 for l in lines)} bytes')
