#!/usr/bin/env python3
"""Makes literals-backslash.txt, literals-other.txt and literals-mariadb.txt: quoted literals of both modes, good and bad.   usage: literals.py OUT

In the first two the answers come from the grammar of docs/LITERALS.md and not from a walk: every way to cut the input into items is tried, and a
beginning is one if some short tail makes a literal of it. In the third the bytes that a literal means are a MariaDB server's own
(data/literals-mariadb.txt, which literals_mariadb.py asked for); a place where a literal ends is the grammar's there too."""
import itertools
import pathlib
import random
import sys

from vectors import List, room

QUOTE, SLASH = b"'", b'\\'
TABLE = {b'0': b'\x00', b'b': b'\x08', b'n': b'\x0a', b'r': b'\x0d', b't': b'\x09', b'Z': b'\x1a', b'%': b'\\%', b'_': b'\\_'}
TAILS = [b''.join(t) for n in range(4) for t in itertools.product((QUOTE, SLASH, b'a'), repeat=n)]


def item(mode, w):
    """What w means by each rule that makes it one item."""
    if len(w) == 1 and w != QUOTE and not (mode == 'b' and w == SLASH):
        yield w
    if w == QUOTE + QUOTE:
        yield QUOTE
    if mode == 'b' and len(w) == 2 and w[:1] == SLASH:
        yield TABLE.get(w[1:], w[1:])


def items(mode, w):
    """What w means by each way to cut it into items."""
    ways = [[b'']]
    for end in range(1, len(w) + 1):
        ways.append([before + b for start in (end - 1, end - 2) if start >= 0 for b in item(mode, w[start:end]) for before in ways[start]])
    return ways[len(w)]


def literal(mode, s):
    """What s means by each way to read it as one literal: at most one, since each literal has one meaning."""
    found = items(mode, s[1:-1]) if len(s) >= 2 and s[:1] == QUOTE and s[-1:] == QUOTE else []
    assert len(found) < 2, (mode, s, found)
    return found


def begins(mode, s):
    return any(literal(mode, s + t) for t in TAILS)


def place(mode, s):
    return next((p for p in range(len(s)) if not begins(mode, s[:p + 1])), len(s))


def inputs():
    """Both modes get all of them."""
    # every byte by itself, behind a backslash, and behind the closing quote
    for n in range(256):
        c = bytes([n])
        yield QUOTE + c + QUOTE
        yield QUOTE + SLASH + c + QUOTE
    for c in (b'\x00', b' ', b'"', b'a', SLASH, b'\xff'):
        yield QUOTE + QUOTE + c
        yield c
        yield c + QUOTE + QUOTE
    # every input of up to four bytes over these
    for n in range(5):
        for s in itertools.product((QUOTE, SLASH, b'a', b'%'), repeat=n):
            yield b''.join(s)
    # the examples of the page, and some that people write
    for s in (r"""'hello'""", r"""'"hello"'""", r"""'""hello""'""", r"""'hel''lo'""", r"""'\'hello'""", r"""'This\nIs\nFour\nLines'""",
              r"""'disappearing\ backslash'""", r"""'a' 'b'""", r"""'a'  """, r"""'a';""", r"""'it''s'""", r"""'C:\\new\\table'""", r"""'100\%'""",
              r"""'snake\_case'""", r"""'\0\b\n\r\t\Z\%\_\'\"\\\x'""", r"""'\\''""", r"""'\\'''""", r"""'\''""", r"""'\'''""", r"""'''\'""", r"""'a''""",
              r"""'a\ """.strip(), r"""''''''""", r"""'''''""", r"""N'a'""", r"""_utf8'a'""", r""""a\"""", 'Þórshöfn', "'Þórshöfn'", "'Reykjavík''s'"):
        yield s.encode()
    # long runs, with something at the front, in the middle and at the end
    for n in (15, 16, 17, 31, 63, 120):
        run = bytes(97 + i % 26 for i in range(n))
        for s in (run, QUOTE + QUOTE + run, run + SLASH + b'n', run + QUOTE + QUOTE + run[:9], run + SLASH + b'%' + run[:5] + SLASH + SLASH, run + SLASH):
            yield QUOTE + s + QUOTE
            yield QUOTE + s
    # and mixtures
    rnd = random.Random(10)
    pieces = [QUOTE + QUOTE, SLASH + b'0', SLASH + b'Z', SLASH + b'_', SLASH + SLASH, SLASH + QUOTE, b'ab', b'c', b'\x00\xff', QUOTE, SLASH]
    for n in range(150):
        body = b''.join(rnd.choice(pieces[:9] if n % 3 else pieces) for _ in range(rnd.randrange(1, 12)))
        yield QUOTE + body + QUOTE


# ---- the lists

MODES = {'b': ('backslash', 0), 'o': ('other', 1)}
BAD = 15


def good(made, s, flag, meant):
    """The length; the meaning into more room, where what stands behind it stays, into just enough, and into one byte too few."""
    n = len(meant)
    made.once('literal_len', [s, flag], [0, n])
    for more in (3, 0):
        made.once('literal', [room(n + more), s, flag], [0, n, None, meant] if n else [0, n])
    if n:
        made.once('literal', [room(n - 1), s, flag], [6])


def bad(made, s, flag, at):
    """15 comes before 6: also with no room at all."""
    made.once('literal_len', [s, flag], [BAD, None, at])
    for n in (len(s), 0):
        made.once('literal', [room(n), s, flag], [BAD, None, at])


def by_the_grammar(mode):
    name, flag = MODES[mode]
    where = 'where backslashes escape' if mode == 'b' else 'in the mode NO_BACKSLASH_ESCAPES'
    made = List(f'Quoted literals, good and bad, {where}, and what the grammar of docs/LITERALS.md says of each: every way to cut the input into items was tried. Made by '
                'host/vectors/literals.py.')
    for s in dict.fromkeys(inputs()):
        meant = literal(mode, s)
        if meant:
            good(made, s, flag, meant[0])
        else:
            bad(made, s, flag, place(mode, s))
    return made, name


def any_flag(made):
    made.note('any flag but 0 is the other mode')
    for s in (b"'a\\'b'", b"'\\'", b"'\\\\'", b"'a''b'"):
        meant = literal('o', s)
        for flag in (2, 128, 255):
            made.once('literal_len', [s, flag], [0, len(meant[0])] if meant else [BAD, None, place('o', s)])


def taken_for_more(mode, s, at):
    """Where the server takes what is no literal, it is more than one: it begins otherwise, or a whole literal stands before the place."""
    return at < len(s) and (s[:1] != QUOTE if at == 0 else literal(mode, s[:at]))


def by_the_server():
    made = List('What a MariaDB server answered to SELECT HEX(input), in both modes: the bytes that each literal means are its own. Where the input is no single literal the place is that of '
                'the grammar; the server refuses it too, or takes it for more than one literal. Made by host/vectors/literals.py out of host/vectors/data/literals-mariadb.txt.')
    kept = pathlib.Path(__file__).parent / 'data' / 'literals-mariadb.txt'
    for line in kept.read_text().splitlines():
        mode, asked, sign, *said = line.split(' ')
        s, flag = bytes.fromhex(asked), MODES[mode][1]
        if literal(mode, s):
            assert sign == '=', line
            meant = bytes.fromhex(said[0]) if said else b''
            made.once('literal', [room(len(meant)), s, flag], [0, len(meant), None, meant] if meant else [0, 0])
        else:
            at = place(mode, s)
            assert sign == '!' or taken_for_more(mode, s, at), line
            made.once('literal', [room(len(s)), s, flag], [BAD, None, at])
    made.write(f'{sys.argv[1]}/literals-mariadb.txt')


if __name__ == '__main__':
    for mode in MODES:
        made, name = by_the_grammar(mode)
        if mode == 'o':
            any_flag(made)
        made.write(f'{sys.argv[1]}/literals-{name}.txt')
    by_the_server()
