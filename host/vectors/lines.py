#!/usr/bin/env python3
"""Lines that lose, repeat and move chunks or frames, and what the reader at their end must say: demand 3 and request W13, reckoned from the paper alone. No
reader is run here, and nothing is asked of the library.

    lines.py              the totals that host/tests/lines.c comes to, which makes the same lines out of the same numbers
    lines.py offs         how far off the misplaced chunks and frames are
    lines.py list OUT     OUT/lines.txt: some of the lines as vectors (docs/VECTORS.md)
"""
import bisect
import itertools
import sys

M = 2147483647
PLAIN, FRAMED = range(16000), range(1000000, 1008000)   # the lines' numbers


def mixed(x):
    y = x % M
    return (y % 65536 * 32768 + y // 65536) % M * 48271 % M


def draw(s, what, n):
    """A number below 2^31 - 1 out of a line's number, what it is for and a count."""
    return mixed(mixed(s % M * 48271 + what % M * 104729 + n % M * 69621 + 1))


POOL = bytes(draw(0, 13, i) % 256 for i in range(1024))


class Line:
    """One line. A unit is what is lost, repeated and moved: a plain line's chunk, a framed one's frame."""

    def __init__(s, n):
        s.n, s.framed = n, n in FRAMED
        s.packets = 200 + draw(n, 1, 0) % 101 if n % 16 == 0 else 1 + draw(n, 1, 0) % 24
        s.number = draw(n, 2, 0) % 256                                   # of both ends, plain and of frames
        s.writer = 1 + draw(n, 14, 0) % 24 if s.framed else 60           # the limit of the writer: a frame's piece
        s.limit = s.writer + draw(n, 3, 0) % 5                           # of the reader
        s.lens = [draw(n, 4, j) % (s.writer + 1) for j in range(s.packets)]
        # How many units there are with each packet.
        s.after = list(itertools.accumulate(-(-(4 + k) // s.writer) if s.framed else 1 for k in s.lens))
        s.units = s.after[-1]
        s.arrive()

    def arrive(s):
        """How many units come in their places, and what comes then: `off`, one out of its place, fewer than 256 places off, and any behind it."""
        n, units = s.n, s.units
        c = s.c = draw(n, 6, 0) % 40 if n % 32 == 0 else draw(n, 6, 0) % (units + 1)
        x = [c, c + 1, max(c - 1, 0), c + 255, c - 255 if c >= 255 else c, draw(n, 8, 0) % units][draw(n, 7, 0) % 6]
        s.far = abs(x - c)
        s.off = x != c and x < units and s.far < 256
        behind = [draw(n, 10, k) % units for k in range(c + 1, c + 1 + draw(n, 9, 0) % 8)]
        s.arrivals = list(range(c)) + ([x] + behind if s.off else [])
        sizes = [s.unit_len(u) for u in s.arrivals]
        s.ends = list(itertools.accumulate(sizes))
        s.size = sum(sizes)

    def complete(s, units):
        """How many packets are complete in the first units."""
        return bisect.bisect_right(s.after, units)

    def unit_len(s, u):
        j = bisect.bisect_right(s.after, u)
        if not s.framed:
            return 4 + s.lens[j]
        k = u - (s.after[j - 1] if j else 0)
        return 7 + min(s.writer, 4 + s.lens[j] - k * s.writer)

    def pieces(s):
        """How many bytes have come with each piece, at last all of them; the last piece is empty."""
        got = k = 0
        while got != s.size:
            got = min(s.size, got + draw(s.n, 12, k) % (2 + draw(s.n, 11, 0) % 100))
            k += 1
            yield got
        yield got

    def refusals(s):
        """One for each piece with which the misplaced unit is whole, or has been."""
        return sum(s.ends[s.c] <= got for got in s.pieces()) if s.off else 0


def totals(kind, unit, rows):
    lines = [Line(n) for n in rows]
    print(f'{kind} lines', len(lines))
    print('  packets written', sum(s.packets for s in lines))
    print(f'  {unit}s written', sum(s.units for s in lines))
    print('  packets handed out', sum(s.complete(s.c) for s in lines))
    print(f'  lines with a {unit} out of its place', sum(s.off for s in lines))
    print('  refusals', sum(s.refusals() for s in lines))


def offs(unit, rows):
    far = [s.far for s in map(Line, rows) if s.off]
    print(len(far), f'{unit}s misplaced;', sum(d >= 100 for d in far), '100 or more places off;', sum(d == 255 for d in far), '255 places off')


# ---- as vectors

def packet(s, j):
    place = draw(s.n, 5, j) % 960
    return POOL[place:place + s.lens[j]]


def written(s):
    """The units as bytes. "Three bytes of length, low byte first, one sequence byte, then the payload"; a frame has its length, its number, and a plain
    length of 0."""
    number, units = s.number, []
    for j in range(s.packets):
        p = packet(s, j)
        chunk = len(p).to_bytes(3, 'little') + bytes([number]) + p
        if not s.framed:
            units.append(chunk)
            number = (number + 1) % 256
            continue
        for at in range(0, len(chunk), s.writer):
            piece = chunk[at:at + s.writer]
            units.append(len(piece).to_bytes(3, 'little') + bytes([number]) + bytes(3) + piece)
            number = (number + 1) % 256
    return units


class Reading:
    """What the calls on a line are due to answer: exactly the packets complete before the misplaced unit, in order, then 3, then 7."""

    def __init__(self, out, s):
        self.out, self.s, self.units = out, s, written(s)
        self.wire = b''.join(self.units[u] for u in s.arrivals)
        self.at = self.taken = self.handed = 0
        self.unread, self.closed = b'', False

    def call(self, got):
        """One call on the bytes up to `got`; whether it handed out a packet."""
        s, used = self.s, 0
        lent = self.wire[self.at:got]
        answer = None
        while answer is None:
            if self.closed:
                answer = [7, used]
            elif self.taken == len(s.arrivals) or s.ends[self.taken] > got:
                answer = [255, used]
            elif self.taken == s.c:
                answer, self.closed = [3, used], True
            else:
                whole = self.take()
                used = s.ends[self.taken - 1] - self.at
                if whole is not None:
                    answer = [0, used, len(whole), whole]
        self.at += used
        staging = [f'^{self.unread.hex()}'] if self.unread else []
        self.out.case('read', [2 * s.limit + 4 if s.framed else 0, f'_{s.limit}', lent], answer + staging)
        return answer[0] == 0

    def take(self):
        """A unit in its place; the packet that is complete with it, or None."""
        s = self.s
        if s.framed:
            self.unread += self.units[self.taken][7:]
        self.taken += 1
        if s.after[self.handed] != self.taken:
            return None
        self.unread, self.handed = b'', self.handed + 1
        return packet(s, self.handed - 1)

    def numbers(self):
        """The next chunk's number, which a sync makes the next frame's after each packet, and the next frame's."""
        s = self.s
        frames = s.number + self.taken
        return [(s.number + (s.after[self.handed - 1] if self.handed else 0)) % 256, frames % 256 if s.framed else 0]

    def run(self):
        s, out = self.s, self.out
        begin(out, s)
        out.hold(self.wire)
        for got in s.pieces():
            while self.call(got):
                if s.framed:
                    out.case('sync_seq_id', [], [0])
        assert self.handed == s.complete(s.c) and self.closed == s.off
        out.case('look', [], [0, *self.numbers(), len(self.unread), int(s.framed), int(self.closed)])


def begin(out, s):
    """The reader, open; its number, if it is not 0, is a byte of the state."""
    from connections import state_bytes
    if s.number:
        out.state(state_bytes(s.limit, s.number, 0, None, False, s.framed, s.number if s.framed else 0).ljust(128, b'\xee'))
        return
    out.case('open', [s.limit], [0])
    if s.framed:
        out.case('frames_on', [], [0])


def chosen(rows):
    """Some lines that begin with 0, some that do not, and two long ones in which a unit comes 255 places off."""
    lines = [s for s in map(Line, rows) if s.arrivals]
    short = [s for s in lines if s.n % 16]
    far = [s for s in lines if s.off and s.far == 255 and s.size < 3000]
    return [s for s in short if s.number == 0][:30] + [s for s in short if s.number][:30] + far[:2]


def write_list(path):
    from vectors import List
    out = List('Lines that lose, repeat and move chunks or frames, cut at random, each read to its end. Answers are reckoned from demand 3 and request W13 by '
               'host/vectors/lines.py, which wrote this file and runs no reader.')
    for s in chosen(PLAIN) + chosen(FRAMED):
        state = 'a misplaced one' if s.off else 'none misplaced'
        out.note(f"line {s.n}: {s.c} of {s.units} {'frames' if s.framed else 'chunks'} in their places, {state}")
        Reading(out, s).run()
    out.write(path)


if sys.argv[1:2] == ['list']:
    write_list(sys.argv[2] + '/lines.txt')
elif sys.argv[1:] == ['offs']:
    offs('chunk', PLAIN)
    offs('frame', FRAMED)
else:
    totals('plain', 'chunk', PLAIN)
    totals('framed', 'frame', FRAMED)
