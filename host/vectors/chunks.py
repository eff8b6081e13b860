#!/usr/bin/env python3
"""Makes the lists of plain chunks: chunks.py CAPTURES OUT

OUT/chunks-1.txt and so on: calls around every limit, over any state; 300 packets over the wrap; the plain captures. OUT/rooms-chunks.txt: the calls with
a second number tolerated, which only the room has.

Answers, bytes and states are those of the small codec below, which is written from the paper and shares no line with the proved one. The packets of the
captures are those that an independent decoder lists: the codec below must find the same.
"""
import glob
import os
import random
import sys

from connections import Calls, Capture, state_bytes
from vectors import again, room

M = 16_777_215
LIMIT = 61_440   # with which the captures are read
MORE = 255

class State:
    def __init__(s, limit, number=0, taken=0, header=None, closed=False):
        s.limit, s.number, s.taken, s.header, s.closed = limit, number, taken, header, closed
    def copy(s):
        return State(s.limit, s.number, s.taken, s.header, s.closed)
    def bytes(s):
        return state_bytes(s.limit, s.number, s.taken, s.header, s.closed)

def decode(st, unread, buf, also=None):
    """The paper's five steps; the status, a packet's length, the bytes used, the state and the buffer then."""
    st, buf, used = st.copy(), bytearray(buf), 0
    ok = lambda k: k == st.number or k == also
    if st.closed:
        return 7, None, 0, st, buf
    while True:
        left = unread[used:]
        if st.header is None:
            if len(left) < 4:
                return MORE, None, used, st, buf
            n, k = int.from_bytes(left[:3], 'little'), left[3]
            if n > 0:
                if st.taken + n > st.limit:
                    st.closed = True
                    return 2, None, used, st, buf
                st.header = (n, k)
        else:
            n, k = st.header
        if len(left) < 4 + n:
            return MORE, None, used, st, buf
        if not ok(k):
            st.closed = True
            return 3, None, used, st, buf
        if st.taken + n > len(buf):
            return 6, None, used, st, buf
        buf[st.taken:st.taken + n] = left[4:4 + n]
        used += 4 + n
        st.taken += n
        st.header, st.number = None, (k + 1) % 256
        if n != M:
            whole, st.taken = st.taken, 0
            return 0, whole, used, st, buf

def chunks(number, packet):
    out = b''
    while True:
        piece, packet = packet[:M], packet[M:]
        out += len(piece).to_bytes(3, 'little') + bytes([number]) + piece
        number = (number + 1) % 256
        if len(piece) < M:
            return out, number

def encode(st, packet, size):
    """The status, the chunks and the state then."""
    st = st.copy()
    out, number = chunks(st.number, packet)
    if st.closed:
        return 7, b'', st
    if len(packet) > st.limit:
        return 2, b'', st
    if len(out) > size:
        return 6, b'', st
    st.number = number
    return 0, out, st

# ---- calls over any state

def filling(size):
    """What a buffer of a size holds before a chunk that follows others of its packet: a string with its length."""
    return bytes([size - 1]) + b'.' * (size - 1)

class Case:
    """A call: over which state, which it leaves, and the line. `fill`: the buffer is filled before."""
    def __init__(s, st, then, name, asked, answer, fill=0):
        s.st, s.then, s.name, s.asked, s.answer, s.fill = st.bytes(), then.bytes(), name, asked, answer, fill
        s.key = (s.st, name, *asked)

class Cases:
    """Each call once: the cuts of a stream have many in common."""
    def __init__(s):
        s.face, s.room = {}, {}

    def add(s, case):
        (s.room if case.name == 'decode_with' else s.face).setdefault(case.key, case)

    def read(s, st, unread, size, also=None):
        before = filling(size) if size else b''
        status, n, used, then, buf = decode(st, unread, before, also)
        answer, copied = [status, used], n is not None and n > st.taken
        if n is not None:
            answer.append(n)
        if copied:
            answer.append(bytes(buf) if st.taken else bytes(buf[:n]))
        fill = size if copied and st.taken else 0
        lent = again(size) if fill else room(size)
        asked = [0, lent, unread] if also is None else [lent, unread, also]
        s.add(Case(st, then, 'read' if also is None else 'decode_with', asked, answer, fill))
        return status, used, then

    def write(s, st, packet, size):
        status, out, then = encode(st, packet, size)
        s.add(Case(st, then, 'write', [room(size), packet], [status] if status else [0, len(out), out]))

def lay_out(made, cases):
    """The cases one behind the other, with few lines `state ..`: the next begins with the state that is there, and rather leaves it so; if there is none,
    it is the next of the list."""
    left = list(cases)
    while left:
        here = [c for c in left if c.st == made.now]
        if not here:
            made.set_state(left[0].st)
            continue
        case = next((c for c in here if c.then == c.st), here[0])
        left.remove(case)
        if case.fill:
            made.case('put_lenenc_str', [room(case.fill), 0, filling(case.fill)[1:]], [0, case.fill, filling(case.fill)])
        made.call(case.name, case.asked, case.answer, case.then)

def session(cases, st, parts, size, also=None):
    """A connection's reads: the parts come one after the other, and what a call leaves unread is lent again with the next."""
    unread = b''
    for part in parts:
        unread += part
        while True:
            status, used, st = cases.read(st, unread, size, also)
            unread = unread[used:]
            if status:
                break
        if status != MORE:
            return

def cuts(cases, st, stream, size, also=None):
    n = len(stream)
    for a in range(n + 1):
        for b in range(a, n + 1):
            session(cases, st, [stream[:a], stream[a:b], stream[b:]], size, also)

def stream(number, packets):
    out = b''
    for p in packets:
        c, number = chunks(number, p)
        out += c
    return out

def fixed(c):
    # every cut of several packets over the wrap, in two and three parts
    cuts(c, State(9, 254), stream(254, [b'', b'A', b'hello', b'', b'xyz']), 9)
    # a second number tolerated, and the sequence goes on from the accepted one
    cuts(c, State(5, 7), b'\x01\0\0\x03A' + b'\x02\0\0\x04BC' + b'\0\0\0\x03', 5, 3)
    # 2: at the header, whatever its number and before its chunk is there; the limit itself is none
    for limit in (1, 2, 3, 4):
        for k in (0, 9):
            for n in (4, 6, 7):
                c.read(State(limit), (b'\x03\0\0' + bytes([k]) + b'abc')[:n], 4)
    for taken in (2, 2 ** 63, 2 ** 64 - 1):
        for limit in (taken - 1, taken, min(taken + 1, 2 ** 64 - 1), 2 ** 64 - 1):
            for head in (b'\x01\0\0\0z', b'\xff\xff\xff\0z', b'\0\0\0\0z'):
                c.read(State(limit, taken=taken), head, 4)
    # 3: only when the chunk is whole; at length 0 too; the earlier packet's bytes stay
    for n in range(10):
        c.read(State(9, 5), (b'\x02\0\0\x06ab' + b'\0\0\0\x05')[:n], 4)
    c.read(State(9, 5), b'\0\0\0\x06', 4)
    session(c, State(9, 5), [b'\x02\0\0\x05ab\x01\0\0\x05c'], 4)
    session(c, State(9, 5), [b'\x02\0\0\x05ab\x01\0\0', b'\x06', b'', b'c', b'\0\0\0\x07'], 4)
    # 6: the header stays remembered, and a longer buffer then goes on; at length 0 nothing is remembered
    for size in range(6):
        _, _, st = c.read(State(9, 1, 2), b'\x03\0\0\x01abc', size)
        c.read(st, b'????abc', 8)
        c.read(State(9, 1, 3), b'\0\0\0\x01', min(size, 4))
    # a remembered header is not looked at again; any length may be remembered
    for n in (0, 1, 3, 4, M, 2 ** 60, 2 ** 64 - 4, 2 ** 64 - 1):
        for taken in (0, 1, 2 ** 64 - 1):
            st = State(9, 2, taken, (n, 2))
            for u in (b'', b'\0', b'\xff\xff\xff\xff', b'\xff\xff\xff\xffabc', b'\xff\xff\xff\xffabcd'):
                c.read(st, u, 5)
    # 7: before all else
    for u in (b'', b'\0\0\0\0', b'\xff\xff\xff\xff'):
        for st in (State(9, closed=True), State(0, 3, 5, (2, 9), True)):
            c.read(st, u, 2)
            c.read(st, u, 2, 3)
            c.write(st, u, 8)
    # writing: 2 before 6; what lies past the chunks stays
    for packet in (b'', b'A', b'hello', bytes(range(256)), bytes(300)):
        for limit in (0, 1, 4, 5, 255, 256, 300, 2 ** 64 - 1):
            for size in (0, 3, len(packet) + 3, len(packet) + 4, len(packet) + 9):
                c.write(State(limit, 255), packet, size)
    # writing in the middle of a packet keeps what the reader has
    c.write(State(9, 4, 5, (2, 9)), b'ab', 8)
    # the number set to 0 in any state
    for st in (State(9), State(9, 200), State(9, 255, 3, (4, 6)), State(0, 1, closed=True)):
        then = st.copy()
        then.number = 0
        c.add(Case(st, then, 'reset_seq_id', [], [0]))

def drawn(c, r, n):
    """Connections by lot: limits and buffers small, a byte broken now and then, cut anywhere."""
    for _ in range(n):
        limit, size, number = r.choice((1, 3, 6, 12)), r.choice((0, 2, 6, 12)), r.randrange(256)
        s = bytearray(stream(number, [bytes(r.randrange(256) for _ in range(r.randrange(min(limit, 8) + 1))) for _ in range(r.randrange(1, 4))]))
        if r.random() < 0.4:
            s[r.randrange(len(s))] = r.choice((0, 1, number, r.randrange(256)))
        at = sorted(r.randrange(len(s) + 1) for _ in range(r.randrange(4)))
        parts = [bytes(s[a:b]) for a, b in zip([0] + at, at + [len(s)])]
        session(c, State(limit, number), parts, size, r.choice((None, None, number, (number + 255) % 256)))

# ---- whole connections

def open_as(made, limit):
    bad = limit == 0 or limit > 2 ** 30
    st = State(limit, closed=bad)
    made.call('open', [limit], [1 if bad else 0], st.bytes())
    return st

def openings(made):
    """Over a file's first state, which is nobody's; each over the one before; and over a state with something in each byte."""
    for limit in (0, 1, 2, 61440, 2 ** 30 - 1, 2 ** 30, 2 ** 30 + 1, 2 ** 63, 2 ** 64 - 1):
        open_as(made, limit)
    for limit in (0, 61440):
        made.set_state(bytes(range(1, 49)))
        open_as(made, limit)

def wrap(made):
    """300 packets of 0 to 9 bytes are written by one end and read by another, both from the number 0 on."""
    sent, st = [], open_as(made, 9)
    for k in range(300):
        packet = b'0123456789'[:k % 10]
        status, out, st = encode(st, packet, 16)
        assert status == 0
        made.call('write', [room(16), packet], [0, len(out), out], st.bytes())
        sent.append((packet, out))
    st = open_as(made, 9)
    for packet, out in sent:
        status, n, used, st, buf = decode(st, out, bytes(16))
        assert (status, used, buf[:n]) == (0, len(out), packet)
        made.call('read', [0, room(16), out], [0, used, n, packet] if n else [0, used, n], st.bytes())
    made.case('look', [], [0, 300 % 256, 0, 0, 0, 0])

class Replay:
    """A capture, by one end of a connection: each command is written and must be the client's bytes, each answer is read packet by packet to its end."""
    def __init__(s, made, capture):
        s.made, s.capture, s.size = made, capture, capture.longest + 1
        made.note(capture.name)
        made.hold(capture.bytes)
        s.st = open_as(made, LIMIT)
        for k, e in enumerate(capture.exchanges):
            s.exchange(e, 1 if k == 0 else 0)

    def exchange(s, e, first):
        """At the login the server speaks first."""
        s.st.number = 0
        s.made.call('reset_seq_id', [], [0], s.st.bytes())
        at = s.read(e.answer, e.end, e.packets[:first])
        s.write(e.command, e.command_len)
        assert s.read(at, e.end, e.packets[first:]) == e.end
        s.made.call('read', [0, room(s.size), b''], [MORE, 0], s.st.bytes())

    def write(s, at, n):
        c = s.capture
        status, out, s.st = encode(s.st, c.bytes[at + 4:at + n], n)
        assert (status, out) == (0, c.bytes[at:at + n])
        s.made.call('write', [room(n + 1), c.word(at + 4, n - 4)], [0, n, c.word(at, n)], s.st.bytes())

    def read(s, at, end, packets):
        for packet in packets:
            status, n, used, s.st, buf = decode(s.st, s.capture.bytes[at:end], bytes(s.size))
            assert (status, buf[:n]) == (0, packet.bytes)
            s.made.call('read', [0, room(s.size), s.capture.word(at, end - at)], [0, used, *packet.words(s.capture)], s.st.bytes())
            at += used
        return at

def main(captures, out):
    c = Cases()
    fixed(c)
    drawn(c, random.Random(1), 120)
    model, script = 'Answers, bytes and states are those of a small codec that is written from the paper', 'Made by host/vectors/chunks.py.'
    made = Calls(f'Plain chunks. {model}; the packets of captures are also those of an independent decoder. {script}')
    openings(made)
    lay_out(made, c.face.values())
    wrap(made)
    for path in sorted(glob.glob(f'{captures}/plain-eof-*.small.index.json')):
        made.part()
        Replay(made, Capture(path[:-len('.index.json')]))
    made.write_parts(f'{out}/chunks')
    made = Calls(f'Plain chunks with a second number tolerated, which the C face lacks. {model}. {script}')
    lay_out(made, c.room.values())
    made.write(f'{out}/rooms-chunks.txt')

if __name__ == '__main__':
    main(*sys.argv[1:])
