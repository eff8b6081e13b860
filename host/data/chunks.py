#!/usr/bin/env python3
"""Makes the data of the program `chunks`: chunks.py CAPTURES OUT

OUT/vectors: calls of the plain codec around every limit, with the answers of the small codec below, which is written from the
paper and shares no line with the proved one. All numbers are low byte first.
  4 bytes: how many cases; then 104 bytes a case; then the bytes that cases point at
  case: 4 kind (0 decode, 1 decode_with, 2 packet_to_chunks, 3 opening, 4 reset_seq_id), 4 the tolerated number,
        4 + 4 place and length of the bytes read or of the packet, 4 + 4 place and length of the lent buffer before,
        4 place of the lent buffer after, 4 + 8 answer (0 need more; 1 and the length, or opened; 2 and the refusal's number),
        8 bytes used, 28 state before, 28 state after
  state: 8 limit, 8 taken, 8 len, 1 number, 1 waiting, 1 ahead, 1 closed
OUT/NAME for each plain capture: 4 how many exchanges; 4 + 4 + 4 + 4 place and length of the command and of the answer, each;
then the bytes of both ways as the server and the client sent them.
"""
import glob, json, os, random, struct, sys

M = 16_777_215

class State:
    def __init__(s, limit, number=0, taken=0, header=None, closed=False):
        s.limit, s.number, s.taken, s.header, s.closed = limit, number, taken, header, closed
    def copy(s):
        return State(s.limit, s.number, s.taken, s.header, s.closed)
    def bytes(s):
        n, k = s.header or (0, 0)
        return struct.pack('<QQQBBBB', s.limit, s.taken, n, s.number, s.header is not None, k, s.closed)

def decode(st, unread, buf, also=None):
    """The paper's five steps; the answer, the bytes used, the state and the buffer then."""
    st, buf, used = st.copy(), bytearray(buf), 0
    ok = lambda k: k == st.number or k == also
    if st.closed:
        return (2, 7), 0, st, buf
    while True:
        left = unread[used:]
        if st.header is None:
            if len(left) < 4:
                return (0, 0), used, st, buf
            n, k = int.from_bytes(left[:3], 'little'), left[3]
            if n > 0:
                if st.taken + n > st.limit:
                    st.closed = True
                    return (2, 2), used, st, buf
                st.header = (n, k)
        else:
            n, k = st.header
        if len(left) < 4 + n:
            return (0, 0), used, st, buf
        if not ok(k):
            st.closed = True
            return (2, 3), used, st, buf
        if st.taken + n > len(buf):
            return (2, 6), used, st, buf
        buf[st.taken:st.taken + n] = left[4:4 + n]
        used += 4 + n
        st.taken += n
        st.header, st.number = None, (k + 1) % 256
        if n != M:
            whole, st.taken = st.taken, 0
            return (1, whole), used, st, buf

def chunks(number, packet):
    out = b''
    while True:
        piece, packet = packet[:M], packet[M:]
        out += len(piece).to_bytes(3, 'little') + bytes([number]) + piece
        number = (number + 1) % 256
        if len(piece) < M:
            return out, number

def encode(st, packet, buf):
    st, buf = st.copy(), bytearray(buf)
    out, number = chunks(st.number, packet)
    if st.closed:
        return (2, 7), st, buf
    if len(packet) > st.limit:
        return (2, 2), st, buf
    if len(out) > len(buf):
        return (2, 6), st, buf
    buf[:len(out)] = out
    st.number = number
    return (1, len(out)), st, buf

class Cases:
    def __init__(s):
        s.rows, s.pool, s.seen = [], bytearray(), {}
    def place(s, b):
        b = bytes(b)
        at = s.pool.find(b)
        if at < 0:
            at = len(s.pool)
            s.pool += b
        return at
    def add(s, kind, also, src, before, after, answer, used, st, st2):
        row = (kind, also or 0, s.place(src), len(src), s.place(before), len(before), s.place(after), answer[0], answer[1], used, st.bytes(), st2.bytes())
        if row not in s.seen:
            s.seen[row] = True
            s.rows.append(row)
    def read(s, st, unread, buf, also=None):
        answer, used, st2, buf2 = decode(st, unread, buf, also)
        s.add(0 if also is None else 1, also, unread, buf, buf2, answer, used, st, st2)
        return answer, used, st2, buf2
    def write(s, st, packet, buf):
        answer, st2, buf2 = encode(st, packet, buf)
        s.add(2, None, packet, buf, buf2, answer, 0, st, st2)
        return answer, st2, buf2
    def file(s):
        base = 4 + 104 * len(s.rows)
        out = struct.pack('<I', len(s.rows))
        for k, also, a, n, b, m, c, x, v, used, st, st2 in s.rows:
            out += struct.pack('<IIIIIIIIQQ', k, also, base + a, n, base + b, m, base + c, x, v, used) + st + st2
        return out + bytes(s.pool)

def session(cases, st, parts, size, also=None):
    """A connection's reads: the parts come one after the other, and what a call leaves unread is lent again with the next."""
    unread, buf = b'', bytearray(range(0x80, 0x80 + size))
    for part in parts:
        unread += part
        while True:
            answer, used, st, buf = cases.read(st, unread, buf, also)
            unread = unread[used:]
            if answer[0] != 1:
                break
        if answer[0] == 2:
            return

def cuts(cases, st, stream, size, also=None):
    n = len(stream)
    for a in range(n + 1):
        for b in range(a, n + 1):
            session(cases, st, [stream[:a], stream[a:b], stream[b:]], size, also)

def stream(number, packets):
    out = b''
    for p in packets:
        c, number = chunks(number, p)
        out += c
    return out

def fixed(c):
    # every cut of several packets over the wrap, in two and three parts
    cuts(c, State(9, 254), stream(254, [b'', b'A', b'hello', b'', b'xyz']), 9)
    # a second number tolerated, and the sequence goes on from the accepted one
    cuts(c, State(5, 7), b'\x01\0\0\x03A' + b'\x02\0\0\x04BC' + b'\0\0\0\x03', 5, 3)
    # 2: at the header, whatever its number and before its chunk is there; the limit itself is none
    for limit in (1, 2, 3, 4):
        for k in (0, 9):
            for n in (4, 6, 7):
                c.read(State(limit), (b'\x03\0\0' + bytes([k]) + b'abc')[:n], b'....')
    for taken in (2, 2 ** 63, 2 ** 64 - 1):
        for limit in (taken - 1, taken, min(taken + 1, 2 ** 64 - 1), 2 ** 64 - 1):
            for head in (b'\x01\0\0\0z', b'\xff\xff\xff\0z', b'\0\0\0\0z'):
                c.read(State(limit, taken=taken), head, b'....')
    # 3: only when the chunk is whole; at length 0 too; the earlier packet's bytes stay
    for n in range(10):
        c.read(State(9, 5), (b'\x02\0\0\x06ab' + b'\0\0\0\x05')[:n], b'....')
    c.read(State(9, 5), b'\0\0\0\x06', b'....')
    session(c, State(9, 5), [b'\x02\0\0\x05ab\x01\0\0\x05c'], 4)
    session(c, State(9, 5), [b'\x02\0\0\x05ab\x01\0\0', b'\x06', b'', b'c', b'\0\0\0\x07'], 4)
    # 6: the header stays remembered, and a longer buffer then goes on; at length 0 nothing is remembered
    for size in range(6):
        a, used, st, buf = c.read(State(9, 1, 2), b'\x03\0\0\x01abc', b'....abcd'[:size])
        c.read(st, b'????abc', b'........')
        c.read(State(9, 1, 3), b'\0\0\0\x01', b'....'[:size])
    # a remembered header is not looked at again; any length may be remembered
    for n in (0, 1, 3, 4, M, 2 ** 60, 2 ** 64 - 4, 2 ** 64 - 1):
        for taken in (0, 1, 2 ** 64 - 1):
            st = State(9, 2, taken, (n, 2))
            for u in (b'', b'\0', b'\xff\xff\xff\xff', b'\xff\xff\xff\xffabc', b'\xff\xff\xff\xffabcd'):
                c.read(st, u, b'.....')
    # 7: before all else
    for u in (b'', b'\0\0\0\0', b'\xff\xff\xff\xff'):
        for st in (State(9, closed=True), State(0, 3, 5, (2, 9), True)):
            c.read(st, u, b'..')
            c.read(st, u, b'..', 3)
            c.write(st, u, b'........')
    # writing: 2 before 6; what lies past the chunks stays
    for packet in (b'', b'A', b'hello', bytes(range(256)), bytes(300)):
        for limit in (0, 1, 4, 5, 255, 256, 300, 2 ** 64 - 1):
            for room in (0, 3, len(packet) + 3, len(packet) + 4, len(packet) + 9):
                c.write(State(limit, 255), packet, bytes(range(100, 100 + 32)) * 10 if room > 320 else (bytes(range(256)) * 2)[:room])
    # writing in the middle of a packet keeps what the reader has
    c.write(State(9, 4, 5, (2, 9)), b'ab', b'........')
    # openings, and the number set to 0 in any state
    zero = lambda limit, closed: State(limit, closed=closed)
    for limit in (0, 1, 2, 61440, 2 ** 30 - 1, 2 ** 30, 2 ** 30 + 1, 2 ** 63, 2 ** 64 - 1):
        bad = limit == 0 or limit > 2 ** 30
        c.add(3, None, b'', b'', b'', (2, 1) if bad else (1, 0), 0, State(limit), zero(limit, bad))
    for st in (State(9), State(9, 200), State(9, 255, 3, (4, 6)), State(0, 1, closed=True)):
        st2 = st.copy()
        st2.number = 0
        c.add(4, None, b'', b'', b'', (1, 0), 0, st, st2)

def drawn(c, r, n):
    """Connections by lot: limits and buffers small, a byte broken now and then, cut anywhere."""
    for _ in range(n):
        limit, size, number = r.choice((1, 3, 6, 12)), r.choice((0, 2, 6, 12)), r.randrange(256)
        s = bytearray(stream(number, [bytes(r.randrange(256) for _ in range(r.randrange(min(limit, 8) + 1))) for _ in range(r.randrange(1, 4))]))
        if r.random() < 0.4:
            s[r.randrange(len(s))] = r.choice((0, 1, number, r.randrange(256)))
        at = sorted(r.randrange(len(s) + 1) for _ in range(r.randrange(4)))
        parts = [bytes(s[a:b]) for a, b in zip([0] + at, at + [len(s)])]
        session(c, State(limit, number), parts, size, r.choice((None, None, number, (number + 255) % 256)))

def capture(path):
    index = json.load(open(path + '.index.json'))
    c2s, s2c = open(path + '.c2s.bin', 'rb').read(), open(path + '.s2c.bin', 'rb').read()
    rows = index['exchanges']
    base = 4 + 16 * len(rows)
    out = struct.pack('<I', len(rows))
    for e in rows:
        out += struct.pack('<IIII', base + e['c2s'][0], e['c2s'][1], base + len(c2s) + e['s2c'][0], e['s2c'][1])
    return out + c2s + s2c

def main(captures, out):
    c = Cases()
    fixed(c)
    drawn(c, random.Random(1), 120)
    data = c.file()
    assert len(data) < 262144, len(data)
    open(f'{out}/vectors', 'wb').write(data)
    print('cases', len(c.rows), 'bytes', len(data), [sum(r[0] == k for r in c.rows) for k in range(5)],
        'answers', {x: sum((r[7], r[8]) == x if x[0] == 2 else r[7] == x[0] for r in c.rows) for x in [(0, 0), (1, 0), (2, 1), (2, 2), (2, 3), (2, 6), (2, 7)]})
    for path in sorted(glob.glob(f'{captures}/plain-eof-*.small.index.json')):
        name = os.path.basename(path)[len('plain-eof-'):-len('.small.index.json')]
        open(f'{out}/{name}', 'wb').write(capture(path[:-len('.index.json')]))

if __name__ == '__main__':
    main(*sys.argv[1:])
