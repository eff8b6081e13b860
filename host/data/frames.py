#!/usr/bin/env python3
"""Makes the data of the program `frames`: frames.py OUT

OUT/vectors: calls of one codec after the other, with the answers of the small codec below, which is written from the paper and
shares no line with the proved one. All numbers are low byte first.
  4 bytes: how many operations, 4 bytes: the place of the filler; then 72 bytes an operation; then the filler, which is what a
  packet buffer or a writer's buffer holds before each call, and the bytes that operations point at
  operation: 1 kind (0 opening, 1 frames_on, 2 reset_seq_id, 3 sync_seq_id, 4 encode, 5 decode),
        1 answer (0 need more, 1 to 13 the refusal's number, 255 done), 2 nothing, 4 + 4 place and length of the packet written or
        of the bytes read, 4 staging's length, 4 the other lent buffer's length, 4 place of that buffer's bytes after,
        4 place of the unread bytes after, 4 the length answered, 8 bytes used, or the limit to open with, 32 state after
  state: 8 limit, 4 taken, 4 len, 4 unread, 4 size, 1 number, 1 waiting, 1 ahead, 1 closed, 1 frame, 1 held, 1 coming, 1 framed
The codec, and staging's unread bytes, go on from operation to operation until the next opening.
"""
import random, struct, sys

M = 16_777_215
DONE, MORE = 255, 0

def le3(b):
    return b[0] + 256 * b[1] + 65536 * b[2]

class Codec:
    """Paper's state: a header is (length, number) or None; unread are the chunk bytes in staging."""
    def __init__(s, limit):
        s.limit, s.taken, s.header, s.number = limit, 0, None, 0
        s.closed = limit == 0 or limit > 1_073_741_824
        s.framed, s.frame, s.frame_header, s.unread = False, 0, None, b''

    def bytes(s):
        n, k = s.header or (0, 0)
        m, j = s.frame_header or (0, 0)
        return struct.pack('<QIIIIBBBBBBBB', s.limit, s.taken, n, len(s.unread), m, s.number, s.header is not None, k, s.closed,
            s.frame, s.frame_header is not None, j, s.framed)

    def frames_on(s):
        if not s.framed:
            s.framed, s.frame, s.frame_header, s.unread = True, 0, None, b''

    def reset(s):
        s.number = s.frame = 0

    def sync(s):
        if s.framed and s.unread == b'':
            s.number = s.frame

    def close(s, why):
        s.closed = True
        return why

    # reading: the answer, its length, the bytes used

    def plain(s, unread, dst, accepted):
        """Steps 1 to 5 of "Plain chunks"."""
        used = 0
        while True:
            rest = unread[used:]
            if s.header:
                n, k = s.header
            elif len(rest) < 4:
                return MORE, 0, used
            else:
                n, k = le3(rest), rest[3]
                if n:
                    if s.taken + n > s.limit:
                        return s.close(2), 0, used
                    s.header = n, k
            if len(rest) < 4 + n:
                return MORE, 0, used
            if k not in accepted(s):
                return s.close(3), 0, used
            if s.taken + n > len(dst):
                return 6, 0, used
            dst[s.taken:s.taken + n] = rest[4:4 + n]
            s.taken, used, s.header, s.number = s.taken + n, used + 4 + n, None, (k + 1) % 256
            if n < M:
                whole, s.taken = s.taken, 0
                return DONE, whole, used

    def one_frame(s, rest, room):
        """A frame's bytes used, and None; or why the reader stops there, with none used."""
        if s.frame_header:
            n, k = s.frame_header
        else:
            if len(rest) < 7:
                return 0, MORE
            n, k, plain = le3(rest), rest[3], le3(rest[4:])
            if max(n, plain) > s.limit:
                return 0, s.close(2)
            if n == 0 and plain != 0:
                return 0, s.close(4)
            if plain != 0:
                return 0, s.close(5)
            if n:   # of a frame with nothing in it there is nothing to wait for
                s.frame_header = n, k
        if len(rest) < 7 + n:
            return 0, MORE
        if k != s.frame:
            return 0, s.close(3)
        if len(s.unread) + n > room:
            return 0, 6
        s.unread += rest[7:7 + n]
        s.frame, s.frame_header = (s.frame + 1) % 256, None
        return 7 + n, None

    def decode(s, src, room, dst):
        if s.closed:
            return 7, 0, 0
        if not s.framed:
            return s.plain(src, dst, lambda c: (c.number,))
        if room < len(s.unread):
            return 6, 0, 0
        used = 0
        while True:
            if s.unread:
                a, n, gone = s.plain(s.unread, dst, lambda c: (c.number, (c.frame - 1) % 256))
                s.unread = s.unread[gone:]
                if a != MORE:
                    return a, n, used
            n, stop = s.one_frame(src[used:], room)
            if stop is not None:
                return stop, 0, used
            used += n

    # writing: the answer, its length

    def encode(s, packet, dst):
        if s.closed:
            return 7, 0
        if len(packet) > s.limit:
            return 2, 0
        out, number = chunks(s.number, packet)
        frame = s.frame
        if s.framed:
            out, frame = frames(frame, out, min(M, s.limit))
            number = frame
        if len(out) > len(dst):
            return 6, 0
        dst[:len(out)] = out
        s.number, s.frame = number, frame
        return DONE, len(out)

def chunks(number, packet):
    out = b''
    for i in range(len(packet) // M + 1):
        piece = packet[i * M:(i + 1) * M]
        out += len(piece).to_bytes(3, 'little') + bytes([(number + i) % 256]) + piece
    return out, (number + len(packet) // M + 1) % 256

def frame(k, piece, plain=0, n=None):
    return (len(piece) if n is None else n).to_bytes(3, 'little') + bytes([k % 256]) + plain.to_bytes(3, 'little') + piece

def frames(k, stream, size):
    out = b''
    for i in range(0, len(stream), size):
        out, k = out + frame(k, stream[i:i + size]), (k + 1) % 256
    return out, k

def chunk(k, packet):
    return chunks(k % 256, packet)[0]

FILLER = b'.' * 1024

class Cases:
    def __init__(s):
        s.rows, s.pool, s.codec = [], bytearray(FILLER), None

    def place(s, b):
        at = s.pool.find(bytes(b))
        if at < 0:
            at = len(s.pool)
            s.pool += b
        return at

    def add(s, kind, answer=DONE, value=0, used=0, src=b'', staging=0, buf=b''):
        assert len(buf) <= len(FILLER)
        s.rows.append((kind, answer, s.place(src), len(src), staging, len(buf), s.place(buf), s.place(s.codec.unread), value, used, s.codec.bytes()))

    def open(s, limit, on=True):
        s.codec = Codec(limit)
        s.add(0, 1 if s.codec.closed else DONE, 0, limit)
        if on:
            s.on()

    def on(s):
        s.codec.frames_on()
        s.add(1)

    def reset(s):
        s.codec.reset()
        s.add(2)

    def sync(s):
        s.codec.sync()
        s.add(3)

    def write(s, packet, room=64):
        buf = bytearray(FILLER[:room])
        answer, n = s.codec.encode(packet, buf)
        s.add(4, answer, n, 0, packet, 0, buf)
        return bytes(buf[:n]) if answer == DONE else answer

    def read(s, src, staging=64, room=16):
        """The packet, or the answer's number; and the bytes left over."""
        buf = bytearray(FILLER[:room])
        answer, n, used = s.codec.decode(src, staging, buf)
        s.add(5, answer, n, used, src, staging, buf)
        return bytes(buf[:n]) if answer == DONE else answer, src[used:]

    def session(s, parts, staging=64, room=16):
        """The parts come one after the other, and what a call leaves is lent again with the next. What came, and how it ended."""
        left, got = b'', []
        for part in parts:
            left += part
            while True:
                a, left = s.read(left, staging, room)
                if not isinstance(a, bytes):
                    break
                got.append(a)
            if a != MORE:
                break
        return got, a

    def file(s):
        base = 8 + 72 * len(s.rows)
        out = struct.pack('<II', len(s.rows), base)
        for k, a, p, n, w, m, q, u, v, used, st in s.rows:
            out += struct.pack('<BBHIIIIIIIQ', k, a, 0, base + p, n, w, m, base + q, base + u, v, used) + st
        return out + bytes(s.pool)

def openings(c):
    for limit in (0, 1, 2, 61440, 2 ** 30 - 1, 2 ** 30, 2 ** 30 + 1, 2 ** 63, 2 ** 64 - 1):
        c.open(limit, False)
        bad = limit in (0, 2 ** 30 + 1, 2 ** 63, 2 ** 64 - 1)
        assert c.codec.closed == bad
        assert c.write(b'A', 5) == (7 if bad else chunk(0, b'A'))
        c.on()
        assert c.read(b'', 0, 0)[0] == (7 if bad else MORE)
        c.open(7, False)   # and a new opening opens it again
        assert c.read(chunk(0, b'A'), 0)[0] == b'A'

def corner(c):
    """Without sync a packet of one chunk in two frames, and then a second one: 3. With sync both come."""
    for limit, first, second in ((4, b'ABC', b'DEF'), (5, b'ABC', b'12345'), (3, b'', b'')):
        for sync in (False, True):
            c.open(limit)
            one = c.write(first)
            if sync:
                c.sync()
            two = c.write(second)
            assert c.codec.frame == 4 and c.codec.number == 4
            c.open(limit)
            assert c.read(one)[0] == first
            if sync:
                c.sync()
            assert c.read(two)[0] == (second if sync else 3)
            if not sync:
                assert c.read(two)[0] == 7 and c.write(b'') == 7
                c.sync()
                c.reset()
                assert c.read(b'')[0] == 7
    # a packet in one frame needs no sync
    c.open(16)
    out = b''.join(c.write(p) for p in (b'AB', b'', b'C' * 12))
    c.open(16)
    assert c.session([out]) == ([b'AB', b'', b'C' * 12], MORE)

def empty(c):
    c.open(9)
    assert c.read(frame(0, b''), 0, 0) == (MORE, b'') and c.codec.frame == 1
    assert c.session([frame(1, b'') + frame(2, b'') + frame(3, chunk(0, b'AB')) + frame(4, b'')]) == ([b'AB'], MORE)
    assert c.session([frame(5, chunk(1, b'C')[:2]) + frame(6, b'') + frame(7, chunk(1, b'C')[2:]) + frame(8, b'')]) == ([b'C'], MORE)
    c.open(9)
    assert c.session([frame(k, b'') for k in range(260)]) == ([], MORE) and c.codec.frame == 4
    assert c.read(b''.join(frame(4 + k, b'') for k in range(300)) + frame(304, chunk(0, b'x')))[0] == b'x' and c.codec.frame == 49
    c.open(9)   # of the wrong number; nothing is remembered
    assert c.read(frame(0, b'') + frame(0, b'')) == (3, frame(0, b'')) and c.codec.frame_header is None
    assert c.read(frame(1, b''))[0] == 7

def many(c):
    """Some 600 frames: of one byte each, by the writer, with sync; a packet in 604 frames; and one call with many packets' frames."""
    c.open(1)
    out = []
    for k in range(120):
        out.append(c.write(bytes([k])))
        c.sync()
    assert c.codec.frame == 600 % 256
    c.open(1)
    for k, b in enumerate(out):
        assert c.read(b, 6, 1) == (bytes([k]), b'')
        c.sync()
    assert c.codec.frame == 600 % 256 and c.codec.number == 600 % 256
    packet = bytes(k % 251 for k in range(600))
    c.open(600)
    assert c.read(frames(0, chunk(0, packet), 1)[0], 604, 600)[0] == packet and c.codec.frame == 604 % 256
    c.open(600)
    c.write(packet[:40], 1024)
    c.write(packet, 1024)
    c.open(9)
    assert c.session([b''.join(frame(k, chunk(k, b'q')) for k in range(600))], 22, 9) == ([b'q'] * 600, MORE)

def after(c):
    """The calls after a refusal that closes: 7, with bytes and without, and nothing opens it again."""
    for src in (b'', frame(c.codec.frame, chunk(c.codec.number, b'A'))):
        assert c.read(src)[0] == 7
    assert c.read(b'', 0, 0)[0] == 7 and c.write(b'A') == 7
    c.on(), c.reset(), c.sync()
    assert c.write(b'') == 7

def refusals(c):
    good = frame(0, chunk(0, b'AB'))
    # each as the first frame, and behind a packet's; k is both numbers then
    for before, k in ((b'', 0), (good, 1)):
        at_header = ((frame(k, b'1234567'), 2), (frame(k, b'1', 7), 2), (frame(k, b'', 7), 2), (frame(k + 9, b'', 7), 2), (frame(k + 9, b'1234567'), 2),
            (frame(k, b'1234567', 7), 2), (frame(k, b'', 2 ** 24 - 1, 2 ** 24 - 1), 2), (frame(k, b'', 0, 2 ** 24 - 1), 2), (frame(k, b'', 256), 2),
            (frame(7, b'', 1), 4), (frame(k, b'', 6), 4), (frame(k, b'123', 1), 5), (frame(k + 9, b'123', 6), 5), (frame(k + 255, b''), 3))
        when_whole = ((frame(k + 1, b'123'), 3), (frame(k + 128, chunk(k, b'A')), 3), (frame(k, chunk(k + 3, b'A')), 3), (frame(k, chunk(k + 3, b'')), 3),
            (frame(k, b'\x07\0\0' + bytes([k])), 2))
        for bad, why in at_header + when_whole:
            c.open(6)
            a, left = c.read(before + bad)
            if before:
                assert a == b'AB' and left == bad
                a, left = c.read(left)
            assert a == why and c.codec.closed, (a, why, bad)
            after(c)
            c.open(6)
            assert c.session([before + bad[:6], bad[6:7]])[1] == (why if (bad, why) in at_header else MORE)
    # what was taken earlier in the same call stays: a frame, and the chunk bytes in it
    c.open(6)
    assert c.read(good + frame(1, b'\x03\0') + frame(9, b'zz'))[0] == b'AB'
    assert c.read(frame(1, b'\x03\0') + frame(9, b'zz')) == (3, frame(9, b'zz')) and c.codec.unread == b'\x03\0' and c.codec.frame == 2
    after(c)
    for bad, why in ((frame(1, b'', 3), 4), (frame(1, b'z', 3), 5), (frame(1, b'z' * 7), 2), (frame(3, b'z'), 3)):
        c.open(6)
        assert c.read(frame(0, b'\x03\0\0\0z') + bad) == (why, bad) and c.codec.unread == b'\x03\0\0\0z' and c.codec.header == (3, 0)
        after(c)
    # 3 of a chunk: only once it is whole; the frame is taken and its bytes stay unread
    c.open(6)
    s = frame(0, b'\x02\0\0\x05') + frame(1, b'y') + frame(2, b'z')
    assert c.session([s[:-1], s[-1:]]) == ([], 3) and c.codec.unread == b'\x02\0\0\x05yz' and c.codec.frame == 3
    # 6 for staging, at the frame: the header stays remembered, and a longer staging goes on; not closed
    for staging in (0, 4, 5):
        c.open(6)
        assert c.read(good, staging) == (6, good) and c.codec.frame_header == (6, 0)
        assert c.read(good[:9], staging) == (MORE, good[:9])
        assert c.read(b'???????' + good[7:], 5) == (6, b'???????' + good[7:])
        assert c.write(b'') == frame(0, chunk(0, b''))   # its frame number is the reader's too
        assert c.read(good, 6)[0] == 3
    c.open(6)
    assert c.read(good, 5)[0] == 6 and c.read(b'???????' + good[7:], 6, 2) == (b'AB', b'')
    # with unread bytes in it, and a frame that would have been empty
    c.open(6)
    assert c.read(frame(0, b'\x02\0\0') + frame(1, b'\0yz'), 5) == (6, frame(1, b'\0yz')) and c.codec.unread == b'\x02\0\0'
    assert c.read(frame(1, b'\0yz'), 3)[0] == 6 and c.read(frame(1, b'\0yz'), 6) == (b'yz', b'')
    assert c.read(frame(2, b''), 0) == (MORE, b'')
    # 6 for staging shorter than unread, before all: nothing is used, and the codec goes on
    c.open(6)
    assert c.read(frame(0, b'\x02\0\0\0y'), 6)[0] == MORE and len(c.codec.unread) == 5
    for staging in (0, 4):
        for src in (b'', frame(1, b'z'), frame(9, b'z', 1)):
            assert c.read(src, staging) == (6, src)
    assert c.read(frame(1, b''), 5) == (MORE, b'') and c.read(frame(2, b'z'), 5)[0] == 6
    assert c.read(frame(2, b'z'), 6) == (b'yz', b'')
    # and 7 before it
    c.open(6)
    assert c.read(frame(0, b'\x02\0\0\0y') + frame(0, b''))[0] == 3 and c.read(b'', 0)[0] == 7 and c.read(b'', 4)[0] == 7
    # 6 for the packet buffer: the frame is taken, its bytes stay unread with the chunk's header remembered; a longer buffer goes on
    c.open(6)
    for room in (0, 1):
        left = good if room == 0 else b''
        assert c.read(left, 64, room) == (6, b'') and c.codec.header == (2, 0) and c.codec.frame == 1
    assert c.read(frame(9, b'q', 7), 6, 2) == (b'AB', frame(9, b'q', 7))
    c.open(6)   # of two chunks in a frame the second
    assert c.read(frame(0, chunk(0, b'') + b'\x02'), 5, 0) == (b'', b'') and c.read(frame(1, b'\0\0\1xy'), 6, 1)[0] == 6 and c.read(b'', 6, 2)[0] == b'xy'
    # 2 and 6 of the writer, and the number stays
    for packet, room, want in ((b'1234567', 64, 2), (b'1234567', 0, 2), (b'123456', 23, 6), (b'123456', 24, None), (b'', 10, 6), (b'', 11, None), (b'', 0, 6)):
        for framed in (True, False):
            c.open(6, framed)
            w = c.write(packet, room)
            assert not framed or (w == want or want is None and len(w) == room), (w, want)
            c.write(b'A')
    # of the plain codec
    for src, room, why in ((chunk(0, b'1234567'), 9, 2), (chunk(3, b'1234567')[:4], 9, 2), (chunk(3, b'1'), 9, 3),
            (chunk(3, b''), 9, 3), (chunk(0, b'123456'), 5, 6)):
        c.open(6, False)
        assert c.read(src, 0, room) == (why, src)
        assert c.read(src, 0, 9)[0] == (b'123456' if why == 6 else 7)
        c.write(b'A')

def cuts(c):
    # in two parts, a call more after each packet
    s = frame(0, chunk(0, b'A')) + frame(1, b'') + frame(2, chunk(1, b'BCD')[:5]) + frame(3, chunk(1, b'BCD')[5:] + chunk(2, b''))
    for a in range(len(s) + 1):
        c.open(9)
        assert c.session([s[:a], s[a:]], 22, 9) == ([b'A', b'BCD', b''], MORE)
    # in three
    s = frame(0, b'\x01\0') + frame(1, b'\0\0x')
    for a in range(len(s) + 1):
        for b in range(a, len(s) + 1):
            c.open(5)
            assert c.session([s[:a], s[a:b], s[b:]], 14, 5) == ([b'x'], MORE)
    # and one that ends in 3
    s = frame(0, chunk(0, b'A')) + frame(1, chunk(9, b'B'))
    for a in range(len(s) + 1):
        c.open(5)
        assert c.session([s[:a], s[a:]], 14, 5) == ([b'A'], 3)
    # byte by byte
    s = frame(0, chunk(0, b'hello')[:3]) + frame(1, chunk(0, b'hello')[3:]) + frame(2, chunk(1, b''))
    c.open(6)
    assert c.session([s[i:i + 1] for i in range(len(s))], 16, 6) == ([b'hello', b''], MORE)

def kept(c):
    # a chunk's header, remembered with frames off, is kept as they are turned on: its four bytes come again and aren't looked at
    c.open(9, False)
    assert c.read(chunk(0, b'abc')[:4], 0)[0] == MORE and c.codec.header == (3, 0)
    c.on()
    assert c.codec.header == (3, 0)
    assert c.read(frame(0, b'????abc'))[0] == b'abc'
    c.open(9, False)   # number and all: after two packets
    assert c.session([chunk(0, b'') + chunk(1, b'a') + chunk(2, b'bc')[:5]], 0) == ([b'', b'a'], MORE)
    c.on()
    assert c.codec.number == 2 and c.read(frame(0, b'????b'), 5)[0] == MORE and c.read(frame(1, b'c'), 6)[0] == b'bc'
    # through a reset: a frame's header, whose number is then the wrong one, or the right one
    for k, want in ((1, 3), (0, None)):
        c.open(9)
        if k:
            assert c.read(frame(0, chunk(0, b'')))[0] == b''
        assert c.read(frame(k, chunk(0, b'abc'))[:7])[0] == MORE and c.codec.frame_header == (7, k)
        c.reset()
        assert c.codec.frame_header == (7, k)
        assert c.read(b'???????' + chunk(0, b'abc'))[0] == (want or b'abc')
    # through a reset: a chunk's header and the unread bytes
    c.open(9)
    assert c.read(frame(0, chunk(0, b'')) + frame(1, chunk(1, b'ab')[:5]))[0] == b''
    assert c.read(frame(1, chunk(1, b'ab')[:5]))[0] == MORE and c.codec.header == (2, 1)
    c.reset()
    assert c.codec.header == (2, 1) and c.read(frame(0, b'b'))[0] == 3
    c.open(9, False)
    assert c.read(chunk(0, b''))[0] == b'' and c.read(chunk(0, b'ab')[:5])[0] == MORE
    c.reset()
    assert c.read(chunk(0, b'ab'))[0] == b'ab'
    # frames on again does nothing: with bytes unread and headers remembered
    c.open(9)
    assert c.read(frame(0, chunk(0, b'ab')[:5]) + frame(1, b'b')[:7])[0] == MORE
    before = c.codec.bytes()
    c.on()
    assert c.codec.bytes() == before and c.codec.frame_header == (1, 1)
    assert c.read(b'???????b')[0] == b'ab'
    c.on()
    assert c.codec.frame == 2
    assert c.write(b'z') == frame(2, chunk(1, b'z'))

def syncs(c):
    for unread in (b'', b'\x02\0\0\x01y', b'\x02'):
        c.open(9)
        assert c.read(frame(0, b'') + frame(1, chunk(0, b'') + unread))[0] == b'' and c.codec.number == 1
        c.sync()
        assert c.codec.number == (1 if unread else 2)
        c.reset()
        c.sync()
        assert c.codec.number == 0
    # empty with a chunk's header remembered from before; and with a frame's
    c.open(9, False)
    assert c.read(chunk(0, b'') + chunk(1, b'ab')[:4])[0] == b'' and c.read(chunk(1, b'ab')[:4])[0] == MORE
    c.sync()
    assert c.codec.number == 1   # frames off
    c.on()
    c.sync()
    assert c.codec.number == 0 and c.codec.header == (2, 1)
    assert c.read(frame(0, b'')[:7] + frame(1, chunk(1, b'ab'))[:8])[0] == MORE
    c.sync()
    assert c.codec.number == 1 and c.codec.frame_header == (6, 1)
    assert c.read(frame(1, chunk(1, b'ab')))[0] == b'ab'

def tolerance(c):
    # a repeat of the last frame's number inside a frame delivers both
    for start in (0, 1, 254, 255):
        c.open(40)
        assert c.session([b''.join(frame(k, b'') for k in range(start))])[1] == MORE
        c.sync()
        assert c.session([frame(start, chunk(start, b'A') + chunk(start, b'B'))]) == ([b'A', b'B'], MORE) and c.codec.number == (start + 1) % 256
        # not that of the one before it, nor the next but one
    for k in (0, 3):
        c.open(40)
        assert c.session([frame(0, b'') + frame(1, b'')])[1] == MORE
        c.sync()
        assert c.session([frame(2, chunk(2, b'A') + chunk(1, b'B'))]) == ([b'A'], 3)
        c.open(40)
        assert c.session([frame(0, b'') + frame(1, b'') + frame(2, chunk(k, b'A') + chunk(3, b'B'))]) == (([b'A'], 3) if k == 0 else ([], 3))
    # the last frame's number, where another was expected: the sequence goes on from it
    c.open(40)
    assert c.session([frame(0, b'') + frame(1, chunk(1, b'A') + chunk(2, b'B') + chunk(1, b'C') + chunk(2, b''))]) == ([b'A', b'B', b'C', b''], MORE)
    # at once after opening: frame number 0 minus one is 255, but by the time a chunk is there a frame was taken
    c.open(40)
    assert c.session([frame(0, chunk(255, b'A'))]) == ([], 3)
    # after a reset with bytes unread: 255 is accepted, and 0
    for k in (255, 0, 1):
        c.open(40)
        assert c.session([frame(0, chunk(0, b'A') + chunk(k, b'BC')[:5])]) == ([b'A'], MORE)
        c.reset()
        assert c.session([frame(0, b'C')]) == (([b'BC'], MORE) if k == 0 else ([], 3))
        c.open(40)
        assert c.read(frame(0, chunk(0, b'A') + chunk(k, b'BC')))[0] == b'A'
        c.reset()
        assert c.session([b'']) == (([b'BC'], MORE) if k != 1 else ([], 3))
    # after a write: the last frame is the written one
    for k in (0, 1, 2):
        c.open(40)
        assert c.read(frame(0, chunk(0, b'A') + chunk(k, b'B')))[0] == b'A'
        assert c.write(b'w') == frame(1, chunk(1, b'w')) and c.codec.number == 2
        assert c.session([b'']) == (([b'B'], MORE) if k in (1, 2) else ([], 3))
        c.open(40)
        assert c.write(b'w') == frame(0, chunk(0, b'w'))
        assert c.session([frame(1, chunk(k, b'A') + chunk(1, b'B'))]) == (([], 3) if k in (0, 2) else ([b'A', b'B'], MORE))
    # none with frames off
    c.open(40, False)
    assert c.session([chunk(0, b'A') + chunk(0, b'B')], 0) == ([b'A'], 3)

def plainly(c):
    """Frames off, staging of no bytes: the plain codec, over the wrap; then frames are turned on."""
    c.open(9, False)
    s = b''.join(chunk(k, b'xyz'[:k % 4]) for k in range(258))
    assert len(c.session([s], 0, 3)[0]) == 258 and c.codec.number == 2 and c.codec.frame == 0
    s = chunk(2, b'A') + chunk(3, b'') + chunk(4, b'hello')
    for a in range(len(s) + 1):
        c.open(9, False)
        assert c.session([chunk(0, b'') + chunk(1, b'')], 0, 0)[1] == MORE
        assert c.session([s[:a], s[a:]], 0, 5) == ([b'A', b'', b'hello'], MORE)
    assert c.write(b'w') == chunk(5, b'w') and c.codec.frame == 0
    c.sync()
    c.on()
    assert c.write(b'w') == frame(0, chunk(6, b'w')) and c.codec.number == 1

def sent(r, peer, limit):
    """A packet or two of the other end: by its writer, or bundled and cut into frames in another way."""
    p = bytes(r.randrange(97, 123) for _ in range(r.randrange(limit + 1)))
    if not peer.framed or r.random() < 0.5:
        room = bytearray(256)
        _, n = peer.encode(p, room)
        return bytes(room[:n])
    s, number = chunks(peer.number, p)
    if r.random() < 0.4:
        t, number = chunks(r.choice((number, number, peer.number)), p[1:])
        s += t
    s, peer.frame = frames(peer.frame, s, r.randrange(1, limit + 1))
    if r.random() < 0.3:
        s, peer.frame = s + frame(peer.frame, b''), (peer.frame + 1) % 256
    peer.number = number
    return s

def drawn(c, r, n):
    """Connections by lot, with another end. The calm ones sync at both ends; in the others a byte is broken now and then, rooms are
    short now and then, and calls come when they should not. A closed one ends soon."""
    for _ in range(n):
        limit, calm, ends = r.choice((1, 2, 3, 6, 12)), r.random() < 0.5, 2
        c.open(limit, False)
        peer, wire = Codec(limit), b''
        if r.random() < 0.9:
            c.on()
            peer.frames_on()
        for _ in range(r.randrange(4, 14)):
            ends -= c.codec.closed
            if ends < 0:
                break
            x = r.random()
            idle = wire == b'' and c.codec.unread == b''
            if x < 0.06 and not calm:
                c.reset()
            elif x < 0.12 and not calm:
                c.sync()
            elif x < 0.14 and not calm:
                c.on()
            elif x < 0.3 and (idle or x < 0.16 and not calm):
                p = bytes(r.randrange(97, 123) for _ in range(r.randrange(limit + 2 - calm)))
                c.write(p, 128 if calm else r.choice((128, 128, len(p) + 11, 8)))
                peer.number, peer.frame = c.codec.number, c.codec.frame   # the other end took it
            else:
                if len(wire) < 7:
                    s = bytearray(sent(r, peer, limit))
                    if not calm and r.random() < 0.15:
                        s[r.randrange(len(s))] = r.choice((0, 1, 2, r.randrange(256)))
                    wire += bytes(s)
                short = not calm and r.random() < 0.2
                k = r.choice((len(wire), len(wire), r.randrange(len(wire) + 1), min(len(wire), 9)))
                got, left = c.read(wire[:k], r.randrange(2 * limit + 4) if short else 2 * limit + 4, r.randrange(limit + 1) if short else limit)
                wire = left + wire[k:]
                if isinstance(got, bytes) and wire == b'' and calm:
                    c.sync()
                    peer.sync()

def main(out):
    if not __debug__:
        sys.exit('frames.py: the operations stand in assertions, so not with -O')
    c = Cases()
    for part in (openings, corner, empty, many, refusals, cuts, kept, syncs, tolerance, plainly):
        was = len(c.rows)
        part(c)
        print(part.__name__, len(c.rows) - was)
    was = len(c.rows)
    drawn(c, random.Random(1), 300)
    print('drawn', len(c.rows) - was)
    some = lambda rows: {a: n for a in (MORE, *range(1, 8), DONE) if (n := sum(r[1] == a for r in rows))}
    print('answers of the drawn', some([r for r in c.rows[was:] if r[0] > 3]))
    print('answers', some(c.rows), 'kinds', [sum(r[0] == k for r in c.rows) for k in range(6)])
    data = c.file()
    print('operations', len(c.rows), 'bytes', len(data))
    assert len(c.rows) <= 10_000 and len(data) <= 786_432
    open(f'{out}/vectors', 'wb').write(data)

if __name__ == '__main__':
    main(*sys.argv[1:])
