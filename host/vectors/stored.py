#!/usr/bin/env python3
"""Makes the lists of real connections in stored frames: stored.py [--all] CAPTURES OUT

OUT/stored-1.txt and so on: each small capture, by one end of a connection: each command is written and must be the client's bytes, and each answer is read
packet by packet. The login is plain, then frames are on; numbers start at 0 with each command and are never synchronised. The capture with packed frames is
refused with 5 at the first of them, and is closed then.

A capture is received in pieces of 64 KiB and then, by another connection, in pieces of 1 to 23 bytes. Each of these takes a line, so they are only the first
SMALL bytes of an answer (the rest comes at once), and not of the captures with CLIENT_DEPRECATE_EOF, which are much like the others. With --all they are
every byte of every capture: more than is kept, for the C program.

Packets are those that an independent decoder lists. The bytes used and the states are those of the codec of frames.py, which must find the same packets.
"""
import glob
import sys

from connections import Calls, Capture
from frames import DONE, MORE, Codec
from vectors import room

LIMIT = 61_440
STAGING = 2 * LIMIT + 4
PIECE = 65_536
SMALL = 2_000
# A part of so many bytes ends before the next command.
ENOUGH = 150_000

class Replay:
    """A capture, by one end of a connection. Of each answer the first `small` bytes are received in pieces of 1 to 23, the rest in pieces of 64 KiB."""
    def __init__(s, made, capture, small):
        s.made, s.capture, s.size, s.small = made, capture, capture.longest + 1, small
        s.open(', in small pieces' if small else '')
        for k, e in enumerate(capture.exchanges):
            if k > 1 and made.is_long(ENOUGH):
                made.part()
                s.open(', which goes on')
            if k > 0 and not s.codec.framed:
                s.codec.frames_on()
                s.say('frames_on')
            s.codec.reset()
            s.say('reset_seq_id')
            s.exchange(e, 1 if k == 0 else 0)

    def open(s, how):
        s.made.note(s.capture.name + how)
        if s.made.held != s.capture.bytes:
            s.made.hold(s.capture.bytes)
        s.codec = Codec(LIMIT)
        s.say('open', [LIMIT])

    def say(s, name, asked=(), answer=(DONE,)):
        s.made.call(name, asked, answer, s.codec.bytes())

    def exchange(s, e, first):
        """At the login the server speaks first."""
        middle = e.answer + sum(4 + p.len for p in e.packets[:first])
        if first:
            s.read(e.answer, middle, e.packets[:first])
        s.write(e.command, e.command_len)
        s.read(middle, e.end, e.packets[first:], e.packed)

    def write(s, at, n):
        """The command's own bytes stand behind the headers: four bytes, and seven more in frames."""
        c, head, out = s.capture, 11 if s.codec.framed else 4, bytearray(n)
        assert s.codec.encode(c.bytes[at + head:at + n], out) == (DONE, n) and out == c.bytes[at:at + n]
        s.say('write', [room(n + 1), c.word(at + head, n - head)], [DONE, n, c.word(at, n)])

    def read(s, start, end, packets, packed=False):
        """An answer: just the listed packets, and it ends where its bytes do, with nothing begun; or 5 and then 7."""
        at, have, packets = start, min(start + s.piece(0), end), list(packets)
        while True:
            answer, used = s.call(at, have, packets)
            at += used
            if answer == MORE and have < end:
                have = min(have + s.piece(have - start), end)
            elif answer != DONE:
                break
        assert not packets
        if packed:
            assert answer == 5 and s.call(at, have, packets) == (7, 0)
            return
        c = s.codec
        assert answer == MORE and at == end and not (c.closed or c.header or c.frame_header or c.unread or c.taken)

    def piece(s, got):
        return got % 23 + 1 if got < s.small else PIECE

    def call(s, at, have, packets):
        """One read of what was received; a packet must be the next one listed."""
        buf = bytearray(s.size)
        answer, n, used = s.codec.decode(s.capture.bytes[at:have], STAGING, buf)
        words = []
        if answer == DONE:
            packet = packets.pop(0)
            assert packet.bytes == buf[:n]
            words = packet.words(s.capture)
        s.say('read', [STAGING, room(s.size), s.capture.word(at, have - at)], [answer, used, *words])
        return answer, used

def main(captures, out, every=False):
    made = Calls('Captured connections in stored frames. Packets are those of an independent decoder, bytes used and states those of a small codec that is '
        'written from the paper and found the same packets. Made by host/vectors/stored.py.')
    paths = sorted(glob.glob(f'{captures}/stored-*.small.s2c.bin')) + [f'{captures}/framed-eof-packed-rows.small.s2c.bin']
    for path in paths:
        capture = Capture(path[:-len('.s2c.bin')])
        made.part()
        Replay(made, capture, 0)
        if every or 'deprecate-eof' not in capture.name:
            Replay(made, capture, len(capture.bytes) if every else SMALL)
    made.write_parts(f'{out}/stored')

if __name__ == '__main__':
    if sys.argv[1] == '--all':
        main(*sys.argv[2:], every=True)
    else:
        main(*sys.argv[1:])
