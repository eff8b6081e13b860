#!/usr/bin/env python3
"""Makes the lists of the original Rust's answers: oracle --list 4000 --seed 30 | answers.py OUT

Standard input: lines of `oracle --list`, whose README ("Vectors") says what the fields are. OUT/answers-1.txt and so on: the same calls. Buffers for bytes
that are written are lent as long as what is wanted, those of a connection as long as its limit asks for. A date or time that is read takes a second line with
its fields, and a connection's call one with its numbers.

What is not the original's own word: the numbers of refusals (the original answers nothing or an error of its own kind; a type on which it panics is not run,
and stands as 10), every read_text, whose answer the oracle's list writes down without a call, and the bytes used by a read that is refused, which are the
definition's. Of a `look`: whether frames are on and the state is closed, and what is unread after a refused read; these are the word of the codec of
frames.py, which must agree with the list on all else.
"""
import struct
import sys

from frames import DONE, Codec
from vectors import List, room

def number(field):
    return int.from_bytes(field, 'little')

def signed(field):
    return int.from_bytes(field, 'little', signed=True)

def date(field):
    """Year, month, day, hour, minutes, seconds, microseconds."""
    return struct.unpack('<H5BI', field)

def time(field):
    """Sign, days, hours, minutes, seconds, microseconds."""
    return struct.unpack('<BI3BI', field)

class Answers:
    def __init__(s, made):
        s.made, s.codec = made, None

    def line(s, text):
        op, *fields = text.split(' ')
        s.OPS[op](s, *(b'' if f == '-' else bytes.fromhex(f) for f in fields))

    # ---- values

    def lenenc_int(s, given, at, status, value, following):
        s.made.case('lenenc_int', [given, number(at)], s.said(status, value and [number(value), number(following)]))

    def lenenc_str(s, given, at, status, place, n):
        s.made.case('lenenc_str', [given, number(at)], s.said(status, place and [number(place), number(n)]))

    def said(s, status, numbers):
        """A refusal has nothing behind it."""
        assert bool(status[0]) != bool(numbers)
        return [status[0], *numbers]

    def value(s, given, at, column_type, unsigned, status, kind, payload, following):
        asked = [given, number(at)]
        parts = s.parts(kind, payload) if kind else []
        s.made.case('read_value', [*asked, column_type[0], unsigned[0]], s.said(status, kind and [kind[0], *parts, number(following)]))
        if kind and kind[0] in (6, 7):
            name, fields = ('read_date', date) if kind[0] == 6 else ('read_time', time)
            s.made.case(name, asked, [0, *fields(payload), number(following)])

    def parts(s, kind, payload):
        """The integer, bits, place and length of a value: those that its kind has."""
        if kind[0] == 1:
            return [None, None, number(payload[:4]), number(payload[4:])]
        if kind[0] == 2:
            return [signed(payload), None, None, None]
        return [None, number(payload) if kind[0] in (3, 4, 5) else None, None, None]

    def text(s, given, at, status, kind, payload, following):
        assert kind in (b'', b'\0') and not payload
        s.made.case('read_text', [given, number(at)], s.said(status, kind and [0, None, None, number(following)]))

    def put(s, name, asked, written):
        s.made.case(name, [room(len(written)), 0, *asked], [0, len(written), written])

    def put_int(s, value, written):
        s.put('put_lenenc_int', [number(value)], written)

    def put_value(s, kind, payload, written):
        name, asked = {
            1: ('put_lenenc_str', lambda p: [p]), 2: ('put_int', lambda p: [signed(p)]), 3: ('put_uint', lambda p: [number(p)]),
            4: ('put_float', lambda p: [number(p)]), 5: ('put_double', lambda p: [number(p)]), 6: ('put_date', date), 7: ('put_time', time),
        }[kind[0]]
        s.put(name, asked(payload), written)

    def escaped(s, given, flag, written):
        s.made.case('escaped', [room(len(written)), 0, given, flag[0]], [0, len(written), written])

    # ---- connections

    def open(s, limit):
        s.made.part()
        s.codec = Codec(number(limit))
        s.made.case('open', [number(limit)], [DONE])

    def turn(s, name, change, left):
        change()
        s.made.case(name, [], [DONE])
        s.look(*left)

    def frames_on(s, *left):
        s.turn('frames_on', s.codec.frames_on, left)

    def reset(s, *left):
        s.turn('reset_seq_id', s.codec.reset, left)

    def sync(s, *left):
        s.turn('sync_seq_id', s.codec.sync, left)

    def look(s, chunk, frame, unread):
        """After a call: the two numbers and the unread bytes, which are the list's; it has none of a closed connection."""
        c = s.codec
        assert (c.number, c.frame) == (chunk[0], frame[0]) and (c.closed or c.unread == unread)
        s.made.case('look', [], [0, chunk[0], frame[0], len(c.unread), int(c.framed), int(c.closed)])

    def write(s, packet, status, written, *left):
        buf = bytearray(len(written))
        assert s.codec.encode(packet, buf) == (status[0], len(written)) and buf == written
        s.made.case('write', [room(len(written)), packet], s.said(status, [len(written), written] if written else []))
        s.look(*left)

    def read(s, given, status, used, packet, *left):
        limit, staging = s.codec.limit, 2 * s.codec.limit + 4
        buf = bytearray(limit)
        assert s.codec.decode(given, staging, buf) == (status[0], len(packet), number(used)) and buf[:len(packet)] == packet
        answer = [status[0], number(used)] + ([len(packet)] if status[0] == DONE else []) + ([packet] if packet else [])
        s.made.case('read', [staging, room(limit), given], answer + ([] if s.codec.closed else [f'^{left[2].hex()}']))
        s.look(*left)

    OPS = {'01': lenenc_int, '02': lenenc_str, '03': value, '04': text, '05': put_int, '06': put_value, '07': escaped, '10': open, '11': frames_on,
        '12': reset, '13': sync, '14': write, '15': read}

def main(out):
    made = List("The original Rust's answers, but for the numbers of refusals and what else host/vectors/answers.py names, which made this list of `oracle "
        "--list 4000 --seed 30`.")
    answers = Answers(made)
    for text in sys.stdin.read().splitlines():
        answers.line(text)
    made.write_parts(f'{out}/answers')

if __name__ == '__main__':
    main(*sys.argv[1:])
