#!/usr/bin/env python3
"""Makes records.txt: session records of a real server's captures and hand-made ones around the limits, read and written.   usage: records.py CAPTURES OUT

What a captured record says is the word of the independent decoder that the captures come with (CAPTURES is their folder, with decoded/ in it); the
places are found where its strings stand in the record's bytes. The hand-made ones have the answers of document 01, each given here;
that type 0 uses no bytes where it is read whole is docs/DECISIONS.md's.
Captured records, and some of the others, are cut at every length besides and read by the paper's rules. What is written is the paper's form."""
import json
import lzma
import sys

from vectors import List
from wire import answer, string, written_string

CAPTURES = ('plain-eof-session-track.small', 'plain-deprecate-eof-session-track.small', 'plain-eof-ok-err-eof-tracked.small',
            'plain-deprecate-eof-ok-err-eof-tracked.small')
STRINGS = (1, 4, 5)

# ---- the paper's rules

def record(s, kind):
    """Place, length, tracked, used."""
    if kind == 0:
        return [None, None, None, 0]
    if kind == 2 or kind in STRINGS:
        at, n = string(s, 0)
        return [None, None, int(s[at:at + n] == b'1'), at + n] if kind == 2 else [at, n, None, at + n]
    return [0, len(s), None, len(s)]


def variable(s, at):
    """Whether there is a pair, its name's and its value's places and lengths, and the next place."""
    if at == len(s):
        return [0]
    name, n = string(s, at)
    value, m = string(s, name + n)
    return [1, name, n, value, m, value + m]


# ---- cases

def written(made, kind, text):
    """A record as the writer has it: text for every type but 2, which has a flag, and but 0, whose pairs are written one by one."""
    if kind == 2:
        made.put('put_record', [2, b'', int(text == b'1')], b'\x011' if text == b'1' else b'\x010')
    else:
        made.put('put_record', [kind, text, 0], written_string(text) if kind in STRINGS else text)


def read(made, kind, s, strings, used):
    """A record that is read to its end, with what it says: one string, or of kind 0 names and values in turn."""
    if kind == 0:
        return variables(made, s, strings, used)
    at = used - len(strings[0])
    assert kind == 2 or s[at:used] == strings[0]
    place = [None, None, int(strings[0] == b'1')] if kind == 2 else [at, len(strings[0]), None]
    made.once('read_record', [s, kind], [0, *place, used])
    written(made, kind, strings[0])


def variables(made, s, strings, used, at=0):
    """Pairs from a place on. The decoder and the list below say what they are, and so where they stand: each behind its length."""
    made.once('read_record', [s, 0], [0, None, None, None, 0])
    for name, value in zip(strings[::2], strings[1::2]):
        places = []
        for x in (name, value):
            at += len(written_string(x))
            assert s[at - len(x):at] == x
            places += [at - len(x), len(x)]
        made.once('next_variable', [s, at - len(written_string(name) + written_string(value))], [0, 1, *places, at])
        made.put('put_variable', [name, value], written_string(name) + written_string(value))
    assert at == used
    if at == len(s):
        made.once('next_variable', [s, at], [0, 0])


def cut(made, kind, s):
    """Every beginning of a record, by the paper's rules; of variables the first pair of each."""
    for n in range(len(s)):
        if kind:
            made.once('read_record', [s[:n], kind], answer(record, s[:n], kind))
        else:
            made.once('next_variable', [s[:n], 0], answer(variable, s[:n], 0))


def refused(made, kind, s, number, at=0):
    if kind:
        made.once('read_record', [s, kind], [number])
    else:
        made.once('next_variable', [s, at], [number])


# ---- the captures

known = set()


def captured(made, path, name):
    sent, base = open(f'{path}/{name}.s2c.bin', 'rb').read(), 0
    for line in lzma.open(f'{path}/decoded/{name}.jsonl.xz', 'rt', encoding='utf-8'):
        d = json.loads(line)
        if d['line'] == 'exchange':
            base = d['s2c'][0]
        if d['line'] == 'packet' and d['dir'] == 's2c':
            packet = b''.join(sent[base + at + 4:base + at + 4 + n] for at, n, _ in d['chunks'])
            for r in d.get('records', ()):
                one_captured(made, packet, r)


def decoded(packet, r):
    """Type, the bytes that are handed on, what they say, and how many of them are used, by the decoder."""
    kind, at, n = r['type'], r['body_at'], r['body_len']
    s = packet[at:at + n]
    assert s == bytes.fromhex(r['body'])
    used = n - r['body_unread']
    if kind == 0:
        return kind, s, [x.encode() for pair in r['vars'] for x in pair], used
    if kind == 2:
        tracked = [b'1' if r['tracked'] else b'0']
        # servers send the bare digit: the record is handed on from its length byte
        return (kind, packet[at - 1:at + n], tracked, 2) if n == 1 else (kind, s, tracked, used)
    return kind, s, [r['string'].encode() if kind in STRINGS else s], used


def one_captured(made, packet, r):
    kind, s, strings, used = decoded(packet, r)
    if (kind, s) not in known:
        known.add((kind, s))
        if len(s) > 20:
            made.hold(s)
        read(made, kind, s, strings, used)
        cut(made, kind, s)


# ---- around the limits

h = bytes.fromhex


def tracked(made):
    made.note('"true only for the one-byte string `1`", whatever form its length has')
    for s, tracked, used in (('0131', 1, 2), ('FC010031', 1, 4), ('FD01000031', 1, 5), ('FE010000000000000031', 1, 10), ('0130', 0, 2), ('023131', 0, 3), ('00', 0, 1),
                             ('0132', 0, 2), ('013131', 1, 2), ('02313131', 0, 3)):
        made.once('read_record', [h(s), 2], [0, None, None, tracked, used])
        cut(made, 2, h(s))
    refused(made, 2, h('31'), 8)
    made.note('"Bytes behind one string are left unread"')
    for kind, s, at, n in ((1, h('02616263'), 1, 2), (4, h('0000'), 1, 0), (5, h('015F00'), 1, 1)):
        made.once('read_record', [s, kind], [0, at, n, None, at + n])


def strings_and_bytes(made):
    long = bytes(range(256)) * 2
    made.note('an empty record of each type')
    for kind in (1, 2, 4, 5):
        refused(made, kind, b'', 8)
    for kind in (3, 6, 255):
        read(made, kind, b'', [b''], 0)
    variables(made, b'', [], 0)
    made.note('"all the rest", "keep all bytes": no length is looked at')
    made.hold(long)
    for kind, s in ((3, h('00056162')), (3, h('FF')), (6, h('0561')), (255, h('FB')), (6, long), (7, h('0131')), (128, h('00'))):
        read(made, kind, s, [s], len(s))
    made.note('a string that ends too early, leads that are no length, and lengths of two bytes')
    for kind, s, number in ((1, '0361', 8), (4, 'FC01', 8), (5, 'FB', 9), (1, 'FF', 9)):
        refused(made, kind, h(s), number)
    made.hold(h('FC0002') + long)
    read(made, 1, h('FC0002') + long, [long], 515)
    made.hold(h('FCFB00') + long[:251])
    read(made, 1, h('FCFB00') + long[:251], [long[:251]], 254)


def cursor(made):
    made.note('the cursor: pairs, empty ones, the end, past the end, from the middle')
    pairs = h('0161016201630164')
    variables(made, pairs, [b'a', b'b', b'c', b'd'], 8)
    variables(made, h('01610162'), [b'a', b'b'], 4)
    cut(made, 0, pairs)
    for n in range(5, 8):
        refused(made, 0, pairs[:n], 8, at=4)
    variables(made, h('0000'), [b'', b''], 2)
    for s, at in ((h('01610162'), 5), (b'', 1), (b'', 65535), (b'', 2**64 - 1), (pairs, 2**64 - 1)):
        refused(made, 0, s, 8, at)
    made.note('a name without a value, a value that is short, a bad lead: the pairs before stay, and so does the cursor')
    for s, strings, number in (('0161', [], 8), ('016101620163', [b'a', b'b'], 8), ('01610262', [], 8), ('0161FB', [], 9), ('01610162FF', [b'a', b'b'], 9)):
        at = sum(map(len, map(written_string, strings)))
        variables(made, h(s), strings, at)
        refused(made, 0, h(s), number, at)


def writers(made):
    made.note('type 0 is written pair by pair, and by itself as nothing; a flag is any number but 0; no place is too large')
    made.put('put_record', [0, b'abc', 1], b'')
    for flag in (2, 255):
        made.put('put_record', [2, b'abc', flag], b'\x011')
    for at in (3, 4, 2**64 - 1):
        made.case('put_record', ['_4', at, 2, b'', 1], [6])
        made.case('put_variable', ['_4', at, b'', b''], [6])


def main(captures, out):
    made = List('Session records of a real server\'s captures, by the independent decoder that they come with, and hand-made ones around the limits, by the paper: read, cut '
                'short, and written into just enough room and into one byte too few. Made by host/vectors/records.py.')
    for some in (tracked, strings_and_bytes, cursor, writers):
        some(made)
    made.note('the captures')
    for name in CAPTURES:
        captured(made, captures, name)
    made.write(f'{out}/records.txt')


if __name__ == '__main__':
    main(*sys.argv[1:])
