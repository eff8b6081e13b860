#!/usr/bin/env python3
"""Makes replies.txt: OK, ERR and EOF packets of a real server's captures and hand-made ones at every length, read, their records walked and read, and
written.   usage: replies.py CAPTURES OUT

What a captured packet says is the word of the independent decoder that the captures come with (CAPTURES is their folder, with decoded/ in it); of the
hand-made ones it is the request's rules, restated here. Where a part is empty docs/DECISIONS.md says its place: no records stand behind the
message, and nothing at all at the packet's end; so it does that type 2 is written as servers send it. What is written is the document's form; where the decoder says that a packet is of that form, it is that packet."""
import glob
import json
import lzma
import os
import sys

from records import decoded as decoded_record
from records import read as read_record
from vectors import List
from wire import Refused, answer, length, need, number, string, written_length, written_string

OK, EOF, ERR = 0x00, 0xFE, 0xFF
TRACKS = 0x4000
# The numbers of an answer, and the room for two more, which must stay.
NUMBERS, ROOM = 11, 13

made = List('OK, ERR and EOF packets of a real server\'s captures, by the independent decoder that they come with, and hand-made ones at every length, by the request\'s rules: read, their '
            'session records walked and read, and written into just enough room and into one byte too few. Made by host/vectors/replies.py.')


# ---- the request's rules

def ok_numbers(p, tracking):
    rows, at = length(p, 1)
    last, at = length(p, at)
    status, at = number(p, at, 2)
    warnings, at = number(p, at, 2)
    message, records = (at, len(p) - at), (len(p), 0)
    if tracking and at < len(p):
        message = string(p, at)
        records = string(p, sum(message)) if status & TRACKS else (sum(message), 0)
    return [OK, sum(records), status, warnings, rows, last, 0, *message, *records]


def err_numbers(p):
    code, at = number(p, 1, 2)
    if need(p, at, 1) != b'#':
        raise Refused(14)
    need(p, at + 1, 5)
    return [ERR, len(p), 0, 0, 0, 0, code, 9, len(p) - 9, 4, 5]


def eof_numbers(p):
    warnings, at = number(p, 1, 2)
    status, at = number(p, at, 2)
    return [EOF, at, status, warnings] + [0] * 7


def numbers(p, tracking):
    need(p, 0, 1)
    if p[0] == OK:
        return ok_numbers(p, tracking)
    if p[0] == ERR:
        return err_numbers(p)
    if p[0] == EOF and len(p) < 9:
        return eof_numbers(p)
    raise Refused(14)


def next_record(p, at, end):
    """Whether there is a record, its type, the place and length of what is handed on, and the next place."""
    if end > len(p):
        raise Refused(8)
    p = p[:end]
    if at == end:
        return [0]
    kind, front = number(p, at, 1)
    place, n = string(p, front)
    if kind == 2 and n == 1:
        return [1, kind, front, place + n - front, place + n]
    return [1, kind, place, n, place + n]


# ---- the document's forms

def ok_bytes(rows, last, status, warnings, message, records, tracking):
    head = b'\0' + written_length(rows) + written_length(last) + status.to_bytes(2, 'little') + warnings.to_bytes(2, 'little')
    if not tracking:
        return head + message
    return head + written_string(message) + (written_string(records) if status & TRACKS else b'')


def err_bytes(code, state, message):
    return b'\xff' + code.to_bytes(2, 'little') + b'#' + state + message


def eof_bytes(warnings, status):
    return b'\xfe' + warnings.to_bytes(2, 'little') + status.to_bytes(2, 'little')


def record_bytes(kind, body):
    """Type 2 as servers send it: 01 31 holds its length already."""
    return bytes([kind]) + (body if kind == 2 and len(body) == 2 and body[0] == 1 else written_string(body))


# ---- cases

def read(p, tracking, said):
    """A packet, with the numbers that it gives or its refusal; one place too few comes before all else."""
    if len(p) > 20 and p not in made.held:
        made.hold(p)
    made.once('read_answer', [p, int(tracking), ROOM], said)
    made.once('read_answer', [p, int(tracking), NUMBERS - 1], [6])


def written(p, tracking, said, same):
    """The fields of a packet written; `same` where that must be the packet itself."""
    kind, _, status, warnings, rows, last, code, at, n, rest, rest_len = said[1:]
    message, rest = p[at:at + n], p[rest:rest + rest_len]
    if kind == OK:
        fields = [rows, last, status, warnings, message, rest, int(tracking)]
        name, out = 'put_ok', ok_bytes(*fields)
    elif kind == ERR:
        fields = [code, rest, message]
        name, out = 'put_err', err_bytes(*fields)
    else:
        fields = [warnings, status]
        name, out = 'put_eof', eof_bytes(*fields)
    assert out == p or not same, (p, out)
    made.put(name, fields, out)


def walked(p, said, records):
    """The records of an OK packet: type, what is handed on, its place, the next place, and what it says."""
    at, end = said[10], said[10] + said[11]
    for kind, body, place, next, strings, used in records:
        assert p[place:place + len(body)] == body
        made.once('next_record', [p, at, end], [0, 1, kind, place, len(body), next])
        made.put('put_typed_record', [kind, body], record_bytes(kind, body))
        read_record(made, kind, body, strings, used)
        at = next
    assert at == end
    made.once('next_record', [p, end, end], [0, 0])


# ---- the captures

def stream(sent, base, frames):
    """What an exchange's chunks are counted in: the bytes themselves, or what the stored frames hold."""
    return sent[base:] if not frames else b''.join(sent[base + at + 7:base + at + 7 + n] for at, n in frames)


def decoded(p, d):
    """The decoder's fields as the numbers of an answer."""
    if isinstance(d['w1'], int):
        return [d['w1']]
    if d['w1'] == 'err':
        assert p[4:9] == d['state'].encode() and p[9:] == d['message'].encode()
        return [0, ERR, len(p), 0, 0, 0, 0, d['code'], 9, len(p) - 9, 4, 5]
    if d['w1'] == 'eof':
        # an OK packet that ends rows has 0xFE and OK's layout: as EOF its rows and id, of a byte each, stand where warnings do
        warnings = d['warnings'] if d['kind'] == 'eof' else d['affected'] + 256 * d['last_insert_id']
        return [0, EOF, 5, d['status'], warnings] + [0] * 7
    used = len(p) - d['left']
    message = (d['message'] or '').encode()
    records = [d['records_at'], d['records_len']] if 'records_at' in d else [used, 0]
    at = used if d['message'] is None else d['message_at']
    assert p[at:at + len(message)] == message
    return [0, OK, used, d['status'], d['warnings'], d['affected'], d['last_insert_id'], 0, at, len(message), *records]


def record_of(p, r):
    kind, body, strings, used = decoded_record(p, r)
    next = r['body_at'] + r['body_len']
    return kind, body, next - len(body), next, strings, used


known = set()


def one_captured(p, tracking, d):
    if (p, tracking) in known:
        return
    known.add((p, tracking))
    said = decoded(p, d)
    read(p, tracking, said)
    if said[0] != 0:
        return
    if d['w1'] == 'ok':
        same = d['shortest'] and d['left'] == 0 and not (tracking and d['message'] is None)
        walked(p, said, [record_of(p, r) for r in d['records']])
    else:
        same = d['w1'] == 'err' or len(p) == 5
    written(p, tracking, said, same)


def captured(captures, name):
    sent, base, frames = open(f'{captures}/{name}.s2c.bin', 'rb').read(), 0, []
    for line in lzma.open(f'{captures}/decoded/{name}.jsonl.xz', 'rt', encoding='utf-8'):
        d = json.loads(line)
        if d['line'] == 'capture':
            tracking = d['session_track']
        if d['line'] == 'exchange':
            base, frames = d['s2c'][0], []
        if d['line'] == 'frame' and d['dir'] == 's2c':
            frames.append((d['at'], d['len']))
        if d['line'] != 'packet' or d['dir'] != 's2c' or 'w1' not in d:
            continue
        plain = stream(sent, base, frames)
        p = b''.join(plain[at + 4:at + 4 + n] for at, n, _ in d['chunks'])
        assert len(p) == d['len'] and p[0] == d['first']
        one_captured(p, tracking, d)


# ---- hand-made

def records_in(p, said):
    """The records of an OK packet whose records have one string each."""
    at, end, out = said[10], said[10] + said[11], []
    while at < end:
        _, kind, place, n, at = next_record(p, at, end)
        body = p[place:place + n]
        front, n = string(body, 0) if kind in (1, 2, 4, 5) else (0, len(body))
        text = body[front:front + n]
        out.append((kind, body, place, at, [b'1' if text == b'1' else b'0'] if kind == 2 else [text], front + n))
    return out


def ruled(p, tracking):
    said = answer(numbers, p, tracking)
    read(p, tracking, said)
    if said[0] != 0:
        return
    if said[1] == OK:
        walked(p, said, records_in(p, said))
    written(p, tracking, said, same=False)


def hand_made():
    h = bytes.fromhex
    records = h('0105') + h('0474657374') + h('020131') + h('02020131') + h('020130') + h('0303') + h('616263') + h('0902') + h('FFFB')
    ok = h('00 FC1027 FD010203 0240 0500') + bytes([5]) + b'Hello' + bytes([len(records)]) + records
    err, eof = h('FF 1504 23') + b'28000' + b'Access denied', h('FE 0300 2200')
    made.hold(ok)
    made.note('an OK with records, an ERR and an EOF, at every length')
    for whole in (ok, err, eof + h('FF' * 6)):
        for n in range(len(whole) + 1):
            ruled(whole[:n], True)
            ruled(whole[:n], False)
    made.note('the same OK without the bit: what stands behind the message stays unread; bad leads, other headers')
    plain = ok[:8] + h('0200') + ok[10:]
    for p in (plain, plain[:12], ok[:12] + h('00'), ok[:12] + h('0000'), ok[:12] + h('FB'), ok[:12] + h('FF'), h('00FB'), h('00FF'), h('0000FB'), h('0000FF'),
              h('FF150441') + b'8000', h('FF150441'), h('FF1504'), h('01'), h('FB'), h('FD0000'), h('02') * 9, h('00FE') + b'\xff' * 8 + h('FEFFFFFFFFFFFFFF7F00000000')):
        ruled(p, True)
        ruled(p, False)
    made.note('a list that is too short comes first, also of an empty packet; tracking is any number but 0')
    for n in range(NUMBERS):
        made.once('read_answer', [b'', 0, n], [6])
        made.once('read_answer', [eof, 0, n], [6])
    made.once('read_answer', [eof, 0, NUMBERS], answer(numbers, eof, False))
    message = h('000000020000000178')
    for tracking in (0, 1, 2, 128, 255):
        made.once('read_answer', [message, tracking, NUMBERS], answer(numbers, message, tracking != 0))


def cursors():
    """Every place over a few records, with some ends."""
    p = b'\1\5\4test\2\0011\0\4\1a\1b\11\0\3\xfe' + b'\xff' * 8 + b'\7'
    made.note('the cursor over records, from every place: the last record is cut')
    made.hold(p)
    for end in (0, 7, 10, 16, 18, len(p) - 1, len(p), len(p) + 1, 2**64 - 1):
        for at in (*range(len(p) + 3), 2**64 - 1):
            made.once('next_record', [p, at, end], answer(next_record, p, at, end))


def writers():
    """States that are not five bytes long are refused with 8, before 6; records only with the bit and under tracking; far places."""
    made.note('the writers\' own: states of other lengths (8, before 6), records with and without the bit, type 2, places far out')
    for n in (0, 1, 4, 6, 12):
        for at in (0, 3, 20, 2**64 - 1):
            made.case('put_err', ['_16', at, 1, b'1234567890ab'[:n], b'x'], [8])
    for name, fields in (('put_err', [1, b'12345', b'x']), ('put_ok', [0, 0, 0, 0, b'', b'', 1]), ('put_eof', [0, 0]), ('put_typed_record', [2, b'\x011'])):
        for at in (16, 17, 2**64 - 3, 2**64 - 1):
            made.case(name, ['_16', at, *fields], [6])
    for status in (2, TRACKS | 2, 0xFFFF, TRACKS - 1):
        for tracking in (0, 1, 255):
            made.put('put_ok', [1, 2, status, 3, b'm', b'\3\0', tracking], ok_bytes(1, 2, status, 3, b'm', b'\3\0', tracking))
    for v in (250, 251, 2**16 - 1, 2**16, 2**24 - 1, 2**24, 2**64 - 1):
        made.put('put_ok', [v, v, 0, 65535, b'', b'', 0], ok_bytes(v, v, 0, 65535, b'', b'', 0))
        p = ok_bytes(v, v, 0, 65535, b'', b'', 0)
        made.once('read_answer', [p, 0, ROOM], answer(numbers, p, False))
    for kind, body in ((2, b'\x011'), (2, b'\x010'), (2, b'1'), (2, b'\x021'), (2, b'\x0111'), (1, b'\x011'), (0, b''), (255, b'\x01'), (3, bytes(251))):
        made.put('put_typed_record', [kind, body], record_bytes(kind, body))


def main(captures, out):
    hand_made()
    cursors()
    writers()
    made.note('the captures')
    for path in sorted(glob.glob(f'{captures}/*.s2c.bin')):
        name = os.path.basename(path)[:-len('.s2c.bin')]
        # frames that are packed can't be read here
        if not name.startswith('framed-'):
            captured(captures, name)
    made.write(f'{out}/replies.txt')


main(*sys.argv[1:])
