#!/usr/bin/env python3
"""Makes salvages-1.txt and so on: damaged captures, what can still be read of them, and the good stretches read by the stream's reader.

    salvages.py OUT         the captures that the request W12 speaks of, every tenth change of a byte of a short stream, and captures drawn by the model
    salvages.py --all OUT   all-salvages-1.txt and so on: each byte of the stream changed to each other value, lost, and doubled: 11,051 captures

The reports are those of salvage_model.py, which is written from the request and shares no line with the proved code."""
import sys

from salvage_model import all_made, chunk, stretches
from vectors import List

LIMIT = 61440
GOOD = {'lost': 0, 'good': 1}
# Chunks whose numbers go over 255.
STREAM = b'\x03\0\0\xfdabc\0\0\0\xfe\x01\0\0\xffd\x05\0\0\0\0\0\0\0\x01\0\0\0\x01\x02\0\0\x02jk\x04\0\0\x03lmno'
# The request's worked capture; one out of sync; one whose first chunk is cut.
TOLD = ((b'\x01\0\0\0A\xff\xff\xff\xff\xff\x01\0\0\x01B\x01\0\0\x02C\x01\0\0\x03D', 'good 0 5 1, lost 5 5 2, good 10 15 3'),
        (b'\0\0\0\0\0\0\0\x01\0\0\0\x03\0\0\0\x04\0\0\0\x05\0\0\0\x06', 'good 0 8 2, lost 8 4 3, good 12 12 3'),
        (b'\xff\0\0\0\x01\0\0\x07A\x01\0\0\x08B\x01\0\0\x09C', 'lost 0 4 8, good 4 15 3'))


def covers(s, found):
    """Whether the stretches lie end to end from the first byte to the last, and none is empty."""
    at = 0
    for _, offset, n, _ in found:
        assert offset == at and n > 0
        at += n
    return at == len(s)


def capture(made, s, limit=LIMIT, reads=True):
    """How many stretches, and which: into a list with room for one more, just enough, and one number too few."""
    found = stretches(s, limit)
    assert covers(s, found)
    made.part()
    made.hold(s)
    made.case('stretches', [limit, s], [0, len(found)])
    numbers = [n for what, *rest in found for n in (GOOD[what], *rest)]
    for room in (len(numbers) + 4, len(numbers)):
        made.case('salvage', [limit, s, room], [0, len(found), *numbers])
    if found:
        made.case('salvage', [limit, s, len(numbers) - 1], [6])
    if reads:
        for what, offset, n, packets in found:
            if what == 'good':
                read(made, s[offset:offset + n], limit, packets)


def read(made, s, limit, packets):
    """A good stretch by itself: the stream's reader hands out so many packets, and uses every byte for them."""
    made.case('stream_open', [limit], [0])
    made.case('stream_seq_id', [s[3]], [0])
    at = 0
    for _ in range(packets):
        size, _ = chunk(s, at, limit)
        made.case('stream_read', [s[at:]], [0, size, 4, size - 4, 1])
        at += size
    assert at == len(s)


def changed():
    return [STREAM[:at] + bytes([(STREAM[at] + by) % 256]) + STREAM[at + 1:] for at in range(len(STREAM)) for by in range(1, 256)]


def lost():
    return [STREAM[:at] + STREAM[at + 1:] for at in range(len(STREAM))]


def doubled():
    return [STREAM[:at + 1] + STREAM[at:] for at in range(len(STREAM))]


def told(made):
    made.note('the captures that the request speaks of')
    for s, said in TOLD:
        assert ', '.join(' '.join(map(str, x)) for x in stretches(s, LIMIT)) == said
        capture(made, s)
    made.part()
    made.note('limits; no bytes; a report that does not fit changes nothing')
    s = TOLD[0][0]
    for limit, status in ((0, 1), (16777215, 1), (2**64 - 1, 1)):
        made.case('stretches', [limit, s], [status])
        for room in (0, 16):
            made.case('salvage', [limit, s, room], [status])
    for limit in (1, 16777214):
        capture(made, s, limit)
    capture(made, b'')
    for room in range(12):
        made.case('salvage', [LIMIT, s, room], [6])


WHOSE = 'The reports are those of a small model that is written from the request (host/vectors/salvage_model.py); each good stretch is read by the stream\'s reader too'


def lists(out):
    made = List(f'Damaged captures, and what can still be read of them. {WHOSE}, but for those of the changed bytes. Made by host/vectors/salvages.py, of which --all has every change.')
    told(made)
    for what, some in (('each byte lost', lost()), ('each byte doubled', doubled())):
        made.part()
        made.note(f'a stream whose numbers go over 255: {what}')
        for s in some:
            capture(made, s)
    made.part()
    made.note('captures drawn by the model, with several limits')
    for s, limit in all_made(100):
        capture(made, s, limit)
    made.part()
    made.note('the stream with one byte changed: every tenth change')
    for s in changed()[::10]:
        capture(made, s, reads=False)
    made.write_parts(f'{out}/salvages')


def every_damage(out):
    made = List(f'A short stream with each byte changed to each other value, lost, and doubled. {WHOSE}. Made by host/vectors/salvages.py --all.')
    for s in changed() + lost() + doubled():
        capture(made, s)
    made.write_parts(f'{out}/all-salvages')


if sys.argv[1] == '--all':
    every_damage(sys.argv[2])
else:
    lists(sys.argv[1])
