#!/usr/bin/env python3
"""Write the entries that the program `records` replays.

    records.py OUT S2C DECODED [S2C DECODED ..]    the session records of captures: what the server sent, and what the
                                                   independent decoder says of it (.jsonl.xz)
    records.py OUT limits                          hand-made records around the limits, with the answers of document 01

An entry: type (1), the cursor to start from (2), the refusal's number or 0 (1), bytes used or the cursor's last place (2),
number of strings or of pairs (1), then the record's bytes and each string, with its length (2) in front. Numbers low byte first.
"""
import json, lzma, sys

def sized(b): return len(b).to_bytes(2, 'little') + b

def entry(kind, body, strings, used, refusal=0, start=0):
    count = len(strings) // 2 if kind == 0 else len(strings)
    return (bytes([kind]) + start.to_bytes(2, 'little') + bytes([refusal]) + used.to_bytes(2, 'little') + bytes([count])
            + sized(body) + b''.join(map(sized, strings)))

def captured(s2c, decoded):
    """The entries of one capture. The bytes are the capture's own; the decoder's must be the same."""
    sent, base, out = open(s2c, 'rb').read(), 0, []
    for line in lzma.open(decoded, 'rt', encoding='utf-8'):
        d = json.loads(line)
        if d['line'] == 'exchange': base = d['s2c'][0]
        if d['line'] != 'packet' or d['dir'] != 's2c' or 'records' not in d: continue
        packet = b''.join(sent[base + at + 4:base + at + 4 + n] for at, n, _ in d['chunks'])
        for r in d['records']:
            kind, at, n = r['type'], r['body_at'], r['body_len']
            body = packet[at:at + n]
            if body != bytes.fromhex(r['body']): sys.exit(f'{s2c}: the decoder has other bytes: {line[:200]}')
            used = n - r['body_unread']
            if kind == 0: strings = [x.encode() for pair in r['vars'] for x in pair]
            elif kind == 2:
                # the server sends the bare digit: the record is handed on from its length byte
                strings = [b'1' if r['tracked'] else b'0']
                if n == 1: body, used = packet[at - 1:at + n], 2
            elif kind in (1, 4, 5): strings = [r['string'].encode()]
            else: strings = [body]
            out.append(entry(kind, body, strings, used))
    return out

def limits():
    h, long = bytes.fromhex, bytes(range(256)) * 2
    e = [
        # "true only for the one-byte string `1`", whatever form its length has
        entry(2, h('0131'), [b'1'], 2), entry(2, h('FC010031'), [b'1'], 4), entry(2, h('FD01000031'), [b'1'], 5),
        entry(2, h('FE010000000000000031'), [b'1'], 10), entry(2, h('0130'), [b'0'], 2), entry(2, h('023131'), [b'0'], 3),
        entry(2, h('00'), [b'0'], 1), entry(2, h('0132'), [b'0'], 2), entry(2, h('31'), [], 0, 8),
        # "Bytes behind one string are left unread"
        entry(2, h('013131'), [b'1'], 2), entry(1, h('02616263'), [b'ab'], 3), entry(4, h('0000'), [b''], 1), entry(5, h('015F00'), [b'_'], 2),
        # an empty record of each type
        entry(0, b'', [], 0), entry(1, b'', [], 0, 8), entry(2, b'', [], 0, 8), entry(3, b'', [b''], 0), entry(4, b'', [], 0, 8),
        entry(5, b'', [], 0, 8), entry(6, b'', [b''], 0), entry(255, b'', [b''], 0),
        # "all the rest", "keep all bytes": no length is looked at
        entry(3, h('00056162'), [h('00056162')], 4), entry(3, h('FF'), [h('FF')], 1), entry(6, h('0561'), [h('0561')], 2),
        entry(255, h('FB'), [h('FB')], 1), entry(6, long, [long], 512),
        # a string that ends too early, and leads that are no length
        entry(1, h('0361'), [], 0, 8), entry(4, h('FC01'), [], 0, 8), entry(5, h('FB'), [], 0, 9), entry(1, h('FF'), [], 0, 9),
        # lengths of two bytes
        entry(1, h('FC0002') + long, [long], 515), entry(1, h('FCFB00') + long[:251], [long[:251]], 254),
        # the cursor: pairs, empty ones, the end, past the end, from the middle
        entry(0, h('0161016201630164'), [b'a', b'b', b'c', b'd'], 8), entry(0, h('0000'), [b'', b''], 2),
        entry(0, h('0161016201630164'), [b'c', b'd'], 8, start=4), entry(0, h('01610162'), [], 4, start=4),
        entry(0, h('01610162'), [], 5, 8, start=5), entry(0, b'', [], 1, 8, start=1), entry(0, b'', [], 65535, 8, start=65535),
        # a name without a value, a value that is short, a bad lead: the pairs before stay, and so does the cursor
        entry(0, h('0161'), [], 0, 8), entry(0, h('016101620163'), [b'a', b'b'], 4, 8), entry(0, h('01610262'), [], 0, 8),
        entry(0, h('0161FB'), [], 0, 9), entry(0, h('01610162FF'), [b'a', b'b'], 4, 9),
    ]
    return e

def main(args):
    if len(args) < 2 or (args[1] != 'limits' and len(args) % 2 == 0): sys.exit(__doc__)
    entries = limits() if args[1] == 'limits' else [e for s2c, d in zip(args[1::2], args[2::2]) for e in captured(s2c, d)]
    open(args[0], 'wb').write(b''.join(entries))
    print(f'{args[0]}: {len(entries)} entries')

main(sys.argv[1:])
