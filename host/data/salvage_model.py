#!/usr/bin/env python3
"""Damaged captures and their reports, by a small model that is written from the request and shares no line with the proved code:

  salvage_model.py CAPTURE LIMIT       prints the report of a capture
  salvage_model.py --make OUT COUNT    makes OUT/K.bin, OUT/K.limit and OUT/K.report, for K below COUNT: short captures with bytes changed,
                                       doubled and lost, numbers that jump, and cut ends. The same ones each time.
"""
import random, sys

def chunk(s, at, limit):
    """The bytes that the chunk at a place takes and its number, or the refusal's number alone."""
    if len(s) - at < 4:
        return None, 8
    n = int.from_bytes(s[at:at + 3], 'little')
    if n > limit:
        return None, 2
    if len(s) - at < 4 + n:
        return None, 8
    return 4 + n, s[at + 3]

def run(s, at, limit, most):
    """Chunks from a start on, `most` of them at the most: how many, the place behind them, and the refusal's number or None."""
    packets, want = 0, None
    while at < len(s) and packets < most:
        size, n = chunk(s, at, limit)
        if size is None:
            return packets, at, n
        if want is not None and n != want:
            return packets, at, 3
        packets, at, want = packets + 1, at + size, (n + 1) % 256
    return packets, at, None

def stretches(s, limit):
    out, at = [], 0
    while at < len(s):
        packets, bad, why = run(s, at, limit, len(s))
        if bad > at:
            out.append(('good', at, bad - at, packets))
        if why is None:
            break
        at = next((i for i in range(bad + 1, len(s)) if run(s, i, limit, 3)[0] == 3), len(s))
        out.append(('lost', bad, at - bad, why))
    return out

def report(s, limit):
    return ''.join('\t'.join(map(str, x)) + '\n' for x in stretches(s, limit))

def made(r):
    """A capture: chunks whose numbers mostly rise, some bytes between them, then some bytes changed, doubled or lost, and a cut."""
    s, number = bytearray(), r.randrange(256)
    for _ in range(r.randrange(24)):
        n = r.randrange(4)
        s += bytes([n, 0, 0, number]) + bytes(r.choice([0, 1, number]) for _ in range(n))
        number = r.randrange(256) if r.random() < .1 else (number + 1) % 256
        if r.random() < .15:
            s += bytes(r.choice([0, 1, 255, number]) for _ in range(r.randrange(4)))
    for _ in range(r.randrange(3)):
        if s:
            at, what = r.randrange(len(s)), r.randrange(3)
            s[at:at + 1] = [bytes([r.randrange(256)]), bytes([s[at]] * 2), b''][what]
    return bytes(s[:r.randrange(len(s) + 1)] if r.random() < .2 else s)

def make(out, count):
    r = random.Random(12)
    for k in range(count):
        s, limit = made(r), r.choice([1, 2, 3, 61_440, 16_777_214])
        open(f'{out}/{k}.bin', 'wb').write(s)
        open(f'{out}/{k}.limit', 'w').write(f'{limit}\n')
        open(f'{out}/{k}.report', 'w').write(report(s, limit))

if sys.argv[1:2] == ['--make'] and len(sys.argv) == 4:
    make(sys.argv[2], int(sys.argv[3]))
elif len(sys.argv) == 3:
    sys.stdout.write(report(open(sys.argv[1], 'rb').read(), int(sys.argv[2])))
else:
    sys.exit(__doc__)
