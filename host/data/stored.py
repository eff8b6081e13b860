#!/usr/bin/env python3
"""Makes the data of the program `stored`, and what it must write: stored.py CAPTURES OUT STDOUT

OUT/NAME for each small stored capture, and for the packed one: numbers of 4 bytes, low byte first.
  4 how many turns; 4 place of the list of packets; 24 bytes a turn: kind (0 numbers from 0, 1 they go on, 2 frames on and numbers
  from 0), place and length of the command, place and length of the answer, how many packets the server has sent by its end
  list of packets: length and checksum, each; then the bytes of both ways as the client and the server sent them
The login makes two turns: the server's greeting, and the client's login with the answer to it.

Packets come from the decoded list, which an independent decoder made: where its frames lie and where the chunks in them.
"""
import glob, json, lzma, os, struct, sys

PRIME = 4_294_967_291

def checksum(b):
    n = 0
    for x in b:
        n = (n * 257 + x) % PRIME
    return n

def exchanges(path):
    """For each exchange its line, and the server's packets, or None where a packed frame stands; and the bytes of both ways."""
    folder, name = os.path.split(path)
    s2c, c2s = open(path + '.s2c.bin', 'rb').read(), open(path + '.c2s.bin', 'rb').read()
    out = []
    for line in lzma.open(f'{folder}/decoded/{name}.jsonl.xz', 'rt'):
        x = json.loads(line)
        if x['line'] == 'exchange':
            out.append((x, [], []))
        elif x['line'] in ('frame', 'packet') and x['dir'] == 's2c':
            out[-1][1 if x['line'] == 'frame' else 2].append(x)
    for i, (x, frames, listed) in enumerate(out):
        b = s2c[x['s2c'][0]:sum(x['s2c'])]
        packed = next((f for f in frames if f['plain_len']), None)
        stream = b''.join(b[f['at'] + 7:f['at'] + 7 + f['len']] for f in frames if not packed or f['at'] < packed['at']) if x['framed'] else b
        packets = []
        for p in listed:
            if sum(p['chunks'][-1][:2]) + 4 > len(stream):
                break
            for at, n, no in p['chunks']:
                assert stream[at:at + 4] == struct.pack('<I', n | no << 24)
            packets.append(b''.join(stream[at + 4:at + 4 + n] for at, n, _ in p['chunks']))
        assert packed or len(packets) == len(listed)
        out[i] = (x, packets, packed)
    return out, c2s, s2c

def turns(every):
    """Kind, command, answer and packets of each turn; places are those in the two files."""
    out = []
    for x, packets, _ in every:
        (c, cn), (s, sn) = x['c2s'], x['s2c']
        if x['n'] == 0:
            first = 4 + len(packets[0])
            out.append((0, c, 0, s, first, packets[:1]))
            out.append((1, c, cn, s + first, sn - first, packets[1:]))
        else:
            out.append((2 if x['n'] == 1 else 0, c, cn, s, sn, packets))
    return out

def write(path, out):
    every, c2s, s2c = exchanges(path)
    told = turns(every)
    packets = [p for t in told for p in t[5]]
    table = 8 + 24 * len(told)
    base = table + 8 * len(packets)
    data, count = struct.pack('<II', len(told), table), 0
    for kind, c, cn, s, sn, ps in told:
        count += len(ps)
        data += struct.pack('<IIIIII', kind, base + c, cn, base + len(c2s) + s, sn, count)
    data += b''.join(struct.pack('<II', len(p), checksum(p)) for p in packets)
    data += c2s + s2c
    assert len(data) <= 65536
    open(out, 'wb').write(data)
    stop = next((i for i, e in enumerate(every) if e[2]), None)
    if stop is None:
        return f': exchanges {len(every)}, packets {len(packets)}, bytes {len(s2c)}, ok'
    x, got, packed = every[stop]
    count = sum(len(e[1]) for e in every[:stop]) + len(got)
    print(os.path.basename(path), 'first packed frame: exchange', x['n'], 'at byte', packed['at'], 'of the answer')
    return f": exchanges {stop}, packets {count}, bytes {x['s2c'][0] + packed['at']}, then refused with 5"

def main(captures, out, stdout):
    lines = []
    paths = sorted(glob.glob(f'{captures}/stored-*.small.s2c.bin')) + [f'{captures}/framed-eof-packed-rows.small.s2c.bin']
    for path in paths:
        path = path[:-len('.s2c.bin')]
        name = os.path.basename(path)[:-len('.small')].removeprefix('stored-').removeprefix('framed-eof-')
        line = name + write(path, f'{out}/{name}')
        lines += [line, line]
    open(stdout, 'w').write('\n'.join(lines) + '\n')

if __name__ == '__main__':
    main(*sys.argv[1:])
