#!/usr/bin/env python3
"""Write the entries that the program `replies` replays.

    replies.py OUT CAPTURE DECODED [CAPTURE DECODED ..]   the OK, ERR and EOF packets of captures: what the server sent (.s2c.bin), and what the
                                                          independent decoder says of it (.jsonl.xz); equal entries once
    replies.py OUT limits                                 hand-made packets, each cut at every length, by the request's rules

An entry: tracking agreed (1), the refusal's number or 0 (1), header (1), affected rows (8), last insert id (8), status, or an ERR's code (2),
warnings (2), bytes used (2), whether the writer makes just these bytes (1), number of records (1); then, each with its length (2) in front, the packet, the
message, and an OK's records or an ERR's state. Then for each record its type (1), the number of its strings (1), the part that is handed
on and the strings, names and values in turn, each with its length (2). Numbers low byte first.
"""
import json, lzma, sys

def le(n, k): return n.to_bytes(k, 'little')
def sized(b): return le(len(b), 2) + b

class Refused(Exception): pass

def entry(packet, tracking, header=0, refusal=0, rows=0, last=0, status=0, warnings=0, used=0, message=b'', part=b'', records=(), same=False):
    out = bytes([tracking, refusal, header]) + le(rows, 8) + le(last, 8) + le(status, 2) + le(warnings, 2) + le(used, 2) + bytes([same, len(records)])
    out += sized(packet) + sized(message) + sized(part)
    for kind, handed, strings in records: out += bytes([kind, len(strings)]) + sized(handed) + b''.join(map(sized, strings))
    return out

# ---- captures: the decoder's fields

def stream(sent, base, frames):
    """What an exchange's chunks are counted in: the bytes themselves, or what the stored frames hold."""
    return sent[base:] if not frames else b''.join(sent[base + at + 7:base + at + 7 + n] for at, n in frames)

def record_of(packet, r):
    kind, at, n = r['type'], r['body_at'], r['body_len']
    body = packet[at:at + n]
    if body != bytes.fromhex(r['body']): sys.exit(f'the decoder has other bytes: {r}')
    if kind == 2: return kind, packet[at - 1:at + n] if n == 1 else body, [b'1' if r['tracked'] else b'0']
    if kind == 0: return kind, body, [x.encode() for pair in r['vars'] for x in pair]
    return kind, body, [r['string'].encode() if kind in (1, 4, 5) else body]

def decoded_entry(packet, tracking, d):
    message = (d.get('message') or '').encode()
    if isinstance(d['w1'], int): return entry(packet, tracking, packet[0], d['w1'])
    if d['w1'] == 'err':
        return entry(packet, tracking, 0xFF, status=d['code'], used=len(packet), message=message, part=d['state'].encode(), same=True)
    if d['w1'] == 'eof':
        # an OK packet that ends rows has 0xFE and OK's layout: as EOF its rows and id, of a byte each, stand where warnings do
        if d['kind'] == 'eof': warnings = d['warnings']
        else: warnings = d['affected'] + 256 * d['last_insert_id']
        return entry(packet, tracking, 0xFE, status=d['status'], warnings=warnings, used=5, same=len(packet) == 5)
    records = [record_of(packet, r) for r in d['records']]
    part = packet[d['records_at']:d['records_at'] + d['records_len']] if 'records_at' in d else b''
    same = d['shortest'] and d['left'] == 0 and not (tracking and d['message'] is None)
    return entry(packet, tracking, 0, rows=d['affected'], last=d['last_insert_id'], status=d['status'], warnings=d['warnings'],
                 used=len(packet) - d['left'], message=message, part=part, records=records, same=same)

def captured(s2c, decoded):
    sent, base, frames, out = open(s2c, 'rb').read(), 0, [], []
    for line in lzma.open(decoded, 'rt', encoding='utf-8'):
        d = json.loads(line)
        if d['line'] == 'capture': tracking = d['session_track']
        if d['line'] == 'exchange': base, frames = d['s2c'][0], []
        if d['line'] == 'frame' and d['dir'] == 's2c': frames.append((d['at'], d['len']))
        if d['line'] != 'packet' or d['dir'] != 's2c' or 'w1' not in d: continue
        plain = stream(sent, base, frames)
        packet = b''.join(plain[at + 4:at + 4 + n] for at, n, _ in d['chunks'])
        if len(packet) != d['len'] or packet[0] != d['first']: sys.exit(f'{s2c}: another packet: {line[:200]}')
        out.append(decoded_entry(packet, tracking, d))
    return out

# ---- hand-made: the request's rules, restated

def number(p, at, k):
    if len(p) < at + k: raise Refused(8)
    return int.from_bytes(p[at:at + k], 'little'), at + k

def lenenc(p, at):
    b, at = number(p, at, 1)
    if b < 251: return b, at
    if b not in (0xFC, 0xFD, 0xFE): raise Refused(9)
    return number(p, at, {0xFC: 2, 0xFD: 3, 0xFE: 8}[b])

def string(p, at):
    n, at = lenenc(p, at)
    if len(p) < at + n: raise Refused(8)
    return p[at:at + n], at + n

def led(n):
    return le(n, 1) if n < 251 else b'\xFC' + le(n, 2) if n < 1 << 16 else b'\xFD' + le(n, 3) if n < 1 << 24 else b'\xFE' + le(n, 8)

def ok_bytes(rows, last, status, warnings, message, part, tracking):
    head = b'\0' + led(rows) + led(last) + le(status, 2) + le(warnings, 2)
    if not tracking: return head + message
    return head + led(len(message)) + message + (led(len(part)) + part if status & 0x4000 else b'')

def records_in(part):
    """Records of one string each, as the hand-made packets have them."""
    at, out = 0, []
    while at < len(part):
        kind, at = number(part, at, 1)
        front = at
        body, at = string(part, at)
        handed = part[front:at] if kind == 2 and len(body) == 1 else body
        text = string(handed, 0)[0] if kind in (1, 2, 4, 5) else handed
        out.append((kind, handed, [b'1' if text == b'1' else b'0'] if kind == 2 else [text]))
    return out

def ruled(p, tracking):
    if not p: return entry(p, tracking, refusal=8)
    try:
        if p[0] == 0x00:
            rows, at = lenenc(p, 1)
            last, at = lenenc(p, at)
            status, at = number(p, at, 2)
            warnings, at = number(p, at, 2)
            message, part, records = b'', b'', []
            if not tracking: message, at = p[at:], len(p)
            elif at < len(p):
                message, at = string(p, at)
                if status & 0x4000:
                    part, at = string(p, at)
                    records = records_in(part)
            same = ok_bytes(rows, last, status, warnings, message, part, tracking) == p
            return entry(p, tracking, 0, rows=rows, last=last, status=status, warnings=warnings, used=at, message=message, part=part, records=records,
                         same=same)
        if p[0] == 0xFF:
            code, at = number(p, 1, 2)
            mark, at = number(p, at, 1)
            if mark != 0x23: raise Refused(14)
            if len(p) < 9: raise Refused(8)
            return entry(p, tracking, 0xFF, status=code, used=len(p), message=p[9:], part=p[4:9], same=True)
        if p[0] == 0xFE and len(p) < 9:
            warnings, at = number(p, 1, 2)
            status, at = number(p, at, 2)
            return entry(p, tracking, 0xFE, status=status, warnings=warnings, used=at, same=len(p) == 5)
        raise Refused(14)
    except Refused as r: return entry(p, tracking, p[0], refusal=r.args[0])

def limits():
    h = bytes.fromhex
    records = h('0105') + h('0474657374') + h('020131') + h('02020131') + h('020130') + h('0303') + h('616263') + h('0902') + h('FFFB')
    ok = h('00 FC1027 FD010203 0240 0500') + bytes([5]) + b'Hello' + bytes([len(records)]) + records
    err, eof = h('FF 1504 23') + b'28000' + b'Access denied', h('FE 0300 2200')
    some = [ok[:n] for n in range(len(ok) + 1)] + [err[:n] for n in range(len(err) + 1)] + [(eof + h('FF' * 6))[:n] for n in range(12)]
    out = [ruled(p, t) for p in some for t in (True, False)]
    plain = ok[:8] + h('0200') + ok[10:]    # the same without the bit: what stands behind the message stays unread
    for p in (plain, plain[:12], ok[:12] + h('00'), ok[:12] + h('0000'), ok[:12] + h('FB'), ok[:12] + h('FF'), h('00FB'), h('00FF'), h('0000FB'), h('0000FF'),
              h('FF150441') + b'8000', h('FF150441'), h('FF1504'), h('01'), h('FB'), h('FD0000'), h('02') * 9):
        out += [ruled(p, True), ruled(p, False)]
    return out

def main(args):
    if len(args) < 2 or (args[1] != 'limits' and len(args) % 2 == 0): sys.exit(__doc__)
    entries = limits() if args[1] == 'limits' else [e for s2c, d in zip(args[1::2], args[2::2]) for e in captured(s2c, d)]
    entries = list(dict.fromkeys(entries))
    open(args[0], 'wb').write(b''.join(entries))
    print(f'{args[0]}: {len(entries)} entries')

main(sys.argv[1:])
