"""What the scripts of connections share: a state's bytes, a list of calls over one state, and captures with the packets that an independent decoder lists."""
import json
import lzma
import os
import struct

from vectors import List

# A part of a list may begin at the first opening behind so many bytes.
STEP = 20_000


def state_bytes(limit, number, taken, header, closed, framed=False, frame=0, frame_header=None, unread=0):
    """The bytes of a state that mean something, as crates/mishkeldur/specs/State.antt lays them out. A header that is not remembered stands as zeros."""
    n, k = header or (0, 0)
    m, j = frame_header or (0, 0)
    return struct.pack('<8B5Q', 0 if closed else 0x4B, number, header is not None, k, frame, frame_header is not None, j, framed, limit, unread, taken, m, n)


def change(before, after):
    """The word for a state that was `before` (None: nobody knows what) and is `after`: from the first byte that changed to the last."""
    if before is None:
        return f'@0:{after.hex()}'
    places = [i for i in range(len(after)) if before[i] != after[i]]
    return f'@{places[0]}:{after[places[0]:places[-1] + 1].hex()}' if places else '@'


class Calls(List):
    """A list of calls over one state, each with what it makes of all of the state. `now` are the state's bytes then; None, where a file may begin."""

    def __init__(self, about):
        super().__init__(about)
        self.now, self.begun = None, 0

    def part(self):
        super().part()
        self.now, self.begun = None, len(self.lines)

    def set_state(self, state):
        """A line `state ..`. Behind the bytes that mean something stand others, which no call may write."""
        self.state(state + bytes([0xEE]) * (128 - len(state)))
        self.now = state

    def call(self, name, asked, answer, after, unread=None):
        """A call with its numbers and bytes, the state after it and, for a read, the unread bytes of staging."""
        staging = [] if unread is None else [f'^{unread.hex()}']
        self.case(name, asked, [*answer, change(self.now, after), *staging])
        self.now = after

    def is_long(self, enough=STEP):
        """Whether this part has so many bytes that another may begin."""
        return sum(len(line) + 1 for line in self.lines[self.begun:]) > enough


def decoded(path):
    """The decoder's exchanges, each with the server's frames and packets."""
    out = []
    with lzma.open(f'{os.path.dirname(path)}/decoded/{os.path.basename(path)}.jsonl.xz', 'rt') as lines:
        for x in map(json.loads, lines):
            if x['line'] == 'exchange':
                out.append((x, [], []))
            elif x['line'] in ('frame', 'packet') and x['dir'] == 's2c':
                out[-1][1 if x['line'] == 'frame' else 2].append(x)
    return out


class Capture:
    """A captured connection: its exchanges, and the bytes of both ways, the client's first. It ends with the first packed frame, if it has one."""

    def __init__(self, path):
        self.name = os.path.basename(path)
        with open(path + '.c2s.bin', 'rb') as c2s, open(path + '.s2c.bin', 'rb') as s2c:
            client, server = c2s.read(), s2c.read()
        self.bytes, self.exchanges = client + server, []
        for told in decoded(path):
            self.exchanges.append(Exchange(self.bytes, len(client), *told))
            if self.exchanges[-1].packed:
                break
        self.bytes = self.bytes[:self.exchanges[-1].end]
        self.longest = max(p.len for e in self.exchanges for p in e.packets)

    def word(self, at, n):
        """The word for n of the bytes from a place on, where all of them are held."""
        return f'~{at},{n}' if n > 8 else self.bytes[at:at + n]


class Exchange:
    """A command and its answer: their places among the capture's bytes, and the packets that the decoder lists. Where it lists a packed frame the answer
    ends with that frame, and the packets before it."""

    def __init__(self, held, server, x, frames, packets):
        self.command, self.command_len = x['c2s']
        self.answer, n = server + x['s2c'][0], x['s2c'][1]
        self.packed = any(f['plain_len'] for f in frames)
        if self.packed:
            k = next(k for k, f in enumerate(frames) if f['plain_len'])
            n, frames = frames[k]['at'] + 7 + frames[k]['len'], frames[:k]
        self.end = self.answer + n
        # The answer's chunks one behind the other, and where in the capture each of their bytes stands.
        parts = [(self.answer + f['at'] + 7, f['len']) for f in frames] if x['framed'] else [(self.answer, n)]
        places = [at + i for at, size in parts for i in range(size)]
        chunks = bytes(held[at] for at in places)
        whole = [p for p in packets if sum(p['chunks'][-1][:2]) + 4 <= len(chunks)]
        assert self.packed or len(whole) == len(packets)
        self.packets = [Packet(held, places, chunks, p['chunks']) for p in whole]


class Packet:
    """A packet's bytes, and their place in the capture, if they stand there side by side."""

    def __init__(self, held, places, chunks, listed):
        for at, n, no in listed:
            assert chunks[at:at + 4] == struct.pack('<I', n | no << 24)
        self.bytes = b''.join(chunks[at + 4:at + 4 + n] for at, n, _ in listed)
        self.len = len(self.bytes)
        at = places[listed[0][0] + 4] if self.len else 0
        self.place = at if held[at:at + self.len] == self.bytes else None

    def words(self, capture):
        """The packet in an answer: its length and, if it has any, its bytes."""
        if self.len == 0:
            return [0]
        return [self.len, self.bytes if self.place is None else capture.word(self.place, self.len)]
