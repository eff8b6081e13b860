"""The lists of vectors (docs/VECTORS.md) as the scripts beside this file write them.

    made = List('what it is, whose word the answers are, and which script wrote it')
    made.hold(capture)                                          a line `bytes ..`
    made.case('read_text', [s, at], [0, kind, None, None, next])
    made.case('put_uint', [room(9), 0, v], [0, 8, written])
    made.write('crates/replay/data/values.txt')

Words are numbers, bytes, None for a number that the call leaves, and text for the words that go to the list as they stand (`_9`, `.9`, `@1:05`, `^41`).
More than eight bytes that stand in those held are written as `~3,9`."""
import os
import textwrap

MOST_FILE, MOST_NUMBERS, MOST_BYTES, MOST_ROOM = 262144, 8400, 131072, 131072
# A part of a longer list is shorter than a file may be, so that a case more can be added to it by hand.
PART = 240000


def room(n):
    """A buffer of n bytes with the mark in each."""
    return f'_{n}'


def again(n):
    """The first n bytes of the buffer of the lines before, as they were left."""
    return f'.{n}'


class List:
    def __init__(self, about):
        self.head = [f'# {line}' for line in textwrap.wrap(about, 160, break_on_hyphens=False)]
        self.lines, self.starts, self.held, self.cases, self.seen = [], [0], b'', {}, {}

    # ---- lines that are no cases

    def note(self, text):
        self.lines.append(f'# {text}')

    def hold(self, held):
        self.held = bytes(held)
        self.special('bytes', self.held)

    def state(self, state):
        self.special('state', state)

    def staging(self, staging):
        self.special('staging', staging)

    def special(self, name, given):
        assert len(given) <= MOST_ROOM, name
        self.lines.append(f'{name} x{bytes(given).hex()}')

    def part(self):
        """What follows needs nothing of what stands before: where the list is written in parts, one may begin here."""
        self.starts.append(len(self.lines))
        self.held = b''

    # ---- cases

    def case(self, name, asked, answer):
        answer = list(answer)
        while answer and answer[-1] is None:
            answer.pop()
        words = [name, *map(self.word, asked), '=', *map(self.word, answer)]
        self.fits(words)
        self.lines.append(' '.join(words))
        self.cases[name] = self.cases.get(name, 0) + 1

    def once(self, name, asked, answer):
        """The same for a call that neither needs nor leaves anything: a second time it is left out."""
        if self.new(name, asked, answer):
            self.case(name, asked, answer)

    def put(self, name, asked, written):
        """A writer behind a byte that must stay: into one byte too few, then into just enough. A second time it is left out."""
        if not self.new(name, ('put', *asked), written):
            return
        front = b'\x07'
        n = 1 + len(written)
        self.case('put_lenenc_int', [room(n), 0, 7], [0, 1, front])
        if written:
            self.case(name, [again(n - 1), 1, *asked], [6, front])
        self.case(name, [again(n), 1, *asked], [0, n, front + written])

    def new(self, name, asked, answer):
        """Whether this was not asked before; if it was, the answer must be the same."""
        key = (name, *asked)
        if key in self.seen:
            assert self.seen[key] == answer, key
            return False
        self.seen[key] = answer
        return True

    def word(self, w):
        if w is None:
            return '-'
        if isinstance(w, int):
            assert -2**63 <= w < 2**64, w
            return str(int(w))
        if isinstance(w, str):
            return w
        w = bytes(w)
        at = self.held.find(w) if len(w) > 8 else -1
        return f'x{w.hex()}' if at < 0 else f'~{at},{len(w)}'

    def fits(self, words):
        """The limits of a line."""
        middle = words.index('=')
        for side in (words[1:middle], words[middle + 1:]):
            assert sum(w[0] in '-0123456789' for w in side) <= MOST_NUMBERS, words[0]
        given = sum(len(w) // 2 for w in words[1:] if w[0] == 'x')
        assert len(self.held) + given <= MOST_BYTES, words[0]
        assert all(int(w[1:]) <= MOST_ROOM for w in words[1:] if w[0] in '_.'), words[0]
        assert all(w and ' ' not in w for w in words), words[0]

    # ---- files

    def write(self, path):
        self.file(path, self.lines)
        self.say(os.path.basename(path))

    def write_parts(self, stem):
        """Into STEM-1.txt and so on, as few files as PART allows; those of a longer list that was there go."""
        parts, size = [], 0
        for start, end in zip(self.starts, self.starts[1:] + [len(self.lines)]):
            more = sum(len(line) + 1 for line in self.lines[start:end])
            if not parts or size + more > PART:
                parts.append([])
                size = sum(len(line) + 1 for line in self.head)
            parts[-1] += self.lines[start:end]
            size += more
        for k, lines in enumerate(parts, 1):
            self.file(f'{stem}-{k}.txt', lines)
        stale = len(parts) + 1
        while os.path.exists(f'{stem}-{stale}.txt'):
            os.remove(f'{stem}-{stale}.txt')
            stale += 1
        self.say(f'{os.path.basename(stem)}-1.txt to -{len(parts)}.txt')

    def file(self, path, lines):
        text = '\n'.join(self.head + lines) + '\n'
        assert len(text) <= MOST_FILE, f'{path}: {len(text)} bytes'
        with open(path, 'w', encoding='ascii') as f:
            f.write(text)

    def say(self, name):
        print(f'{name}: {sum(self.cases.values())} cases:', ', '.join(f'{k} {n}' for k, n in sorted(self.cases.items())))
