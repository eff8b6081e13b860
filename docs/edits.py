#!/usr/bin/env python3
"""The must-fail edits of the rooms: the quick loop of whoever works on a room. It is no verdict: that is `rt ci`'s, which tries each edit itself.

  docs/edits.py [--jobs N] [ROOM ...]

An edit is crates/ROOM/must-fail/NAME.edit: a wrong program that keeps the code's shape. Each must be refused, and at a fact: one that is refused
because the proof no longer fits the code's shape shows nothing, and fails here.

Each edit is tried by `rt check` in a copy of the repository, over what earlier checks of the room kept, so that only what the edit reaches is checked
again. An edit of one function counts as refused if a fact of its own proof is. Last line: 'N refused'; exit status 1 if an edit was not.
"""
import argparse, collections, concurrent.futures, os, pathlib, queue, re, shutil, subprocess, sys, tempfile, time

ROOT = pathlib.Path(__file__).resolve().parent.parent
Try = collections.namedtuple('Try', 'room name pairs')
Word = collections.namedtuple('Word', 'said place why seconds')
REFUSED, SURVIVED, SHAPE, BAD = 'refused', 'NOT REFUSED', 'REFUSED AT THE SHAPE', 'BAD EDIT'
# What a check says of a proof that no longer fits the code, and of a text that is no program.
AT_SHAPE = re.compile(r'that can be named|has no field|is not in scope|can be named here|no goal of that name')
NO_PROGRAM = re.compile(r'^src/\S+: error\[', re.M)


def rooms():
    """The rooms of crates.txt in order: what stands above its programs."""
    above = (ROOT / 'crates.txt').read_text().split('# The programs')[0]
    return re.findall(r'^(\w+)(?: staticlib)?:', above, re.M)


def parsed(path):
    """The replacements of an edit, as (file, old, new): a 'file:' line holds for the pairs behind it."""
    file, old, pairs = None, None, []
    for line in path.read_text().splitlines():
        if line.startswith('file: '):
            file = line[6:]
        elif line.startswith('old: '):
            old = line[5:]
        elif line.startswith('new:'):
            pairs.append((file, old, line[4:].removeprefix(' ')))
    return pairs


def proof_of(a_try):
    """Where the proof of the one function stands that an edit changes, as proofs/inner/has; None if it changes another thing or more."""
    places = set()
    for file, old, _ in a_try.pairs:
        text = (ROOT / 'crates' / a_try.room / file).read_text() if file.startswith('src/') else ''
        # The line that changes is the last one: those above it are there to tell it from others.
        line = text.find(old) + old.rstrip('\n').rfind('\n') + 1
        functions = re.findall(r'^(?:pub )?(?:pub\(crate\) )?(?:extern "C" )?fn (\w+)', text[:line], re.M)
        module = file.removeprefix('src/').removesuffix('.rt')
        places.add('/'.join(['proofs'] + ([] if module == 'lib' else [module]) + functions[-1:]) if functions else None)
    return places.pop() if len(places) == 1 else None


def lines_of(a_try):
    """The first and the last line of the function that an edit's first pair changes."""
    if not a_try.pairs or not a_try.pairs[0][0].startswith('src/'):
        return 0, 0
    file, old, _ = a_try.pairs[0]
    text = (ROOT / 'crates' / a_try.room / file).read_text()
    starts = [m.start() for m in re.finditer(r'^(?:pub )?(?:pub\(crate\) )?(?:extern "C" )?fn ', text[:text.find(old) + len(old)], re.M)]
    first = starts[-1] if starts else 0
    return text[:first].count('\n') + 1, text[:text.find('\n}', first) + 2].count('\n') + 1


class Bench:
    """A copy of the repository in which one room at a time is edited and checked."""

    def __init__(self):
        self.home = pathlib.Path(tempfile.mkdtemp())
        shutil.copytree(ROOT / 'crates', self.home / 'crates', ignore=shutil.ignore_patterns('must-fail', 'data'))
        shutil.copy(ROOT / 'crates.txt', self.home)

    def close(self):
        shutil.rmtree(self.home, ignore_errors=True)

    def word(self, a_try):
        """The prover's word on an edit; of a try with no pairs, on the room as it is."""
        began = time.time()
        crate = self.home / 'crates' / a_try.room
        before = {file: (crate / file).read_text() for file, _, _ in a_try.pairs}
        try:
            for file, old, new in a_try.pairs:
                text = (crate / file).read_text()
                if text.count(old) != 1:
                    return Word(BAD, file, f'{old!r} is there {text.count(old)} times', 0)
                (crate / file).write_text(text.replace(old, new))
            run = subprocess.run(['rt', 'check'], cwd=crate, stdout=subprocess.PIPE, stderr=subprocess.STDOUT, text=True, errors='replace')
        finally:
            for file, text in before.items():
                (crate / file).write_text(text)
        seconds = time.time() - began
        said = run.stdout
        # Rooms below that are checked on the way have such a line too: the room's own is the last.
        if run.returncode == 0 and re.findall(r'^logic=(\S+)', said, re.M)[-1:] == ['proved']:
            return Word(SURVIVED, '', '', seconds)
        if NO_PROGRAM.search(said):
            return Word(BAD, '', NO_PROGRAM.search(said).group(), seconds)
        errors = [e for e in re.findall(r'^\./(\S+): error: (.*)$', said, re.M) if 'rejected' not in e[1] and 'not admitted' not in e[1]]
        own = proof_of(a_try)
        facts = [e for e in errors if not AT_SHAPE.search(e[1]) and (own is None or e[0].startswith(own + '/'))]
        # A goal that no file answers is named by a note at its place in the source.
        first, last = lines_of(a_try)
        unproved = [n for n in re.findall(r'^note: src/\S+?:(\d+):\d+: (it is not proved that .*)$', said, re.M) if own is None or first <= int(n[0]) <= last]
        if facts:
            return Word(REFUSED, *facts[0], seconds)
        if unproved:
            return Word(REFUSED, f'{own or "line"}:{unproved[0][0]}', unproved[0][1], seconds)
        return Word(SHAPE, *(errors[0] if errors else ('', said[-400:])), seconds)


def words(tries, jobs):
    """Each try with the prover's word on it, in order."""
    benches = queue.Queue()
    made = [Bench() for _ in range(jobs)]
    for bench in made:
        benches.put(bench)

    def one(a_try):
        bench = benches.get()
        try:
            return bench.word(a_try)
        finally:
            benches.put(bench)

    try:
        with concurrent.futures.ThreadPoolExecutor(jobs) as pool:
            yield from zip(tries, pool.map(one, tries))
    finally:
        for bench in made:
            bench.close()


def main():
    args = argparse.ArgumentParser(description=__doc__, formatter_class=argparse.RawDescriptionHelpFormatter)
    args.add_argument('--jobs', type=int, default=os.cpu_count())
    args.add_argument('room', nargs='*')
    args = args.parse_args()
    tries = []
    for room in args.room or reversed(rooms()):
        edits = sorted((ROOT / f'crates/{room}/must-fail').glob('*.edit'))
        if edits:
            tries += [Try(room, None, [])] + [Try(room, edit.stem, parsed(edit)) for edit in edits]
    refused, failed = 0, []
    for (room, name, pairs), word in words(tries, args.jobs):
        if name is None:
            if word.said != SURVIVED:
                failed.append(room)
                print(f'edits: {room} as it is: NOT PROVED here: {word.place} {word.why}', flush=True)
        elif word.said == REFUSED and pairs:
            refused += 1
            print(f'edits: {room}/{name}: refused, as it must be ({word.place}; {word.seconds:.1f} s)', flush=True)
        else:
            failed.append(f'{room}/{name}')
            print(f'edits: {room}/{name}: {word.said if pairs else BAD} {word.place} {word.why[:400]}', flush=True)
    if failed:
        print('edits: FAILED:', *failed)
        sys.exit(1)
    print(f'{refused} refused')


if __name__ == '__main__':
    main()
