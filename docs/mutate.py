#!/usr/bin/env python3
"""Small wrong edits of each room's code, made by this script, and the prover's word on them.

  docs/mutate.py [--seed N] [--each N] [--jobs N] [--out FILE] [ROOM ...]

An edit changes one token of a function's body: a comparison, an operator, a constant, true and false. With --each a random sample of so many is tried of
each room, else all. docs/edits.py says how. An edit that survives is either one that changes nothing a caller can see, or a hole in a contract;
docs/PERFORMANCE.md says which. By hand, not in the gate.
"""
import argparse, collections, os, random, re, sys

import edits

# What a token becomes. Each keeps the type, so that the compiler takes the edit for a program.
SWAPS = [
    (r'(?<=[\w\])]) < (?=[\w(])', ' <= '),
    (r'(?<=[\w\])]) <= (?=[\w(])', ' < '),
    (r'(?<=[\w\])]) == (?=[\w(])', ' != '),
    (r'(?<=[\w\])]) != (?=[\w(])', ' == '),
    (r'(?<=[\w\])]) \+ (?=[\w(])', ' - '),
    (r'(?<=[\w\])]) - (?=[\w(])', ' + '),
    (r'(?<=[\w\])]) \* (?=[\w(])', ' + '),
    (r'(?<=[\w\])]) & (?=[\w(])', ' | '),
    (r'\btrue\b', 'false'),
    (r'\bfalse\b', 'true'),
]
NUMBER = re.compile(r'(?<![\w.\'"])(0x[0-9A-Fa-f_]+|\d[\d_]*)(?![\w.\'"])')


def bumped(token):
    n = int(token.replace('_', ''), 0) + 1
    return hex(n) if token.startswith('0x') else str(n)


def changed(line):
    """Every edit of a line."""
    for pattern, new in SWAPS:
        for m in re.finditer(pattern, line):
            yield line[:m.start()] + new + line[m.end():]
    for m in NUMBER.finditer(line):
        yield line[:m.start()] + bumped(m.group()) + line[m.end():]


def edits_of(path):
    """Every edit of the functions' bodies in a file, as (old, new): no clause, no comment, no declaration. A line that is there more than once is told by
    those above it."""
    text = path.read_text()
    lines = text.split('\n')
    inside = False
    for number, line in enumerate(lines):
        if line in '{}':
            inside = line == '{'
        elif inside and not line.strip().startswith('//'):
            first = number
            while text.count('\n'.join(lines[first:number + 1]) + '\n') != 1:
                first -= 1
            above = ''.join(l + '\n' for l in lines[first:number])
            for new in changed(line):
                yield above + line + '\n', above + new + '\n'


def sample(room, seed, most):
    crate = edits.ROOT / 'crates' / room
    files = [str(path.relative_to(crate)) for path in sorted((crate / 'src').rglob('*.rt'))]
    found = [edits.Try(room, file, [(file, old, new)]) for file in files for old, new in edits_of(crate / file)]
    if most is None:
        return found, len(found)
    return random.Random(f'{seed} {room}').sample(found, min(most, len(found))), len(found)


def main():
    args = argparse.ArgumentParser(description=__doc__, formatter_class=argparse.RawDescriptionHelpFormatter)
    args.add_argument('--seed', type=int, default=1)
    args.add_argument('--each', type=int)
    args.add_argument('--jobs', type=int, default=os.cpu_count())
    args.add_argument('--out', help='the report, as a file')
    args.add_argument('room', nargs='*')
    args = args.parse_args()
    out = open(args.out, 'w') if args.out else sys.stdout
    for room in args.room or edits.rooms():
        chosen, of = sample(room, args.seed, args.each)
        if not chosen:
            continue
        count, shown = collections.Counter(), []
        for (_, file, [(_, old, new)]), word in edits.words(chosen, args.jobs):
            count[word.said] += 1
            if word.said == edits.SURVIVED:
                shown.append(f'    {file}: `{old.splitlines()[-1].strip()}` -> `{new.splitlines()[-1].strip()}`')
        print(f'{room}: {len(chosen)} of {of}: {count[edits.REFUSED]} refused at a fact, {count[edits.SHAPE]} at the shape, {count[edits.BAD]} no programs, '
              f'{count[edits.SURVIVED]} survive', *shown, sep='\n', file=out, flush=True)


if __name__ == '__main__':
    main()
