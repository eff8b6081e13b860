#!/usr/bin/env python3
"""Holds docs/STATEMENTS.md to the repository: every public function of every room has a row, and every name on the page exists.

A name is what stands in backticks and looks like one: a function, a definition or theorem, a must-fail edit, a file. Run from anywhere; exit status 1 and
a line for each fault."""
import pathlib, re, sys

root = pathlib.Path(__file__).resolve().parent.parent
page = (root / 'docs/STATEMENTS.md').read_text()
crates = root / 'crates'
rooms = sorted(c for c in crates.iterdir() if (c / 'src/lib.rt').exists())
faults = []

# ---- every public function has a row: its name in backticks in a line of a table, or in the list of helpers
listed = [l for l in page.splitlines() if l.startswith('|')] + page.split('## Helpers with a `requires`')[1].split('##')[0].splitlines()
in_rows = set(re.findall(r'[a-z_0-9]+', ' '.join(w for l in listed for w in re.findall(r'`([^`]*)`', l))))
functions = 0
for room in rooms:
    for file in sorted((room / 'src').glob('*.rt')):
        for name in re.findall(r'^\s*pub (?:extern "C" )?fn (\w+)', file.read_text(), re.M):
            functions += 1
            if name not in in_rows:
                faults.append(f'{room.name}::{name} ({file.name}) has no row')

# ---- every name on the page exists
words = set()
for file in list(crates.rglob('*.rt')) + list(crates.rglob('*.antt')):
    words.update(re.findall(r"[\w·′'-]+", file.read_text()))
    words.update(w for part in re.findall(r"[\w·′'-]+", file.read_text()) for w in part.split('·'))
words.update(e.stem for e in crates.glob('*/must-fail/*.edit'))
words.update(c.name for c in crates.iterdir())
words.update(re.findall(r'[a-z_]+', (root / 'host/include/mishkeldur.h').read_text()))
names = 0
for quoted in re.findall(r'`([^`\n]+)`', page):
    for token in re.split(r'[\s,(){}]+', quoted):
        token = token.strip('.:')
        if not token or not re.match(r"^[A-Za-z][\w·′'/.:-]*$", token):
            continue
        names += 1
        if '/' in token:
            place = crates / token if not token.startswith(('host/', 'docs/')) else root / token
            if not place.exists() and not list(crates.glob('*/' + token)):
                faults.append(f'no file {token}')
        elif not all(part in words for part in re.split(r'::|\.', token) if part and part not in ('antt', 'rt')):
            faults.append(f'no such name: {token}')

for fault in sorted(set(faults)):
    print('statements:', fault)
if faults:
    sys.exit(1)
print(f'statements: {functions} public functions have their rows, {names} names exist')
