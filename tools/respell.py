#!/usr/bin/env python3
"""Brings the names of this repository's own definitions and lemmas to today's spelling: words in snake case, types in camel case.

  tools/respell.py            in a tree that the toolchain's port.py has just turned: writes the files
  tools/respell.py --table    prints the table of old and new names, and what falls together

It was run once, right after port.py. What it reads as a name is what an .antt file of specs/ or of proofs/ itself declares. Types and facts keep their capitals,
and the functions of src/, exported names, strings, inputs and outputs keep their names. A dash stays where it joins the names of two definitions, and is `_` otherwise;
a lemma that would then have a definition's name gets `_lem`.
"""
import collections, pathlib, re, sys

ROOT = pathlib.Path(__file__).resolve().parent.parent
WORDS = {'length', 'append', 'take', 'drop', 'get_or', 'replicate', 'map', 'reverse', 'set', 'patch'}
NAME = re.compile(r"[^\s(){}\[\],;.:\"`|]+")
DECLARED = re.compile(r"\s*(?:abbrev |unfoldable )?(?:pub )?(?:ruleset )?([^\s():{}]+)(?: \{[^}]*\})? :(?: |$)")


def lemma_files():
    for folder in ('specs', 'proofs'):
        yield from sorted(ROOT.glob(f'crates/*/{folder}/*.antt'))


def declared():
    names, words = set(), set(WORDS)
    for path in lemma_files():
        for line in path.read_text().splitlines():
            if line.lstrip().startswith('--') or re.match(r'(?:abbrev |unfoldable )?(?:pub )?(data|record) ', line):
                continue
            found = DECLARED.match(line)
            if found and re.match(r'[a-z]', found.group(1)):
                names.add(found.group(1))
                if re.match(r'(abbrev|unfoldable) ', line) and '-' not in found.group(1):
                    words.add(snake(found.group(1)))
    return names, words


def foreign():
    """What any file brings in from a library: such a name is that library's everywhere."""
    ours = {path.name for path in (ROOT / 'crates').iterdir()}
    names = set()
    for path in list(ROOT.glob('crates/**/*.antt')) + list(ROOT.glob('crates/**/*.rt')):
        for module, listed in re.findall(r'\buse ([\w.·-]+)\.\{([^}]*)\}', path.read_text()):
            parts = module.split('.')
            if parts[0] != 'Rattle' or parts[1] not in ours:
                names.update(n.strip() for n in listed.split(','))
    return names


def snake(part):
    return re.sub(r'(?<=[a-z0-9])([A-Z])', lambda m: '_' + m.group(1).lower(), part)


def new_name(name, words):
    parts = [snake(p) for p in name.split('-')]
    if '' in parts or not all(re.fullmatch(r"[A-Za-z0-9_'ℕ]+", p) for p in parts):
        return name
    made, left = parts[0], parts[0]
    for part in parts[1:]:
        made += ('-' if part in words and left in words else '_') + part
        left = part
    return made


def table():
    names, words = declared()
    names -= foreign()
    turned = {n: new_name(n, words) for n in names}
    return {n: m for n, m in turned.items() if n != m}, names


def together(turned, names):
    by_new = collections.defaultdict(set)
    for n in names:
        by_new[turned.get(n, n)].add(n)
    return {m: ns for m, ns in by_new.items() if len(ns) > 1}


def apart(turned, same):
    """Names that would fall together: a definition has the name, and a lemma (written with a dash, or snake case already) gets `_lem` behind it."""
    turned = dict(turned)
    for new, olds in same.items():
        first = min(olds, key=lambda n: (not re.search('[A-Z]', n), n != new, n))
        for old in olds - {first}:
            turned[old] = new + '_lem'
    assert len(set(turned.values())) == len(turned)
    return turned


def respelled(text, turned):
    return NAME.sub(lambda m: turned.get(m.group(0), m.group(0)), text)


def code(text, turned):
    """A .rt file: all but its strings."""
    return ''.join(part if part.startswith('"') else respelled(part, turned) for part in re.split(r'("(?:[^"\\\n]|\\.)*")', text))


def page(text, turned):
    """A page: what stands between backquotes."""
    return re.sub(r'`[^`\n]*`', lambda m: respelled(m.group(0), turned), text)


def main():
    turned, names = table()
    same = together(turned, names)
    if '--table' in sys.argv:
        for old, new in sorted(turned.items()):
            print(f'{old}\t{new}')
        for new, olds in sorted(same.items()):
            print('together:', new, *sorted(olds))
        return
    turned = apart(turned, same)
    ways = [('crates/**/*.antt', respelled), ('crates/**/*.rt', code), ('crates/*/must-fail/**/*.edit', respelled), ('docs/**/*.md', page), ('README.md', page)]
    changed = 0
    for pattern, way in ways:
        for path in sorted(ROOT.glob(pattern)):
            if 'out' in path.relative_to(ROOT).parts or path.name == 'PORT.md':
                continue
            text = path.read_text()
            new = way(text, turned)
            if new != text:
                path.write_text(new)
                changed += 1
    print(f'respell: {len(turned)} names, {changed} files')


if __name__ == '__main__':
    main()
