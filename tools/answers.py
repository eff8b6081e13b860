#!/usr/bin/env python3
"""Turns a function's Proof.antt, which walked its code by hand, into Invariants.antt and Answers.antt.

  tools/answers.py NAMES.json OLD_PROOFS NEW_PROOFS [FUNCTION ...]

NAMES.json is what `rt check --generated FOLDER --old-names` writes of the crate, OLD_PROOFS a folder proofs/ with the old files, NEW_PROOFS the crate's own.
A goal that was answered by `search rules` alone is left to the check. What cannot be turned is printed, and stands in the new file as it was.
"""
import json, pathlib, re, sys


def norm(s):
    return s.replace('_', '-').replace("'", '-')


def blocks(text):
    """The file's use lines, and its declarations: each from its comments to its last indented line."""
    lines = text.splitlines()
    uses, rest, i = [], [], 0
    while i < len(lines):
        if lines[i].startswith('use '):
            uses.append(lines[i])
        else:
            rest.append(lines[i])
        i += 1
    out, cur = [], []
    for line in rest:
        if not line.strip():
            if cur:
                out.append(cur)
                cur = []
        else:
            cur.append(line)
    if cur:
        out.append(cur)
    return uses, out


def mutable_slices(crates):
    """For each function of the sources, its parameters that are mutable slices, in order."""
    found = {}
    for path in crates.glob('*/src/*.rt'):
        for m in re.finditer(r'fn (\w+)\(([^{]*?)\)\s*(?:->|requires|ensures|\{)', path.read_text(), re.S):
            found[f'{path.parent.parent.name}::{m.group(1)}'] = (re.findall(r'(\w+): &mut \[', m.group(2)), re.findall(r'(\w+): &mut ', m.group(2)))
    return found


class Names:
    def __init__(self, entry, slices):
        self.slices = slices
        self.needs, self.at = {}, {}
        for (old, new), (place_old, place_new) in zip(entry['needs'], entry['asked_at']):
            self.needs.setdefault(norm(old), new)
            self.at.setdefault(new, place_old)
        self.places, self.parents, self.own, self.callees = {}, {}, {}, {}
        for place, new, arms in zip(entry['places'], entry['places_by_name'], entry['arms']):
            self.places[norm(place[0])] = new
            self.parents[place[0]] = place[1]
            self.own[place[0]] = (place[2], arms)
            if place[3]:
                self.callees[place[2][1]] = '::'.join([place[3].split('::')[0], place[3].split('::')[-1]])

    def chain(self, place):
        """The steps above a place, the nearest first: old to new names, and what an arm's fields were."""
        steps, arms = {}, {}
        while place is not None and place in self.own:
            (old, fresh), arm = self.own[place]
            if old:
                steps.setdefault(norm(old), fresh)
            if arm:
                for field, root, path in arm[2]:
                    arms.setdefault((norm(root), tuple(path)), f'{arm[0]}.{field}')
            place = self.parents[place]
        return steps, arms

    def all_steps(self):
        steps, arms = {}, {}
        for place in self.own:
            s, a = self.chain(place)
            steps, arms = {**s, **steps}, {**a, **arms}
        return steps, arms

    def loops_of(self, entry):
        self.loops = {}
        for ((old, new), names), changed in zip(entry['loops'], entry['changed']):
            self.loops[norm(old)] = (new, names, changed)

        return self

    def need(self, written):
        w = norm(written)
        for cand in (w, re.sub(r'^overflow-', '', w), re.sub(r'^slice-bounds-', '', w)):
            if cand in self.needs:
                return self.needs[cand]
        return None


def source_words(crates):
    """The sources' names that have an underscore, by the form that an older file wrote with a dash."""
    words = {}
    for path in crates.glob('*/src/*.rt'):
        for w in re.findall(r'\b[a-z]\w*_\w+\b', path.read_text()):
            words[w.replace('_', '-')] = w
    return words


def turn(text, names, path, said, words, crate):
    uses, decls = blocks(text)
    keep = []
    for u in uses:
        if re.search(r'\.(Statement\.\{|Tie as|Reads as|Lts as|Signature|signature)', u):
            continue
        keep.append(u)
    invariants, answers = [], []

    def body_of(lines, roots, steps, arms):
        t = '\n'.join(lines)
        t = re.sub(r"\.before(?![\w'-])", '', t)
        while True:
            more = [m.group(1) for m in re.finditer(r"let ([\w'-]+) = (?:%s) in" % '|'.join(map(re.escape, roots)), t) if m.group(1) not in roots]
            if not more:
                break
            roots = roots + more

        def lent(rest, callee):
            # What a call gave back of the k-th lent thing was .new.1.1.0 and the like: it goes by the parameter's name now.
            if len(rest) > 1 and rest[0] in ('auto', 'new'):
                k = 1
                while k < len(rest) and rest[k] == '1':
                    k += 1
                found = names.slices.get(callee, ([], []))[rest[0] == 'new']
                if k < len(rest) and rest[k] == '0' and k - 1 < len(found):
                    return [rest[0], found[k - 1]] + rest[k + 1:]
            return rest

        def step(m):
            root, rest = m.group(1), m.group(2)
            parts = rest[1:].split('.')
            for n in range(len(parts), 0, -1):
                arm = arms.get((norm(parts[0]), tuple(parts[1:n])))
                if arm and n > 1:
                    return '.'.join([root, arm] + parts[n:])
            own = arms.get((norm(parts[0]), ()))
            if own and norm(parts[0]) == 'match' and len(parts) > 1:
                return '.'.join([root, own] + parts[1:])
            new = steps.get(norm(parts[0])) or steps.get(norm(parts[0].removesuffix('_lem')))
            if new:
                parts[0] = new
                parts[1:] = lent(parts[1:], names.callees.get(new, own_name))
                if re.match(r'wrapping_(add|sub|mul)_', new) and parts[1:2] == ['ensures'] and len(parts) == 2:
                    parts.append('value')
            elif parts[0] in ('well-formed', 'known-told'):
                parts[0] = parts[0].replace('-', '_')
            return '.'.join([root] + [words.get(p, p) for p in parts])
        t = re.sub(r"(?<![\w'.-])(%s)((?:\.[A-Za-z0-9][\w'-]*)+)" % '|'.join(map(re.escape, roots)), step, t)
        for m in re.finditer(r"let ([\w'-]+) = (?:%s)\.([\w'-]+) in" % '|'.join(map(re.escape, roots)), t):
            if m.group(2) in names.callees:
                t = re.sub(r"(?<![\w'.-])%s((?:\.[A-Za-z0-9][\w'-]*)+)" % re.escape(m.group(1)), lambda k: '.'.join([m.group(1)] + lent(k.group(1)[1:].split('.'), names.callees[m.group(2)])), t)
        # An `if` over `!x` says of x itself what it found.
        t = re.sub(r"\bnot-(?:true|false) _ (\(?[\w'-]+(?:\.[\w'-]+)*?\.if-not-([\w'-]+)\.(?:true|false)\b)", lambda m: m.group(1) if any(s == m.group(2) or m.group(2).startswith(s + '-') for s in names.callees) else m.group(0), t)
        t = re.sub(r"(?<![\w'.-])(%s)(?![\w'-])" % '|'.join(map(re.escape, renamed)), lambda m: renamed[m.group(1)], t) if renamed else t
        # What is c itself needs no other name.
        for r in roots:
            for q in roots:
                t = re.sub(r"let %s = %s in\s*" % (re.escape(r), re.escape(q)), '' if r == q else lambda m: m.group(0), t)
        t = re.sub(r"(?<=\.)([a-z][\w'-]*-[\w'-]*)", lambda m: words.get(m.group(1), m.group(1)) if m.group(1) in words else m.group(1), t)
        t = re.sub(r"\btie\.((?:After|Then|Else|In|At)-?[\w-]*|Start)((?: invariant-[\w-]+| decreases-[\w-]+)*)", lambda m: place(m), t)
        t = re.sub(r"\blts\.((?:After|Then|Else|In|At)-?[\w-]*|Start)((?: invariant-[\w-]+| decreases-[\w-]+)*)", lambda m: place(m), t)
        return t

    def place(m):
        new = names.places.get(norm(m.group(1)))
        if new is None:
            said.append(f'{path}: place {m.group(1)}')
            return m.group(0)
        return 'goal.' + new

    own_name = f'{crate}::' + path.split('.')[-1]
    renamed = {}
    for d in decls:
        m = re.match(r"(?:pub )?([\w'-]+) : tie\.Need-([\w'-]+)", next((l for l in d if not l.startswith('--')), ''))
        if m and names.need(m.group(2)) and names.need(m.group(2)) != m.group(1):
            renamed[m.group(1)] = names.need(m.group(2))
    for d in decls:
        comments = [l for l in d if l.startswith('--')]
        code = [l for l in d if not l.startswith('--')]
        if not code:
            continue
        head = code[0]
        if re.match(r'pub [\w-]+ : \{M : Type 1\} → statement M', head) or re.search(r'→ statement M|: statement M', ' '.join(code[:2])):
            continue
        m = re.match(r"(?:abbrev )?(?:pub )?([\w'-]+) : tie\.(invariant|decreases)-([\w'-]+)$", head)
        if m:
            old = names.loops.get(norm(m.group(3))) or names.loops.get(norm(m.group(3)).removeprefix('invariant-'))
            eq = '\n'.join(l for l in code[1:])
            e = re.match(r"%s\s*(.*?)\s*=\s" % re.escape(m.group(1)), eq, re.S)
            if not e:
                said.append(f'{path}: {m.group(1)} has no equation that can be read')
                invariants.append('\n'.join(d))
                continue
            args = e.group(1).split()
            body = eq[e.end():]
            if old is None:
                said.append(f'{path}: {m.group(2)}-{m.group(3)} belongs to no loop: {list(names.loops)}; {args}')
                invariants.append('\n'.join(comments + [f'abbrev pub {m.group(2)}-{m.group(3)} : goal.{m.group(2)}-{m.group(3)}', f'{m.group(2)}-{m.group(3)} l = {body}']))
                continue
            body = body.strip()
            new, vars_, changed = old
            subst = {}
            late = [v for v, c in zip(vars_, changed) if c]
            if len(args) != len(vars_) + len(late):
                said.append(f'{path}: {m.group(1)} takes {args}, and the loop has {vars_} {changed}')
            for a, v, c in zip(args, vars_, changed):
                subst[a] = f'l.initial.{v}' if c else f'l.{v}'
            for a, v in zip(args[len(vars_):], late):
                subst[a] = f'l.{v}'
            pat = re.compile(r"(?<![\w'.₀₁₂-])(%s)(?![\w'₀₁₂-])" % '|'.join(sorted(map(re.escape, subst), key=len, reverse=True))) if subst else None
            if pat:
                body = pat.sub(lambda k: subst[k.group(1)], body)
            name = f'{m.group(2)}-{new}'
            unf = [l for l in code[1:2] if l.startswith('unfolding')]
            invariants.append('\n'.join(comments + [f'abbrev pub {name} : goal.{name}', f'{name} l = {body}'.rstrip()]))
            continue
        m = re.match(r"(?:pub )?([\w'-]+) : tie\.Need-([\w'-]+)((?: [\w'-]+)*)$", head)
        if m:
            new = names.need(m.group(2))
            if new is None:
                if any('search rules' in l for l in code[1:]) and len(code) == 2:
                    continue
                said.append(f'{path}: {m.group(2)} is no goal now')
                continue
            rest = code[1:]
            unf = [l for l in rest if l.startswith('unfolding')]
            rest = [l for l in rest if not l.startswith('unfolding')]
            eq = '\n'.join(rest)
            e = re.match(r"%s((?: [\w'₀κ]+)*)\s*=\s" % re.escape(m.group(1)), eq)
            if not e:
                said.append(f'{path}: {m.group(1)} has no equation that can be read')
                answers.append('\n'.join('-- ' + l for l in d))
                continue
            args = [a for a in e.group(1).split() if a != 'κs']
            body = body_of([eq[e.end():]], args[-1:] or ['c'], *names.chain(names.at[new]))
            if body.strip() == 'search rules' and not unf:
                continue
            first = f"{new} {' '.join(args)} ="
            answers.append('\n'.join(comments + [f'pub {new} : goal.{new}'] + unf + [first + ('\n    ' if '\n' in body else ' ') + body.strip()]))
            continue
        if 'tie.spec' in '\n'.join(code):
            continue
        roots = re.findall(r"\(([\w'-]+) : (?:tie|lts)\.", '\n'.join(code)) or ['c']
        at = [p for p in names.own if any(norm(p) == norm(q) for q in re.findall(r'(?:tie|lts)\.([\w-]+)', '\n'.join(code)))]
        answers.append(body_of(d, roots, *(names.chain(at[0]) if at else names.all_steps())))
    return keep, invariants, answers


def main():
    names_json, old, new = sys.argv[1:4]
    only = sys.argv[4:]
    table = json.load(open(names_json))
    old, new = pathlib.Path(old), pathlib.Path(new)
    crate = new.resolve().parent.name
    slices = mutable_slices(new.resolve().parent.parent)
    words = source_words(new.resolve().parent.parent)
    by = {}
    for key, entry in table.items():
        k = re.sub(rf'^Rattle-{crate}-proofs\.', '', key)
        k = re.sub(r'\.Lts$', '', k)
        by[norm(k)] = (k, entry)
    said = []
    for proof in sorted(old.rglob('Proof.antt')):
        folder = proof.parent.relative_to(old)
        path = '.'.join(folder.parts)
        if only and path not in only and folder.name not in only:
            continue
        found = by.get(norm(path))
        if not found:
            said.append(f'{path}: not in {names_json}')
            continue
        key, entry = found
        uses, invariants, answers = turn(proof.read_text(), Names(entry, slices).loops_of(entry), path, said, words, crate)
        target = new / folder
        target.mkdir(parents=True, exist_ok=True)
        if (target / 'Proof.antt').exists():
            (target / 'Proof.antt').unlink()
        for kind, module, decls in (('Invariants', 'Given', invariants), ('Answers', 'Goals', answers)):
            if not decls:
                continue
            used = [u for u in uses]
            text = '\n'.join(used + [f'use Rattle.{crate}.proofs.{path}.{module} as goal']) + '\n\n' + '\n\n'.join(decls) + '\n'
            (target / f'{kind}.antt').write_text(text)
        if not any(target.iterdir()):
            target.rmdir()
    for s in said:
        print(s)


if __name__ == '__main__':
    main()
