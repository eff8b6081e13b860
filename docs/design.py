#!/usr/bin/env python3
"""Counts the places of docs/DESIGN-PASS.md in src/ and proofs/.

    docs/design.py [COMMIT] [-v]     the work tree without COMMIT; -v lists the places
"""
import collections, re, subprocess, sys

args = [a for a in sys.argv[1:] if a != '-v']
verbose = '-v' in sys.argv
commit = args[0] if args else None


def git(*a):
    return subprocess.run(['git', *a], capture_output=True, text=True, check=True).stdout


def names():
    if commit:
        return git('ls-tree', '-r', '--name-only', commit, 'crates').split('\n')
    return git('ls-files', '-co', '--exclude-standard', 'crates').split('\n')


def read(path):
    if commit:
        return git('show', f'{commit}:{path}')
    try:
        return open(path).read()
    except FileNotFoundError:
        return ''


files = [f for f in names() if f]
source = {f: read(f) for f in files if re.fullmatch(r'crates/\w+/src/.*\.rt', f)}
answers = {f: read(f) for f in files if re.fullmatch(r'crates/\w+/proofs/.*Answers\.antt', f)}


def count(title, found):
    print(f'{len(found):5}  {title}')
    if verbose:
        for place in found:
            print(f'         {place}')


def code(text):
    return re.sub(r'//[^\n]*', '', text)


def lines(pattern):
    return [f'{f}:{n}: {l.strip()}' for f, t in source.items() for n, l in enumerate(t.split('\n'), 1)
            if re.search(pattern, re.sub(r'//.*', '', l))]


def functions():
    for f, t in source.items():
        for g in re.finditer(r'^( *(?:pub(?:\([a-z]+\))? )?(?:extern "C" )?fn (\w+)[^({]*)\(([^{]*?)\)(?: ->|\s*\n|\s*\{)', code(t), re.M):
            params = [p.strip() for p in re.split(r',(?![^<\[(]*[>\])])', g.group(3)) if p.strip()]
            yield f, g.group(2), params


programs = {f for f in source if f.endswith('main.rt')}

print('1. Results, options, codes')
count('own enums with a variant for a refusal, for nothing or for more', [
    f'{f}: {g.group(1)}' for f, t in source.items()
    for g in re.finditer(r'^(?:pub )?enum (\w+) \{(.*?)^\}', t, re.M | re.S)
    if re.search(r'^ +(Refused|Bad|NeedMore|End|Strict|Over)\b', g.group(2), re.M)])
count('refusals handed on by hand', lines(r'(Refused|Err)\((\w+)\) => (return )?(\w+::)*(Refused|Err)\(\2'))
count('numbers of refusals written out', lines(r'Refusal::\w+ => \d+') + lines(r'\bwhy: (u8|0)\b'))
count('a flag beside what it speaks of, in a struct (right, done, more, ok)', lines(r'^\s+(pub )?(right|done|more|ok|over): bool'))

print('2. Twins')
of = collections.defaultdict(list)
for f, name, params in functions():
    if f in programs and name != 'main':
        of[name].append(f)
count('functions of a program whose name another program has too', [f'{n}: {len(fs)}' for n, fs in sorted(of.items()) for _ in fs if len(fs) > 1])
shape = collections.defaultdict(list)
for f, t in source.items():
    for g in re.finditer(r'^(?:pub )?struct (\w+)(?:<[^>]*>)? \{(.*?)^\}', code(t), re.M | re.S):
        fields = tuple(re.findall(r'(\w+): ([^,\n]+)', g.group(2)))
        shape[tuple(sorted(ty for _, ty in fields))].append(f'{f}: {g.group(1)}')
count('structs of a room whose fields have the types of another\'s', [s for ss in shape.values() for s in ss
      if len([x for x in ss if 'main.rt' not in x]) > 1 and 'main.rt' not in s])

print('3. Loops')
count('while', lines(r'\bwhile\b'))
count('loop', lines(r'\bloop \{'))
count('for, and chains (iter, all, any, sum, fold, position)', lines(r'\bfor \w+|\bfor [(&]|\.(iter|all|any|sum|fold|position)\('))

print('4. Equality, conversion, printing')
count('functions that compare (same_..)', [f'{f}: {n}' for f, n, _ in functions() if re.match(r'same(_|$)', n)])
count('raw prints (io::write_all, io::print_decimal)', lines(r'\bio::(write_all|print_decimal)\('))
count('slices compared by a call (check::same)', lines(r'check::same\('))

print('5. Parameters')
count('functions with six parameters or more', [f'{f}: {n} {len(p)}' for f, n, p in functions() if len(p) >= 6])

print('6. Buffers and arrays')
count('arrays made by a program ([x; n])', [p for p in lines(r'= \[[^;\]]+; [^\]]+\]') if 'main.rt' in p])
count('functions of programs that take three arrays or more', [f'{f}: {n}' for f, n, p in functions() if f in programs and sum('[' in x for x in p) >= 3])

print('7. Switches')
count('functions with a bool parameter', [f'{f}: {n}' for f, n, p in functions() if any(re.search(r': bool$', x) for x in p)])

print('8. Proofs')
count('files of answers', sorted(answers))
print(f'{sum(len(re.findall(r"^pub .* : goal[.]", t, re.M)) for t in answers.values()):5}  answers')
print(f'{sum(t.count(chr(10)) for t in answers.values()):5}  lines of them')
print(f'{sum(t.count(chr(10)) for t in source.values()):5}  lines of src/')
