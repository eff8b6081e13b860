#!/usr/bin/env python3
"""Makes crates/literals/data/literals-mariadb.txt: what a MariaDB server says of each input of literals.txt, in both of its modes, and of some more.

A line: the mode, `b` or `o` (sql_mode NO_BACKSLASH_ESCAPES); the input in hex; then `=` and the server's bytes in hex (`NULL` as `= NULL`), or `!` where
it refuses the statement. One space between them.

The words behind the command are those of a client that reaches a server, and the list goes to the output; at the root:

    python3 host/data/literals_mariadb.py mariadb --no-defaults --socket=.. --user=root > crates/literals/data/literals-mariadb.txt

The server is asked SELECT HEX(input). The statement reaches it as hex, by EXECUTE IMMEDIATE, so that the client cuts nothing at a quote or
at a zero byte, and the connection's character set is binary, so that every byte passes as it is. host/tests/live/live.sh asks again, and holds
the answers to the kept list and the C entries to the answers.
"""
import pathlib
import subprocess
import sys

# What an expression may be beside one literal: neighbours, space, comments, introducers, other quotes, operators, more values.
MORE = [b"'a'\n'b'", b"'a'\t'b'", b"'a'/**/'b'", b"'a''b' 'c'", b" 'a'", b"\n'a'", b"'a'\n", b"'a' -- ", b"'a' # ", b"'a'/* */", b'"a"', b'"it\'s"', b'"a" \'b\'',
        b"n'a'", b"_latin1'a'", b"_binary'a'", b"x'41'", b"0x41", b"b'1'", b"'a' COLLATE binary", b"'a'+1", b"'a'='a'", b"('a')", b"'a','b'", b"'a')", b"'a' AND 1",
        b"'a'b", b"'a'1", b"'a'\\'b'", b"'a'\x00", b"\xef\xbb\xbf'a'"]


def ask(words, asked):
    """The server's answer to each (mode, input): bytes in hex, NULL, or None where it refuses."""
    sql = ['SET NAMES binary;']
    mode = None
    for n, (m, s) in enumerate(asked):
        if m != mode:
            mode = m
            sql.append("SET sql_mode = '%s';" % ('NO_BACKSLASH_ESCAPES' if m == 'o' else ''))
        text = b'SELECT %d, HEX(' % n + s + b')'
        sql.append(f"EXECUTE IMMEDIATE x'{text.hex()}';")
    run = subprocess.run(words + ['--batch', '--skip-column-names', '--force'], input='\n'.join(sql + ["SELECT 'end';"]) + '\n', capture_output=True, text=True)
    lines = run.stdout.splitlines()
    if not lines or lines[-1] != 'end':
        sys.exit('literals_mariadb: the server did not answer to the end: ' + run.stderr[-500:])
    return dict((int(n), h) for n, h in (line.split('\t') for line in lines[:-1]))


root = pathlib.Path(__file__).resolve().parent.parent.parent
inputs = [(m, bytes.fromhex(h)) for m, h in (line.split(' ')[:2] for line in (root / 'crates/literals/data/literals.txt').read_text().splitlines())]
asked = [(m, s) for m in 'bo' for s in dict.fromkeys([s for k, s in inputs if k == m] + MORE)]
got = ask(sys.argv[1:], asked)
for n, (m, s) in enumerate(asked):
    print(f'{m} {s.hex()} ' + (f'= {got[n].lower() if got[n] != "NULL" else "NULL"}' if n in got else '!'))
