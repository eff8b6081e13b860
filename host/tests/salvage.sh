#!/bin/sh
# The report on damaged captures: the worked capture byte for byte, a server's real bytes with bytes changed, lost and doubled, captures
# made here against a model, what is refused and with which words, and the time of 64 MiB beside that of cat.
set -eu
cd "$(dirname "$0")/.."
tool=${SALVAGE:-build/asan/salvage}
fast=${SALVAGE_FAST:-build/salvage}
model=data/salvage_model.py
work=$(mktemp -d)
trap 'rm -rf "$work"' EXIT
checks=0

fault() { echo "salvage: $*"; exit 1; }
size() { wc -c < "$1" | tr -d ' '; }

# A run: what is tested, the exit status, then the words. What it printed is in out, what it said in err.
run() {
    what=$1 want=$2
    shift 2
    got=0
    "$tool" "$@" > "$work/out" 2> "$work/err" < "${input:-/dev/null}" || got=$?
    [ "$got" = "$want" ] || { cat "$work/err"; fault "$what: exit status $got, not $want"; }
    checks=$((checks + 1))
}
# The same, where it can't do its work: it prints nothing, and says this.
refuses() {
    text=$1
    shift
    run "$text" 1 "$@"
    [ ! -s "$work/out" ] || fault "$text: it printed a report"
    printf 'salvage: %s\n' "$text" | cmp -s - "$work/err" || { cat "$work/err"; fault "that should be: $text"; }
}
# Whether the report in out is a file's.
reported() { cmp -s "$1" "$work/out" || { diff "$1" "$work/out" | head; fault "$what: another report"; }; }
# Whether the stretches lie end to end from 0 to so many bytes, and none is empty.
covers() {
    awk -F '\t' -v size="$1" 'NF != 4 || ($1 != "good" && $1 != "lost") || $2 != at || $3 < 1 { bad = 1 } { at += $3 } END { exit bad || at != size }' \
        at=0 "$work/out" || fault "$what: the stretches don't cover the $1 bytes"
}

# ---- the worked capture

printf '\001\000\000\000A\377\377\377\377\377\001\000\000\001B\001\000\000\002C\001\000\000\003D' > "$work/worked"
printf 'good\t0\t5\t1\nlost\t5\t5\t2\ngood\t10\t15\t3\n' > "$work/worked.report"
run "the worked capture" 0 "$work/worked"
reported "$work/worked.report"
[ ! -s "$work/err" ] || fault "the worked capture: it said something"
input=$work/worked
run "the worked capture from standard input" 0 -
reported "$work/worked.report"
input=
# It is what the program `captures` is run on.
cmp "$work/worked" ../crates/captures/stdin
cmp "$work/worked.report" ../crates/captures/stdout

: > "$work/empty"
run "an empty file" 0 "$work/empty"
reported "$work/empty"
run "an empty standard input" 0 -
reported "$work/empty"

# ---- what can't be done

refuses "refused 1 (bad limit)" --limit 0 "$work/worked"
refuses "refused 1 (bad limit)" --limit 16777215 "$work/worked"
refuses "refused 1 (bad limit)" --limit 18446744073709551615 "$work/empty"
for limit in '' x 1x -1 18446744073709551616; do
    refuses "--limit can't be '$limit' (see salvage --help)" "--limit=$limit" "$work/worked"
done
refuses "which capture? (see salvage --help)"
refuses "one capture at a time (see salvage --help)" "$work/worked" "$work/empty"
refuses "no such option, or its value is missing: --fast (see salvage --help)" --fast "$work/worked"
refuses "$work/none can't be opened: No such file or directory" "$work/none"
refuses "$work can't be read: Is a directory" "$work"
if "$tool" "$work/worked" > /dev/full 2> "$work/err"; then fault "a full disk: exit status 0"; fi
grep -q "^salvage: the report can't be written: " "$work/err" || fault "a full disk: it said nothing"
run "the help" 0 --help
run "the highest limit" 0 --limit 16777214 "$work/worked"
run "the lowest limit" 0 --limit 1 "$work/worked"
reported "$work/worked.report"

# ---- a server's real bytes

# The server's side of a capture: the place of its first answer stands at byte 12, and its bytes go from there to the end.
server() { tail -c "+$(($(od -An -tu4 -j12 -N4 "../crates/chunks/data/$1") + 1))" "../crates/chunks/data/$1"; }
same_as_model() {
    run "$1" 0 "$work/real"
    covers "$(size "$work/real")"
    python3 "$model" "$work/real" 61440 > "$work/real.report"
    reported "$work/real.report"
}
damaged=0
for name in text-rows seq-wrap session-track; do
    server "$name" > "$work/whole"
    cp "$work/whole" "$work/real"
    same_as_model "$name"
    all=$(size "$work/whole")
    for at in 0 1 2 3 4 118 $((all / 7)) $((all / 3)) $((all / 2 + 1)) $((all - 9)) $((all - 1)); do
        { head -c "$at" "$work/whole"; printf '\376'; tail -c "+$((at + 2))" "$work/whole"; } > "$work/real"
        same_as_model "$name, byte $at changed"
        { head -c "$at" "$work/whole"; tail -c "+$((at + 2))" "$work/whole"; } > "$work/real"
        [ "$(size "$work/real")" = $((all - 1)) ] || fault "no byte was lost"
        same_as_model "$name, byte $at lost"
        { head -c "$((at + 1))" "$work/whole"; tail -c "+$((at + 1))" "$work/whole"; } > "$work/real"
        [ "$(size "$work/real")" = $((all + 1)) ] || fault "no byte was doubled"
        same_as_model "$name, byte $at doubled"
        damaged=$((damaged + 3))
    done
done

# ---- captures made here

mkdir "$work/made"
python3 "$model" --make "$work/made" 300
for capture in "$work"/made/*.bin; do
    run "$capture" 0 --limit "$(cat "${capture%.bin}.limit")" "$capture"
    covers "$(size "$capture")"
    reported "${capture%.bin}.report"
done

# More stretches than the first list of the tool holds: three empty chunks and a byte, again and again.
awk 'BEGIN { for (i = 0; i < 20000; i++) printf "aaaaaaabaaac!" }' | tr 'abc!' '\000\001\002\377' > "$work/real"
same_as_model "a long report"
[ "$(wc -l < "$work/out")" -gt 16384 ] || fault "a long report: it is short"

# ---- 64 MiB

now() { date +%s%N; }
# What it is, then the file: the tool's time beside that of cat, the best of three each.
timed() {
    cat_best=0 tool_best=0
    for _ in 1 2 3; do
        start=$(now)
        # cat is what is timed.
        # shellcheck disable=SC2002
        cat "$2" > /dev/null
        middle=$(now)
        "$fast" "$2" > "$work/out"
        end=$(now)
        took=$(((middle - start) / 1000))
        if [ "$cat_best" = 0 ] || [ "$took" -lt "$cat_best" ]; then cat_best=$took; fi
        took=$(((end - middle) / 1000))
        if [ "$tool_best" = 0 ] || [ "$took" -lt "$tool_best" ]; then tool_best=$took; fi
    done
    what=$1
    covers "$(size "$2")"
    checks=$((checks + 1))
    echo "salvage: 64 MiB $1: $(wc -l < "$work/out" | tr -d ' ') stretches, $((tool_best / 1000)) ms (cat: $((cat_best / 1000)) ms)"
}
large=$((64 * 1024 * 1024))
# An answer again and again: its numbers begin anew each time, so each copy but the first begins with a bad place.
server text-rows > "$work/copies"
while [ "$(size "$work/copies")" -lt "$large" ]; do
    cat "$work/copies" "$work/copies" > "$work/twice"
    mv "$work/twice" "$work/copies"
done
head -c "$large" "$work/copies" > "$work/large"
rm "$work/copies"
timed "of a server's answers" "$work/large"
head -c "$large" /dev/urandom > "$work/large"
timed "of noise" "$work/large"
head -c "$large" /dev/zero > "$work/large"
timed "of zeros" "$work/large"

echo "salvage: passed, $checks checks, $damaged damages to a server's bytes, 300 captures against the model"
