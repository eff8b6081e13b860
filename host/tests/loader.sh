#!/bin/sh
# The loader on small captures made here byte by byte: what it prints, what it refuses and with which words and exit status.
set -eu
cd "$(dirname "$0")/.."
loader=${LOADER:-build/asan/loader}
work=$(mktemp -d)
trap 'rm -rf "$work"' EXIT
checks=0

# Formats are made on purpose.
# shellcheck disable=SC2059
bytes() { printf "$(for byte in "$@"; do printf "\\%03o" "0x$byte"; done)"; }
little() { printf '%02x %02x %02x' $(($1 % 256)) $(($1 / 256 % 256)) $(($1 / 65536)); }
# A chunk: its number, then its bytes. Words are split on purpose throughout.
# shellcheck disable=SC2046,SC2086
chunk() { of=$1; shift; bytes $(little $#) "$of" "$@"; }
# A file as one stored frame with a number.
# shellcheck disable=SC2046
frame() { bytes $(little "$(wc -c < "$2")") "$1" 00 00 00; cat "$2"; }
size() { wc -c < "$1" | tr -d ' '; }

# The parts of an exchange with a server: two columns, id (INT UNSIGNED) and t0 (TIME), and rows.
# Header byte, version "5", connection, scramble, flags, character set, status, flags, length, reserved, scramble
greeting="0a 35 00 01 00 00 00 41 42 43 44 45 46 47 48 00 ff ff 2d 02 00 ff ff 15 00 00 00 00 00 00 00 00 00 00
    49 4a 4b 4c 4d 4e 4f 50 51 52 53 54 00"
ok="00 00 00 02 00 00 00"
eof="fe 00 00 02 00"
prepared="00 01 00 00 00 02 00 00 00 00 00 00"
id="03 64 65 66 00 00 00 02 69 64 00 0c 3f 00 0b 00 00 00 03 20 00 00 00 00"
t0="03 64 65 66 00 00 00 02 74 30 00 0c 3f 00 0b 00 00 00 0b 80 00 06 00 00"
minute_before="00 00 01 00 00 00 08 01 00 00 00 00 00 01 00"
no_offset="00 08 02 00 00 00"
seven_after="00 00 03 00 00 00 08 00 00 00 00 00 00 07 00"
half_second="00 00 04 00 00 00 0c 00 00 00 00 00 00 00 00 20 a1 07 00"
# 106,751,991 days 4:00:54.775808: one microsecond too many
too_long="00 00 02 00 00 00 0c 00 f7 e9 5c 06 04 00 36 80 d6 0b 00"
cut="00 00 02 00 00 00 08 01 00"

# Makes a capture: name, yes or no for frames, then each row in one word. Number by number, as a server would send it.
make_capture() {
    name=$work/$1 framed=$2
    shift 2
    # shellcheck disable=SC2086
    { chunk 00 $greeting; chunk 02 $ok; } > "$name.login"
    # shellcheck disable=SC2086
    { chunk 01 $prepared; chunk 02 $id; chunk 03 $t0; chunk 04 $eof; } > "$name.prepare"
    {
        # shellcheck disable=SC2086
        { chunk 01 02; chunk 02 $id; chunk 03 $t0; chunk 04 $eof; }
        number=5
        for row in "$@"; do
            # shellcheck disable=SC2086
            chunk "$(printf %02x $number)" $row
            number=$((number + 1))
        done
    } > "$name.execute"
    chunk 01 01 > "$name.c.login"
    chunk 00 16 53 > "$name.c.prepare"
    chunk 00 17 01 00 00 00 00 01 00 00 00 > "$name.c.execute"
    if [ "$framed" = true ]; then
        for part in prepare execute; do
            frame 01 "$name.$part" > "$name.framed" && mv "$name.framed" "$name.$part"
            frame 00 "$name.c.$part" > "$name.framed" && mv "$name.framed" "$name.c.$part"
        done
    fi
    cat "$name.login" "$name.prepare" "$name.execute" > "$name.s2c.bin"
    cat "$name.c.login" "$name.c.prepare" "$name.c.execute" > "$name.c2s.bin"
    s=$(size "$name.login") p=$(size "$name.prepare") e=$(size "$name.execute")
    cs=$(size "$name.c.login") cp=$(size "$name.c.prepare") ce=$(size "$name.c.execute")
    cat > "$name.index.json" << JSON
{"about": "made \"here\"", "flags_agreed": 7, "deprecate_eof": false, "exchanges": [
 {"label": "login", "framed": false, "c2s": [0, $cs], "s2c": [0, $s]},
 {"label": "prepare", "framed": $framed, "c2s": [$cs, $cp], "s2c": [$s, $p]},
 {"label": "execute", "framed": $framed, "c2s": [$((cs + cp)), $ce], "s2c": [$((s + p)), $e]}]}
JSON
}

# A run of the loader: what is tested, the exit status, a line that it must print or say, then its words.
run() {
    what=$1 want=$2 text=$3
    shift 3
    got=0
    "$loader" "$@" > "$work/out" 2> "$work/err" < "${input:-/dev/null}" || got=$?
    if [ "$got" != "$want" ] || ! cat "$work/out" "$work/err" | grep -qF -- "$text"; then
        echo "loader: $what: exit status $got, not $want, or without '$text':"
        cat "$work/out" "$work/err"
        exit 1
    fi
    checks=$((checks + 1))
}
# shellcheck disable=SC2059
printed() {
    printf -- "$1" | cmp -s - "$work/out" || { echo "loader: $what: it printed"; cat "$work/out"; exit 1; }
    checks=$((checks + 1))
}

queue='-60000000\t-00:01:00.000000\t1\n500000\t00:00:00.500000\t4\n420000000\t00:07:00.000000\t3\n1 of 3 trains have a negative offset\n'
for framed in false true; do
    make_capture good "$framed" "$minute_before" "$no_offset" "$seven_after" "$half_second" "$eof"
    run "a good capture, framed $framed" 0 "4 rows, 15 packets, $(size "$work/good.s2c.bin") bytes, 1 NULL offsets" "$work/good.s2c.bin"
    printed "$queue"
    run "the head" 0 "1 of 3" --head 1 "$work/good.s2c.bin"
    printed '-60000000\t-00:01:00.000000\t1\n1 of 3 trains have a negative offset\n'
    input=$work/good.s2c.bin
    run "standard input" 0 "4 rows" --head 0 --index "$work/good.index.json" -
    printed "$queue"
    input=
    mv "$work/good.index.json" "$work/elsewhere"
    run "an index elsewhere" 0 "4 rows" --index "$work/elsewhere" "$work/good.s2c.bin"
    mv "$work/elsewhere" "$work/good.index.json"
    run "another column" 1 "column id is no TIME column" --offset id "$work/good.s2c.bin"
    run "no such column" 1 "no column is named 't1'" --offset t1 "$work/good.s2c.bin"
    run "a small limit" 1 "refused 2 (too large) at byte 0 of the server's bytes, packet 1" --limit 10 "$work/good.s2c.bin"

    make_capture long "$framed" "$minute_before" "$too_long" "$eof"
    run "a duration too long" 1 "refused 11 (out of range)" "$work/long.s2c.bin"
    run "its place" 1 "packet 12, row 2, column t0" "$work/long.s2c.bin"
    [ ! -s "$work/out" ] || { echo "loader: trains printed in spite of a refusal"; exit 1; }
    make_capture cut "$framed" "$minute_before" "$cut" "$eof"
    run "a value cut short" 1 "refused 8 (short)" "$work/cut.s2c.bin"
    run "its place" 1 "packet 12, row 2, column t0" "$work/cut.s2c.bin"
    make_capture marked "$framed" "01 00 01 00 00 00 00" "$eof"
    run "a row that starts with 1" 1 "refused 12 (bad row)" "$work/marked.s2c.bin"
    make_capture behind "$framed" "$minute_before 00" "$eof"
    run "a byte behind a row" 1 "1 bytes behind its last value" "$work/behind.s2c.bin"
    make_capture error "$framed" "$minute_before" "ff 25 05 23 37 30 31 30 30 67 6f 6e 65"
    run "an ERR among rows" 1 "the server refused the query: 1317 (70100): gone" "$work/error.s2c.bin"
    make_capture error "$framed" "$minute_before" "ff 25 05 23 37 30 31 30"
    run "an ERR that is cut" 1 "refused 8 (short)" "$work/error.s2c.bin"
    make_capture error "$framed" "$minute_before" "ff 25 05 67 6f 6e 65"
    run "an ERR without a state" 1 "the server refused the query: 1317, without a SQL state (14: bad packet): gone" "$work/error.s2c.bin"
    make_capture nine "$framed" "$minute_before" "fe 00 00 02 00 00 00 00 00"
    run "nine bytes are no EOF" 1 "refused 14 (bad packet)" "$work/nine.s2c.bin"
    make_capture four "$framed" "$minute_before" "fe 00 00 02"
    run "an EOF that is cut" 1 "refused 8 (short)" "$work/four.s2c.bin"
    make_capture open "$framed" "$minute_before"
    run "no EOF" 1 "the server's bytes end after byte" "$work/open.s2c.bin"
    make_capture after "$framed" "$minute_before" "$eof" "$minute_before"
    run "a row behind the EOF" 1 "go on behind its answer" "$work/after.s2c.bin"
    make_capture more "$framed" "$minute_before" "fe 00 00 08 00" "$eof"
    run "a second result" 1 "announces a second result" "$work/more.s2c.bin"
done

# Bytes changed in place: name, offset, byte.
patch() { bytes "$3" | dd of="$work/$1" bs=1 seek="$2" conv=notrunc 2> /dev/null; }
make_capture bad true "$minute_before" "$eof"
first=$(($(size "$work/bad.login")))
patch bad.s2c.bin $((first + 3)) 02
run "a frame's number" 1 "refused 3 (out of sync) at byte $first of the server's bytes, packet 3" "$work/bad.s2c.bin"
patch bad.s2c.bin $((first + 3)) 01
patch bad.s2c.bin $((first + 4)) 01
run "a packed frame" 1 "refused 5 (packed) at byte $first of the server's bytes, packet 3" "$work/bad.s2c.bin"
patch bad.s2c.bin "$first" 00
run "a frame with a plain length alone" 1 "refused 4 (bad frame header) at byte $first" "$work/bad.s2c.bin"
make_capture bad false "$minute_before" "$eof"
patch bad.s2c.bin $((first + 3)) 02
run "a chunk's number" 1 "refused 3 (out of sync) at byte $first of the server's bytes, packet 3" "$work/bad.s2c.bin"

# Logins that are refused: before the greeting, in a form without a state, and after it; and an OK that is none.
kept_greeting=$greeting kept_ok=$ok
greeting="ff 10 04 54 6f 6f 20 6d 61 6e 79"
make_capture login false "$minute_before" "$eof"
run "no connection left" 1 "the server refused the login: 1040, without a SQL state (14: bad packet): Too many" "$work/login.s2c.bin"
greeting=$kept_greeting
ok="ff 15 04 23 32 38 30 30 30 6e 6f"
make_capture login false "$minute_before" "$eof"
run "a refused login" 1 "the server refused the login: 1045 (28000): no" "$work/login.s2c.bin"
ok="00 00 fb 02 00 00 00"
make_capture login false "$minute_before" "$eof"
run "an OK that can't be read" 1 "refused 9 (bad lead)" "$work/login.s2c.bin"
# Under tracking its message has a length.
ok="00 00 00 02 00 00 00 03 61"
make_capture login false "$minute_before" "$eof"
run "a message to the end" 0 "1 rows" "$work/login.s2c.bin"
sed 's/"deprecate_eof"/"session_track": true, "deprecate_eof"/' "$work/login.index.json" > "$work/x" && mv "$work/x" "$work/login.index.json"
run "a message behind its length" 1 "refused 8 (short)" "$work/login.s2c.bin"
ok=$kept_ok

# Indexes that are not to be believed.
make_capture good false "$minute_before" "$eof"
edit() { sed "$2" "$work/good.index.json" > "$work/x" && cp "$work/good.index.json" "$work/kept" && mv "$work/x" "$work/good.index.json"
    run "an index: $1" 1 "$3" "$work/good.s2c.bin"
    mv "$work/kept" "$work/good.index.json"; }
edit "deprecate_eof" 's/"deprecate_eof": false/"deprecate_eof": true/' "CLIENT_DEPRECATE_EOF"
edit "a gap" 's/"s2c": \[0, \([0-9]*\)\]/"s2c": [1, \1]/' "exchange 0 does not start where the one before ends"
edit "a large number" 's/"s2c": \[0, /"s2c": [0, 99999999999999999999/' "a smaller number"
edit "beyond the file" 's/"c2s": \[0, [0-9]*/"c2s": [0, 9999/' "the client's bytes end before it does"
edit "no bracket" 's/\]}\]}/]}/' "there should be"
edit "text behind" 's/\]}\]}/]}]} x/' "nothing more"
edit "an unknown word" 's/"framed": false/"framed": maybe/' "true or false"
edit "a part missing" 's/"framed": false, //' "framed, c2s and s2c in every exchange"
edit "a framed login" 's/"login", "framed": false/"login", "framed": true/' "frames come on after the login"
printf x >> "$work/good.s2c.bin"
run "a byte behind the last exchange" 1 "goes on behind its last exchange" "$work/good.s2c.bin"

# Packets longer than any buffer. A capture of three: 5 bytes, 40 MiB in three chunks, none; the numbers begin at 254.
python3 - "$work" << 'PYTHON'
import sys
M, number = 16777215, 254
long = b''.join(i.to_bytes(4, 'little') for i in range(40 * 1024 * 1024 // 4))
with open(sys.argv[1] + '/long', 'wb') as f:
    f.write(long)
with open(sys.argv[1] + '/long.bin', 'wb') as f:
    for packet in b'abcde', long, b'':
        for at in range(0, len(packet) + 1, M):
            chunk = packet[at:at + M]
            f.write(len(chunk).to_bytes(3, 'little') + bytes([number]) + chunk)
            number = (number + 1) % 256
PYTHON
whole=$(size "$work/long.bin")
run "packets straight through" 0 "3 packets, 41943045 bytes, 10245 parts, in $whole bytes of chunks" --stream "$work/long.bin"
printed "1\t5\t1\n2\t41943040\t10243\n3\t0\t1\n3 packets, 41943045 bytes, 10245 parts, in $whole bytes of chunks\n"
run "the long one" 0 "3 packets, 41943045 bytes" --stream --packet 2 "$work/long.bin"
cmp -s "$work/out" "$work/long" || { echo "loader: another payload"; exit 1; }
input=$work/long.bin
run "from standard input" 0 "3 packets, 41943045 bytes" --stream --packet 2 -
cmp -s "$work/out" "$work/long" || { echo "loader: another payload from standard input"; exit 1; }
input=
run "the first" 0 "3 packets" --stream --packet 1 "$work/long.bin"
printed abcde
run "none such" 1 "there is no packet 4" --stream --packet 4 "$work/long.bin"
printed ""
# Some MiB are enough: of address space, so not under the sanitizers.
got=0
(ulimit -v 16384 && exec build/loader --stream --packet 2 "$work/long.bin") 2> "$work/err" | cmp -s - "$work/long" || got=$?
[ "$got" = 0 ] || { echo "loader: a long packet in 16 MiB of address space:"; cat "$work/err"; exit 1; }
grep -qF "3 packets" "$work/err" || { echo "loader: no report in 16 MiB of address space"; exit 1; }
checks=$((checks + 2))
# The last chunk of the long packet, by where it begins: a wrong number, and one byte missing.
last=$((9 + 2 * (16777215 + 4)))
cp "$work/long.bin" "$work/wrong.bin"
patch wrong.bin $((last + 3)) 07
run "a number" 1 "refused 3 (out of sync) at byte $last of the server's bytes, packet 2" --stream "$work/wrong.bin"
printed '1\t5\t1\n'
run "with a payload" 1 "refused 3 (out of sync) at byte $last of the server's bytes, packet 2" --stream --packet 2 "$work/wrong.bin"
[ "$(size "$work/out")" = 33554430 ] || { echo "loader: $(size "$work/out") bytes before a wrong number"; exit 1; }
run "a payload before it" 1 "refused 3 (out of sync)" --stream --packet 1 "$work/wrong.bin"
printed abcde
for cut in $((whole - 5)) $((last + 2)) $((last + 4)) 9 1; do
    head -c "$cut" "$work/long.bin" > "$work/cut.bin"
    case $cut in
    1) run "a cut end" 1 "refused 8 (short) at byte 1 of the server's bytes, packet 1" --stream --packet 1 "$work/cut.bin" ;;
    9) run "an end between packets" 0 "1 packets, 5 bytes, 1 parts, in 9 bytes of chunks" --stream "$work/cut.bin" ;;
    *) run "a cut end" 1 "refused 8 (short) at byte $cut of the server's bytes, packet 2" --stream --packet 2 "$work/cut.bin" ;;
    esac
done
run "a limit" 1 "refused 2 (too large) at byte 9 of the server's bytes, packet 2" --stream --limit 1000 "$work/long.bin"
# A header across two pieces of 4 KiB: the place is where it begins.
{ chunk 00; python3 -c "import sys; sys.stdout.buffer.write((4082).to_bytes(3, 'little') + b'\1' + bytes(4082))"; chunk 03; } > "$work/across.bin"
run "a header across two pieces" 1 "refused 3 (out of sync) at byte 4090 of the server's bytes, packet 3" --stream "$work/across.bin"
: > "$work/empty.bin"
run "an empty capture" 0 "0 packets, 0 bytes, 0 parts, in 0 bytes of chunks" --stream "$work/empty.bin"
run "no such file" 1 "can't be opened" --stream "$work/none.bin"
run "packet 0" 2 "--packet can't be '0'" --stream --packet 0 x
run "a packet of rows" 2 "--packet goes with --stream" --packet 1 x
run "rows of a stream" 2 "for rows" --stream --head 3 x
run "a server's stream" 2 "not a server" --stream --connect localhost:1
rm "$work"/long* "$work/wrong.bin" "$work/cut.bin"

run "no capture" 2 "which capture" --head 3
run "no index" 2 "wants --index" -
run "a limit of 0" 2 "--limit can't be '0'" --limit 0 x
run "a limit above the largest" 2 "--limit can't be" --limit 1073741825 x
run "no number" 2 "--head can't be" --head 1x x
run "no such option" 2 "no such option" --tail 3
run "an empty table" 2 "--table can't be" --table "" x
run "a table's last space" 2 "--table can't be" --table "x " x
run "half a server" 2 "--connect wants" --connect localhost:1 --user u
run "both" 2 "not both" --connect localhost:1 x
run "help" 0 "Exit status" --help
run "version" 0 "loader $(sed -n 's/^#define MK_VERSION "\(.*\)"$/\1/p' include/mishkeldur.h)" --version
if [ -e /dev/full ]; then
    make_capture good false "$minute_before" "$eof"
    got=0
    "$loader" "$work/good.s2c.bin" > /dev/full 2> "$work/err" || got=$?
    [ "$got" = 1 ] || { echo "loader: a full disk gives exit status $got"; exit 1; }
fi
echo "loader: passed, $checks checks"
