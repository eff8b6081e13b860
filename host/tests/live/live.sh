#!/bin/sh
# The loader against a real MariaDB server: plain, with frames that an ordinary server packs (refusal 5), and with frames that it
# stores; why a query or a login failed, as the loader shows it; the checker of literals against what the server reads; and the station
# names packed into statements, which the server takes within the box's limit. The server is Debian's, has its data in a temporary
# folder, listens on a unix socket and on loopback, and runs without privileges. What the loader prints is held to what the server's
# own client prints. Everything is stopped and removed at the end.
set -eu
cd "$(dirname "$0")/../.."
loader=${LOADER:-build/asan/loader}
[ -x "$loader" ] || loader=build/loader
[ -x "$loader" ] || { echo "live: no loader: run make first"; exit 1; }
literals=${LITERALS:-build/asan/tests/literals}
[ -x "$literals" ] || { echo "live: no test of literals: run make asan first"; exit 1; }

say() { echo "live: $*"; }
PATH=$PATH:/usr/sbin:/sbin
export PATH

tests/live/need.sh

work=$(mktemp -d /tmp/live.XXXXXX)
socket=$work/socket
server=
stop_server() {
    [ -n "$server" ] || return 0
    kill -TERM "$server" 2> /dev/null || true
    wait "$server" 2> /dev/null || true
    server=
    [ ! -e "$socket" ] || { say "the server's socket is still there"; return 1; }
}
finish() {
    status=$?
    trap - EXIT
    stop_server || status=1
    if [ "$status" != 0 ] && [ -f "$work/server.log" ]; then
        say "failed; the end of the server's log:"
        tail -n 15 "$work/server.log"
    fi
    rm -rf "$work"
    exit "$status"
}
trap finish EXIT
trap 'exit 1' HUP INT TERM

# Words in front of a command, not a function: behind a function in the background $! would be a shell, and not the server.
user=$(id -un)
as_user=
if [ "$(id -u)" = 0 ]; then
    user=nobody
    if id mysql > /dev/null 2>&1; then user=mysql; fi
    as_user="setpriv --reuid=$user --regid=$(id -g "$user") --clear-groups"
    chown "$user" "$work"
fi
chmod 755 "$work"
mkdir "$work/data" "$work/tmp"
[ "$(id -u)" != 0 ] || chown "$user" "$work/data" "$work/tmp"

# --no-defaults keeps out the machine's own settings; the rest keeps the server small.
settings="--no-defaults --datadir=$work/data --tmpdir=$work/tmp --socket=$socket --pid-file=$work/pid --bind-address=127.0.0.1
    --skip-name-resolve --skip-log-bin --innodb-buffer-pool-size=32M --innodb-log-file-size=8M --performance-schema=OFF"

# Starts the server, with a library preloaded if one is named, and waits until it answers.
start_server() {
    for try in 1 2 3; do
        port=$(shuf -i 20000-32000 -n 1)
        # shellcheck disable=SC2086
        $as_user env ${1:+LD_PRELOAD="$1"} mariadbd $settings --port="$port" > "$work/server.log" 2>&1 &
        server=$!
        waited=0
        while [ "$waited" -lt 300 ] && kill -0 "$server" 2> /dev/null; do
            if client -e 'SELECT 1' > /dev/null 2>&1; then return 0; fi
            sleep 0.2
            waited=$((waited + 1))
        done
        say "the server did not start at port $port (try $try)"
        stop_server
    done
    return 1
}
client() { mariadb --no-defaults --socket="$socket" --user=root --batch --skip-column-names "$@"; }

say "making a data folder as $user"
# shellcheck disable=SC2086
$as_user mariadb-install-db --no-defaults --datadir="$work/data" --tmpdir="$work/tmp" --auth-root-authentication-method=normal \
    --skip-test-db --skip-name-resolve > "$work/server.log" 2>&1

start_server "" || exit 1
say "an ordinary server: $(client -e 'SELECT VERSION()'), port $port"

# The name of the table has a backtick and a space, for the loader's quotes.
table='night`s stops'
client < tests/live/table.sql
client depot > "$work/want" << 'SQL'
SELECT CAST(TIME_TO_SEC(t0) * 1000000 AS SIGNED), t0, id FROM `night``s stops` WHERE t0 IS NOT NULL ORDER BY t0, id;
SQL
# shellcheck disable=SC2016
nulls=$(client depot -e 'SELECT COUNT(*) FROM `night``s stops` WHERE t0 IS NULL')
negative=$(grep -c '^-' "$work/want")
say "a table of 200 rows, $(wc -l < "$work/want") offsets, $negative of them negative, $nulls NULL"
echo "$negative of $(wc -l < "$work/want") trains have a negative offset" >> "$work/want"
printf 'it'\''s "night" \\ 7\n' > "$work/password"
printf 'wrong\n' > "$work/wrong"
: > "$work/none"

load() { # where, table, words
    where=$1 name=$2
    shift 2
    "$loader" --head 0 --connect "$where" --user depot --password-file "$work/password" --database depot --table "$name" "$@" \
        > "$work/got" 2> "$work/said"
}
must_load() { # what, then as load
    what=$1
    shift
    load "$@" || { say "$what: exit status $?: $(cat "$work/said")"; exit 1; }
    cmp "$work/want" "$work/got" || { say "$what: not what the server's own client prints"; diff "$work/want" "$work/got" | head; exit 1; }
    grep -q "^loader: 200 rows, .* $nulls NULL offsets" "$work/said" || { say "$what: $(cat "$work/said")"; exit 1; }
    say "$what: as the server's own client prints it; $(cat "$work/said")"
}
must_refuse() { # what, text, then as load
    what=$1 text=$2
    shift 2
    status=0
    load "$@" || status=$?
    { [ "$status" = 1 ] && grep -qF "$text" "$work/said"; } || { say "$what: exit status $status, $(cat "$work/said")"; exit 1; }
    [ ! -s "$work/got" ] || { say "$what: printed trains"; exit 1; }
    say "$what: $(cat "$work/said")"
}

must_load "plain, socket" "$socket" "$table"
must_load "plain, loopback" "127.0.0.1:$port" "$table"
must_load "plain, a user without a password" "$socket" "$table" --user open --password-file "$work/none"
must_refuse "packed frames, socket" "refused 5 (packed)" "$socket" "$table" --stored
must_refuse "packed frames, loopback" "refused 5 (packed)" "127.0.0.1:$port" "$table" --stored
must_refuse "a limit below a row" "refused 2 (too large)" "$socket" "$table" --limit 8192
# Why a query or a login failed: the server's code, SQL state and text.
must_refuse "no such table" "the server refused the query: 1146 (42S02): Table 'depot.no such table' doesn't exist" "$socket" "no such table"
must_refuse "a wrong password" "the server refused the login: 1045 (28000): Access denied for user 'depot'@'localhost' (using password: YES)" \
    "$socket" "$table" --password-file "$work/wrong"
# No connection is left: this ERR comes before the login, and has no SQL state. With 10 allowed the server keeps one more for a
# superuser, so eleven clients hold them, until the pipe ends; the kernel counts them, since one more client would take a place.
most=$(client -e 'SELECT @@GLOBAL.max_connections')
client -e 'SET GLOBAL max_connections = 10'
mkfifo "$work/hold"
holders=
for _ in 1 2 3 4 5 6 7 8 9 10 11; do
    mariadb --no-defaults --socket="$socket" --user=root --batch < "$work/hold" > /dev/null 2>&1 &
    holders="$holders $!"
done
exec 9> "$work/hold"
waited=0
while [ "$waited" -lt 50 ] && [ "$(grep -cF "$socket" /proc/net/unix)" -lt 12 ]; do
    sleep 0.1
    waited=$((waited + 1))
done
must_refuse "no connection left" "the server refused the login: 1040, without a SQL state (14: bad packet): Too many connections" "$socket" "$table"
exec 9>&-
# shellcheck disable=SC2086
wait $holders || true
waited=0
until client -e "SET GLOBAL max_connections = $most" 2> /dev/null; do
    [ "$waited" -lt 50 ] || { say "no connection came free"; exit 1; }
    sleep 0.1
    waited=$((waited + 1))
done
must_refuse "a password of the old form" "before version 4.1" "$socket" "$table" --user ancient
must_refuse "no TIME column" "no TIME column" "$socket" "$table" --offset id

# Literals in both of the server's modes: the kept list is what this server says, and our checker is held to what it says.
python3 data/literals_mariadb.py mariadb --no-defaults --socket="$socket" --user=root > "$work/literals"
kept=../crates/literals/data/literals-mariadb.txt
cmp "$kept" "$work/literals" || { say "literals: this server does not say what the kept list says"; diff "$kept" "$work/literals" | head; exit 1; }
"$literals" "$work/literals" > "$work/said" || { say "literals: $(cat "$work/said")"; exit 1; }
say "$(head -n 1 "$work/said")"

# The station names in few statements: tests/pack.c writes them, and a server that takes packets of the box's 61,440 bytes and no more is fed
# with them. Then the names are all there, and in their order.
pack=${PACK:-build/asan/tests/pack}
names=../data/station-names.txt
[ -x "$pack" ] || { say "no $pack: run make live"; exit 1; }
"$pack" "$work/statements.sql" > "$work/said" || { say "packing: $(cat "$work/said")"; exit 1; }
utf8() { client --default-character-set=utf8mb4 "$@"; }
usual=$(client -e 'SELECT @@GLOBAL.max_allowed_packet')
utf8 depot << 'SQL'
CREATE TABLE stations (id INT UNSIGNED AUTO_INCREMENT PRIMARY KEY, name VARCHAR(255) NOT NULL) ENGINE = InnoDB
    CHARACTER SET utf8mb4 COLLATE utf8mb4_bin;
SET GLOBAL max_allowed_packet = 61440;
SQL
utf8 depot < "$work/statements.sql" || { say "packed statements: the server refuses one"; exit 1; }
if { printf "SELECT LENGTH('"; head -c 61440 /dev/zero | tr '\000' x; printf "');\n"; } | client > /dev/null 2> "$work/said"; then
    say "packed statements: the server takes a longer one"
    exit 1
fi
grep -Eq 'max_allowed_packet|ERROR 20(06|13)' "$work/said" || { say "packed statements: a longer one: $(cat "$work/said")"; exit 1; }
client -e "SET GLOBAL max_allowed_packet = $usual"
count=$(utf8 depot -e 'SELECT COUNT(*) FROM stations')
[ "$count" = "$(wc -l < "$names")" ] || { say "packed statements: $count names of $(wc -l < "$names")"; exit 1; }
sum=$(utf8 depot -e "SET SESSION group_concat_max_len = 1048576;
    SELECT SHA2(GROUP_CONCAT(CONCAT(name, '\n') ORDER BY id SEPARATOR ''), 256) FROM stations")
[ "$sum" = "$(sha256sum < "$names" | cut -d ' ' -f 1)" ] || { say "packed statements: the names differ: $sum"; exit 1; }
say "packed statements: $(wc -l < "$work/statements.sql") for $count names, each within 61,440 bytes, and the server has the names in order"
stop_server

say "the same server with zlib held at level 0"
${CC:-cc} -shared -fPIC -O2 -Wall -Wextra -o "$work/level0.so" tests/live/level0.c -ldl
start_server "$work/level0.so" || exit 1
must_load "stored frames, socket" "$socket" "$table" --stored
must_load "stored frames, loopback" "127.0.0.1:$port" "$table" --stored
must_load "plain, socket" "$socket" "$table"
stop_server
must_refuse "no server" "connecting to" "$socket" "$table"
say "passed"
