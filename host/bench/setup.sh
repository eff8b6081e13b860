#!/bin/sh
# Makes ready what the benchmark is built from: the original (../oracle/setup.sh) and libmariadb's headers.
set -eu
cd "$(dirname "$0")"
../oracle/setup.sh
if [ ! -e /usr/include/mariadb/mysql.h ]; then
    if [ "$(id -u)" = 0 ] && command -v apt-get >/dev/null 2>&1; then
        DEBIAN_FRONTEND=noninteractive apt-get install -y --no-install-recommends libmariadb-dev >/dev/null 2>&1 ||
            echo "setup: libmariadb-dev can't be had here: its column stays empty" >&2
    else
        echo "setup: libmariadb-dev is missing: its column stays empty" >&2
    fi
fi
