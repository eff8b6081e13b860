#!/bin/sh
# What the live test needs: a MariaDB server and its client, Debian's. The core packages have both, and neither start a service nor make an account.
set -eu
have() { command -v "$1" > /dev/null 2>&1; }
PATH=$PATH:/usr/sbin:/sbin
! have mariadbd || ! have mariadb-install-db || ! have mariadb || exit 0
if [ "$(id -u)" != 0 ] || ! have apt-get; then
    echo "live: please install a MariaDB server (Debian: mariadb-server, or mariadb-server-core and mariadb-client-core)" >&2
    exit 1
fi
echo "live: installing mariadb-server-core and mariadb-client-core"
get() { DEBIAN_FRONTEND=noninteractive apt-get install -y --no-install-recommends mariadb-server-core mariadb-client-core > /dev/null; }
get || { apt-get update > /dev/null || true; get; } || { echo "live: they can't be installed" >&2; exit 1; }
