#!/usr/bin/env bash
# Measures the host on a cluster that it starts on loopback and ends: bench.sh OUT [ROUNDS], where the host was built. STORE=memstore leaves
# the disk out; CONF=FILE takes a cluster that runs, with a pool and a user `store`, which keeps what is written there.
set -eu
here=$(cd "$(dirname "$0")" && pwd)
out=$(cd "$1" && pwd)
rounds=${2:-5}
"$here/cluster.sh" needed
work=$(mktemp -d)
trap '[ ! -d "$work/cluster" ] || "$here/cluster.sh" stop "$work/cluster"; rm -rf "$work"' EXIT
gcc -std=c11 -O2 -Wall -Wextra "-I$here/../../include" "$here/bench.c" -o "$work/bench" \
    "$out/libtimestore_rados.a" "$here/../../out/libtimestore.a" -lrados -lpthread
if [ -z "${CONF:-}" ]; then
    "$here/cluster.sh" start "$work/cluster"
    CONF=$work/cluster/ceph.conf
fi
"$work/bench" "$CONF" "$rounds"
