#!/usr/bin/env bash
# Times the library that stands in a folder: run.sh OUT [FOLDER..]; each FOLDER's file system in turn, /dev/shm
# and the one of TMPDIR where none is named. From C, Python and Rust; where the program is built, or named by
# TIMESTORE_PROGRAM, by its script too; and then the workloads of bench/store_bench.py beside SQLite and LMDB, and threads over one store.
# COMMITS, GROUPS_OF_16, QUERIES, ROUNDS and SHARE (of the workloads' counts, and of a second for threads) make it longer or shorter.
set -eu
here=$(cd "$(dirname "$0")" && pwd)
top=$(dirname "$here")
out=$(cd "$1" && pwd)
shift
[ $# -gt 0 ] || set -- /dev/shm "${TMPDIR:-/tmp}"
program=${TIMESTORE_PROGRAM:-$top/../crates/timestore/out/timestore}
work=$(mktemp -d)
trap 'rm -rf "$work" "${place:-$work}"' EXIT
gcc -std=c11 -O2 -Wall -Wextra -I"$top/include" "$here/bench.c" -o "$work/bench" "$out/libtimestore.a"
rust=
if command -v cargo > /dev/null; then
    export TIMESTORE_LIB_DIR="$out" CARGO_TARGET_DIR="$work/target"
    (cd "$top/rust" && cargo build --offline --quiet --release --example bench)
    rust="$work/target/release/examples/bench"
fi
export TIMESTORE_LIBRARY="$out/libtimestore.so" PYTHONPATH="$top/python" PYTHONDONTWRITEBYTECODE=1
for folder in "$@"; do
    echo "on $folder ($(stat -f -c %T "$folder")), load $(cut -d' ' -f1-3 /proc/loadavg) on $(nproc) cores"
    place=$(mktemp -d "$folder/timestore-XXXXXX")
    mkdir "$place/c" "$place/python"
    "$work/bench" "$place/c" "${COMMITS:-2000}" "${GROUPS_OF_16:-500}" "${QUERIES:-1000000}"
    python3 "$here/bench.py" "$place/python" "${COMMITS:-2000}" 100000
    if [ -n "$rust" ]; then mkdir "$place/rust"; "$rust" "$place/rust" "${COMMITS:-2000}" 1000000; fi
    if [ -x "$program" ]; then python3 "$here/script.py" "$program" "$place/script" "${COMMITS:-2000}" 100000; fi
    python3 "$here/peers.py" "$out" "$place" "${ROUNDS:-3}" "${SHARE:-1}"
    python3 "$here/threads.py" "$out" "$place" "${ROUNDS:-3}" "${SHARE:-1}"
    rm -rf "$place"
done
