#!/usr/bin/env bash
# Tests the host on a cluster of one monitor, one manager and three object stores, which it starts on loopback and ends: run.sh OUT, where
# the host was built. It fails where Ceph is not installed.
set -eu
here=$(cd "$(dirname "$0")" && pwd)
top=$(dirname "$here")
library=$top/../..
out=$(cd "$1" && pwd)
"$top/cluster.sh" needed
work=$(mktemp -d)
cluster=$work/cluster
trap '[ ! -d "$cluster" ] || "$top/cluster.sh" stop "$cluster"; rm -rf "$work"' EXIT
warnings="-std=c11 -Wall -Wextra -pedantic -g -O1 -I$library/include"

say() { printf '%-60s ' "$1"; }

# Ends the run where a command fails. What it writes stands behind the ok.
passes() {
    if "$@" > "$work/said" 2>&1; then
        echo "ok $(tail -n 1 "$work/said")"
    else
        echo "not ok"
        tail -n 40 "$work/said"
        exit 1
    fi
}

say "a cluster of three object stores"
passes "$top/cluster.sh" start "$cluster"
export RADOS_CONF=$cluster/ceph.conf

sanitized="-fsanitize=address,undefined -fno-sanitize-recover=all"
parts=("$top"/rados_*.c "$library/src/files.c" "-I$library/src")

say "C, folder (address, undefined)"
gcc -std=c11 -g -O1 -c "$library/tests/faults.c" -o "$work/faults.o"
# shellcheck disable=SC2086
gcc $warnings $sanitized "$here/folder.c" "${parts[@]}" "$work/faults.o" -o "$work/folder" -lrados -lpthread
mkdir "$work/folder-folder"
passes "$work/folder" "$work/folder-folder"

for test in areas fence; do
    say "C, $test (address, undefined)"
    # shellcheck disable=SC2086
    gcc $warnings $sanitized "$here/$test.c" "${parts[@]}" -o "$work/$test" -lrados -lpthread
    rounds=
    [ "$test" != fence ] || rounds=5
    passes "$work/$test" "$RADOS_CONF" $rounds
done

place=$(realpath --relative-to="$library/tests" "$here/place_rados.h")
for kind in whole cold; do
    say "C, worked, $kind (address, undefined)"
    flags=
    [ "$kind" = whole ] || flags=-DCOLD
    # shellcheck disable=SC2086
    gcc $warnings $sanitized $flags "-DPLACE=\"$place\"" "$library/tests/worked.c" "$library/src/steps.c" \
        "${parts[@]}" "$top/timestore_rados.c" -o "$work/worked-$kind" "$library/out/libtimestore.a" -lrados -lpthread
    mkdir "$work/worked-$kind-folder"
    passes "$work/worked-$kind" "$work/worked-$kind-folder"
done

say "the shared library has the header's names and no other"
grep -ohE '\bts_rados_[a-z_]+\(' "$top/timestore_rados.h" | tr -d '(' | sort -u > "$work/wanted-names"
nm -D --defined-only "$out/libtimestore_rados.so" | awk '{print $3}' | sort > "$work/names"
passes diff "$work/wanted-names" "$work/names"

say "each call of the host for files, and here"
grep -ohE '\bts_file_[a-z_]+\(' "$library/include/timestore_file.h" | tr -d '(' | sed 's/^ts_file/ts_rados/' | sort -u > "$work/of-files"
all_here() { [ -s "$work/of-files" ] && comm -23 "$work/of-files" "$work/names" | (! grep .); }
passes all_here

if ! python3 -c 'import sys; sys.exit(sys.version_info < (3, 11))'; then
    echo "not tested: hosts that are killed and replaced, and the Python module, for which Python 3.11 is needed" >&2
    exit 1
fi
export TIMESTORE_LIBRARY=$library/out/libtimestore.so TIMESTORE_RADOS_LIBRARY=$out/libtimestore_rados.so
export PYTHONPATH=$library/python:$top PYTHONDONTWRITEBYTECODE=1
say "Python, the example of the module"
passes env CEPH_CONF="$RADOS_CONF" python3 -m doctest "$top/timestore_rados.py"
if command -v mypy > /dev/null; then
    say "Python, types"
    passes env MYPYPATH="$library/python" mypy --strict --cache-dir "$work/mypy" "$top/timestore_rados.py"
fi
say "Python, module"
mkdir "$work/module"
passes python3 "$here/module.py" "$cluster" "$work/module"
mkdir "$work/hosts"
python3 "$here/hosts.py" "$cluster" "$work/hosts"
