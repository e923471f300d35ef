#!/usr/bin/env bash
# Tests the register of library/examples and timestore-browse over the library that stands in a folder: applications.sh OUT.
set -eu
top=$(cd "$(dirname "$0")/.." && pwd)
out=$(cd "$1" && pwd)
export TIMESTORE_LIBRARY="$out/libtimestore.so"
export PYTHONPATH="$top/python"

if command -v mypy > /dev/null; then
    cache=$(mktemp -d)
    trap 'rm -rf "$cache"' EXIT
    MYPYPATH="$top/python:$top/browse" mypy --strict --cache-dir "$cache" "$top/examples/register" "$top/browse/timestore_browse"
    untried=""
else
    untried="not tried: types (no mypy)"
fi
(cd "$top/examples" && python3 -m unittest discover -s register/tests -t .)
(cd "$top/browse" && python3 -m unittest discover -s tests -t .)
if [ -n "$untried" ]; then echo "$untried"; fi
