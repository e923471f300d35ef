#!/usr/bin/env bash
# Builds the library over what `make test` has proved, and tests it. It fails where it cannot: then the library is not tested.
set -u
cd "$(dirname "$0")/.." || exit 1

not_tested() {
    echo "the library is not tested: $1"
    exit 1
}

for tool in gcc make python3 nm rt; do
    command -v "$tool" > /dev/null || not_tested "there is no $tool"
done
[ -x ../crates/timestore/out/timestore ] || not_tested "\`make test\` left no program crates/timestore/out/timestore"
log=$(mktemp)
trap 'rm -f "$log"' EXIT
start=$(date +%s)
if ! { timeout 1200 make proved-core && make all; } > "$log" 2>&1; then
    tail -n 20 "$log"
    not_tested "it was not built over what \`make test\` has left"
fi
echo "the library was built in $(($(date +%s) - start)) seconds"
make test
