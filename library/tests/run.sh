#!/usr/bin/env bash
# Tests the library that was built into a folder: run.sh OUT [PROGRAM]. Images go from it to the program `timestore`, which is
# where `make test` builds it, and back. What could not be tried is the last line. Without Python 3.11, cargo or the program the
# status is then 3.
set -eu
here=$(cd "$(dirname "$0")" && pwd)
top=$(dirname "$here")
out=$(cd "$1" && pwd)
program=${2:-$top/../crates/timestore/out/timestore}
work=$(mktemp -d)
trap 'umount "$work"/stale/*/mounted "$work"/stale/*/small/mounted "$work"/stale/*/*small 2> /dev/null || true; rm -rf "$work"' EXIT
warnings="-std=c11 -Wall -Wextra -pedantic -g -O1 -pthread -I$top/include"

say() { printf '%-60s ' "$1"; }

# Compares what a command writes with the lines on standard input.
compare() {
    cat > "$work/wanted"
    if "$@" > "$work/got" && diff "$work/wanted" "$work/got" > "$work/difference"; then
        echo ok
    else
        echo "not ok"
        cat "$work/difference"
        exit 1
    fi
}

untried=""
status=0

# What is not tried, since something is not here.
left_out() {
    echo "not tried: $1"
    untried="${untried:+$untried; }$1"
}

# The same of what has to be tried.
lacks() {
    left_out "$1"
    status=3
}

# The last line, if there is something to tell, and the status.
finish() {
    if [ -n "$untried" ]; then echo "not tried: $untried"; fi
    exit "$status"
}

# Ends the run where a command fails. What it writes comes before the ok.
passes() {
    if "$@"; then
        echo ok
    else
        echo "not ok"
        exit 1
    fi
}

# Stands between what is tested and the system.
gcc -std=c11 -Wall -Wextra -g -O1 -fPIC -c "$here/faults.c" -o "$work/faults.o"
gcc -std=c11 -Wall -Wextra -g -O1 -fPIC -c "$here/faults_memory.c" -o "$work/faults_memory.o"
gcc -shared "$work/faults.o" "$work/faults_memory.o" -o "$work/faults.so"

version=$(sed -n 's/^.define TIMESTORE_VERSION "\(.*\)"/\1/p' "$top/include/timestore.h")

build() { # NAME FLAGS..
    local name=$1
    shift
    # shellcheck disable=SC2086
    gcc $warnings "$@" "$top"/src/*.c "$work/faults.o" -o "$work/$name" "$out/libtimestore.a"
}

# The calls that a test has its own of, as flags.
wrapped_by() { # TEST
    case $1 in
        *memory) echo "-Wl,--wrap=malloc,--wrap=calloc,--wrap=realloc" ;;
        lost) echo "-Wl,--wrap=mmap" ;;
        cursors) echo "-Wl,--wrap=malloc,--wrap=calloc,--wrap=mmap,--wrap=ts_scan_at" ;;
    esac
}

sanitized="-fsanitize=address,undefined -fno-sanitize-recover=all"
# They may also be there and not run, as where no process may trace another.
if ! { echo 'int main(void){return 0;}' | gcc -x c - $sanitized -o "$work/probe" && "$work/probe"; } > /dev/null 2>&1; then
    left_out "the tests in C under gcc's sanitizers, which do not run here"
    sanitized=""
fi
for test in rows worked refused memory lost reads forks descriptors cursors shared shared_memory; do
    say "C, $test${sanitized:+ (address, undefined, leak)}"
    # shellcheck disable=SC2046,SC2086
    build "$test" $sanitized $(wrapped_by "$test") "$here/$test.c"
    mkdir "$work/$test-folder"
    if "$work/$test" "$work/$test-folder" > "$work/said"; then
        echo "ok $(cat "$work/said")"
    else
        echo "not ok"
        exit 1
    fi
done

say "C, causes${sanitized:+ (address, undefined, leak)}"
# shellcheck disable=SC2086
build causes $sanitized "$here/causes.c"
mkdir "$work/causes-folder" "$work/small"
on_small_disk() { # FLAGS.. of unshare, so that only this test sees the folder that has little space
    # shellcheck disable=SC2016
    unshare "$@" sh -c 'mount -t tmpfs -o size=40k none "$1" && exec "$2" "$3" "$1"' sh "$work/small" "$work/causes" "$work/causes-folder"
}
if unshare -m mount -t tmpfs none "$work/small" 2> /dev/null; then
    passes on_small_disk -m
elif unshare -rm mount -t tmpfs none "$work/small" 2> /dev/null; then
    passes on_small_disk -rm
else
    passes "$work/causes" "$work/causes-folder"
    left_out "a full disk (no file system can be mounted here)"
fi

say "C, sixteen threads beside a small machine"
build shared_soak "$here/shared_soak.c"
mkdir "$work/soak"
soaked() { "$work/shared_soak" "$1" "${SOAK:-3000}" "${SEED:-1}" > "$work/said" && printf '%s ' "$(cat "$work/said")"; }
passes soaked "$work/soak"
say "C, a process that is killed amid the commits of sixteen threads"
build shared_killed "$here/shared_killed.c"
mkdir "$work/threads-killed"
killed() { "$work/shared_killed" "$work/threads-killed" 8 > "$work/said" && printf '%s ' "$(cat "$work/said")"; }
passes killed
of_threads=-fsanitize=thread
tsan= # where the machine's addresses are too random for the sanitizer, without that
if ! { echo 'int main(void){return 0;}' | gcc -x c - $of_threads -o "$work/probe" && "$work/probe"; } > /dev/null 2>&1; then
    tsan="setarch -R"
fi
if { echo 'int main(void){return 0;}' | gcc -x c - $of_threads -o "$work/probe" && $tsan "$work/probe"; } > /dev/null 2>&1; then
    for test in shared cursors shared_soak; do
        say "C, $test (thread sanitizer)"
        # shellcheck disable=SC2046
        build "$test-threads" $of_threads $(wrapped_by "$test") "$here/$test.c"
        mkdir "$work/$test-threads-folder"
        watched_threads() { $tsan "$work/$test-threads" "$work/$test-threads-folder" "$@" > "$work/said" && printf '%s ' "$(cat "$work/said")"; }
        if [ "$test" = shared_soak ]; then passes watched_threads "${SOAK:-3000}" 2; else passes watched_threads; fi
    done
else
    left_out "the threads under gcc's thread sanitizer, which does not run here"
fi

if command -v valgrind > /dev/null; then
    say "C, rows (valgrind, which sees the proved part too)"
    build plain "$here/rows.c"
    mkdir "$work/valgrind-folder"
    watched() { valgrind --quiet --leak-check=full --error-exitcode=3 "$work/plain" "$work/valgrind-folder" > "$work/watched" 2>&1 || { cat "$work/watched"; false; }; }
    passes watched
else
    left_out "the proved part under valgrind, which is not here"
fi

if command -v g++ > /dev/null; then
    say "C++, the headers"
    printf '#include <timestore_file.h>\nint main() { ts h = TS_EMPTY; return ts_close(&h) == TS_CLOSED ? 0 : 1; }\n' > "$work/plus.cc"
    g++ -Wall -Wextra -pedantic "-I$top/include" "$work/plus.cc" "$out/libtimestore.a" -o "$work/plus"
    passes "$work/plus"
else
    left_out "the headers in C++ (no g++)"
fi

say "C, the tour"
cat > "$work/wanted-tour" <<'END'
snapshot 0
done 100
at 100: a
refused: not yet 100
100 101 a
counted 3
END
gcc $warnings "$top/examples/tour.c" -o "$work/tour" "$out/libtimestore.a"
mkdir "$work/tour-c"
compare "$work/tour" "$work/tour-c" < "$work/wanted-tour"

if command -v pkg-config > /dev/null; then # what Python takes too
    say "C, the tour over what is installed"
    mkdir "$work/built"
    printf '#!/bin/sh\necho the program\n' > "$work/built/timestore"
    chmod +x "$work/built/timestore"
    make -s -C "$top" install PREFIX="$work/installed" PROGRAM="$work/built/timestore"
    export PKG_CONFIG_PATH="$work/installed/lib/pkgconfig"
    # shellcheck disable=SC2046
    gcc "$work/installed/share/doc/timestore/examples/tour.c" $(pkg-config --cflags --libs timestore) -o "$work/toured"
    mkdir "$work/tour-installed"
    compare env LD_LIBRARY_PATH="$work/installed/lib" "$work/toured" "$work/tour-installed" < "$work/wanted-tour"
    say "C, the tour linked with all that it needs"
    # shellcheck disable=SC2046
    gcc -static "$top/examples/tour.c" $(pkg-config --static --cflags --libs timestore) -o "$work/toured-static"
    mkdir "$work/tour-static"
    compare "$work/toured-static" "$work/tour-static" < "$work/wanted-tour"
    say "the program, where it was built, and the completions are installed"
    compare "$work/installed/bin/timestore" <<< "the program"
    [ -f "$work/installed/share/bash-completion/completions/timestore" ]
    say "one version: headers, library, pkg-config, man page"
    printf '#include <stdio.h>\n#include <timestore.h>\nint main(void) { return printf("%%s %%d\\n", timestore_version(), TIMESTORE_VERSION_NUMBER) < 0; }\n' > "$work/version.c"
    # shellcheck disable=SC2046
    gcc $warnings "$work/version.c" $(pkg-config --cflags --libs timestore) -o "$work/version"
    versions() {
        env LD_LIBRARY_PATH="$work/installed/lib" "$work/version"
        pkg-config --modversion timestore
        grep -oE "timestore [0-9.]+[0-9]" "$work/installed/share/man/man1/timestore.1"
        readelf -d "$work/version" | grep -o 'libtimestore.so.[0-9]*'
    }
    compare versions <<END
$version $(echo "$version" | awk -F. '{ print 10000 * $1 + 100 * $2 + $3 }')
$version
timestore $version
libtimestore.so.${version%%.*}
END
else
    left_out "what is installed (no pkg-config)"
fi

if command -v groff > /dev/null; then
    say "the man page, without warnings"
    warned() { groff -man -ww -z -Tutf8 "$top/man/timestore.1" 2>&1; }
    compare warned < /dev/null
else
    left_out "the man page (no groff)"
fi
say "the words that bash completes"
completed() { # WORDS.., the last of which is completed
    # shellcheck source=/dev/null
    (. "$top/completions/timestore.bash"; COMP_WORDS=("$@"); COMP_CWORD=$(($# - 1)); _timestore; echo "${COMPREPLY[*]}")
}
mkdir -p "$work/words/reg"
all_completed() { (cd "$work/words"; completed timestore g; completed timestore ""; completed timestore format --; completed timestore at r; completed timestore stress ""); }
compare all_completed <<'END'
grow get
format run at between vacuum grow dump get scan history times put del floor info stress help --help --version
--profile --slots --extents --help
reg

END

say "C, one thread that owns the store"
gcc $warnings -pthread "$top/examples/owner.c" -o "$work/owner" "$out/libtimestore.a"
mkdir "$work/owner-c"
compare "$work/owner" "$work/owner-c" <<'END'
4 threads, 100 commits; the next one came at 101
END

say "the shared library has the headers' names and no other"
grep -ohE '\b(ts|timestore)_[a-z_]+\(' "$top"/include/*.h | tr -d '(' | sort -u > "$work/wanted-names"
nm -D --defined-only "$out/libtimestore.so" | awk '{print $3}' | sort > "$work/names"
passes diff "$work/wanted-names" "$work/names"

if command -v cargo > /dev/null; then
    say "Rust, the tour"
    mkdir "$work/tour-rust"
    export TIMESTORE_LIB_DIR="$out" CARGO_TARGET_DIR="$work/target"
    (cd "$top/rust" && cargo build --offline --quiet --example tour)
    compare "$work/target/debug/examples/tour" "$work/tour-rust" <<'END'
snapshot 0
done 100
at 100: Some([[97]])
refused: not yet 100
100 101 [[97]]
refused: conflict 1 7
the view still answers: Some([[97]])
times of 9: [100, 110]
counted Some([[3]])
END
    say "Rust, one thread that owns the store"
    mkdir "$work/owner-rust"
    (cd "$top/rust" && cargo build --offline --quiet --example owner)
    compare "$work/target/debug/examples/owner" "$work/owner-rust" <<'END'
4 threads, 100 commits, the last one at 100
END
    say "Rust, a program that the crate is added to"
    added() { # CRATE FOLDER
        (
            unset TIMESTORE_LIB_DIR PKG_CONFIG_PATH
            export CARGO_TARGET_DIR="$2-target"
            cargo new --quiet --vcs none "$2" && cd "$2"
            cargo add --offline --quiet --path "$1" 2> "$2.said" || { cat "$2.said"; exit 1; }
            cat > src/main.rs <<'END'
fn main() -> timestore::Result<()> {
    let folder = std::env::args().nth(1).expect("a folder");
    timestore::format(&folder, 16)?;
    timestore::Store::open(&folder)?.put(1, 7, &[b"a"], 0)?;
    println!("{}", timestore::library_version());
    Ok(())
}
END
            mkdir "$2-store" && cargo run --offline --quiet -- "$2-store"
        )
    }
    if [ "$out" = "$top/out" ]; then compare added "$top/rust" "$work/adds" <<< "$version"; else left_out "the crate added by its path, since the library was built elsewhere"; fi
    if [ -d "$work/installed" ]; then
        say "Rust, the same of what is installed"
        compare added "$work/installed/share/timestore/rust" "$work/adds-installed" <<< "$version"
    fi
    say "Rust, calls"
    cargo_test() { (cd "$top/rust" && LD_PRELOAD="$work/faults.so" cargo test --offline --quiet > "$work/cargo" 2>&1) || { cat "$work/cargo"; false; }; }
    passes cargo_test
else
    lacks "the Rust crate (no cargo)"
fi

if ! python3 -c 'import sys; sys.exit(sys.version_info < (3, 11))'; then
    lacks "the Python module, and what is tested by it (no Python 3.11)"
    finish
fi
export TIMESTORE_LIBRARY="$out/libtimestore.so" PYTHONPATH="$top/python" PYTHONDONTWRITEBYTECODE=1
say "one list of codes and texts, of the program, the headers, Python and Rust"
passes python3 "$here/texts.py"
say "Python, the tour"
mkdir "$work/tour-python"
cat > "$work/wanted-python" <<'END'
snapshot 0
done 100
at 100: (b'a',)
refused: not yet 100
100 101 (b'a',)
refused: conflict 1 7
last: 2026-01-01T00:00:00+00:00
counted 3 (b'\x03',)
END
compare python3 "$top/examples/tour.py" "$work/tour-python" < "$work/wanted-python"
if [ -d "$work/installed" ]; then
    say "Python, the tour over what is installed"
    installed=$(pkg-config --variable=pythondir timestore)
    mkdir "$work/tour-python-installed"
    compare env -u TIMESTORE_LIBRARY PYTHONPATH="$installed" python3 "$work/installed/share/doc/timestore/examples/tour.py" "$work/tour-python-installed" < "$work/wanted-python"
fi
if python3 -m pip --version > /dev/null 2>&1; then
    say "Python, a wheel that is built and installed without a network"
    wheel() { # SOURCE TARGET FLAGS..
        local source=$1 target=$2
        shift 2
        env -u TIMESTORE_LIBRARY python3 -m pip install --quiet --disable-pip-version-check --no-index --no-cache-dir "$@" --target "$target" "$source" > "$work/pip" 2>&1 || { cat "$work/pip"; return 1; }
        (cd "$work" && env -u LD_LIBRARY_PATH -u TIMESTORE_LIBRARY PYTHONPATH="$target" python3 -c 'import timestore; print(timestore.__file__, timestore.__version__, timestore.library_version())')
        [ -f "$target/timestore/py.typed" ] && [ -f "$target/timestore/libtimestore.so.${version%%.*}" ]
    }
    mkdir "$work/source"
    cp -r "$top/python" "$out" "$work/source"
    compare wheel "$work/source/python" "$work/wheel" --no-build-isolation <<< "$work/wheel/timestore/__init__.py $version $version"
    if [ -d "$work/installed" ]; then
        say "Python, the same of what is installed"
        compare wheel "$work/installed/share/timestore/python" "$work/wheel-installed" <<< "$work/wheel-installed/timestore/__init__.py $version $version"
    fi
else
    left_out "the Python wheel (no pip)"
fi
say "Python, the example of the module"
mkdir -p "$work/doctest/reg"
documented() { (cd "$work/doctest" && python3 -c 'import doctest, sys, timestore; sys.exit(doctest.testmod(timestore).failed)'); }
passes documented
say "Python, one thread that owns the store"
mkdir "$work/owner-python"
compare python3 "$top/examples/owner.py" "$work/owner-python" <<'END'
4 threads, 100 commits
END
if command -v mypy > /dev/null; then
    say "Python, types"
    typed() { MYPYPATH="$top/python" mypy --strict --cache-dir "$work/mypy" "$top/python/timestore" "$top"/examples/*.py > "$work/types" || { cat "$work/types"; false; }; }
    passes typed
else
    left_out "the types of Python (no mypy)"
fi
say "Python, calls"
passes env LD_PRELOAD="$work/faults.so" python3 "$here/calls.py" "$work"

say "Python, a store that threads share"
passes env LD_PRELOAD="$work/faults.so" python3 "$here/shared.py" "$work/shared-python"

say "Python, random calls beside a machine and a plain reader"
passes python3 "$here/play.py" "$work/play" "${SEED:-1}"

say "a disk that lacks what the system has of it in memory"
code=0
python3 "$here/stale.py" "$work/stale" > "$work/said" || code=$?
if [ "$code" = 4 ]; then
    left_out "a disk whose syncs fail ($(cat "$work/said"))"
else
    passes [ "$code" = 0 ]
fi

say "a host that is killed"
passes python3 "$here/killed.py" "$work/killed"

if [ -x "$program" ]; then
    say "images of the library and of the program"
    passes python3 "$here/exchanged.py" "$program" "$work/exchanged"
else
    lacks "images of the library and of the program (none at $program)"
fi
finish
