#!/usr/bin/env bash
# Want of memory: each allocation of the built program is refused, one at a time, in a first build, a second one,
# an explanation and a generated graph, and in runs over the world in memory. Run it at the top of the repository, where
# the programs stand at crates/bmake/out/bmake and crates/cases/out/cases. Its last line is 'N passed, M failed'.
set -u
program=${BMAKE:-$PWD/crates/bmake/out/bmake}
cases=${CASES:-$PWD/crates/cases/out/cases}
room=$(mktemp -d) || exit 1
trap 'rm -rf "$room"' EXIT
unset MAKEFLAGS BMAKE_FILEMON

for needed in cc python3; do
    if ! command -v "$needed" >/dev/null; then
        echo "skipped: want of memory (there is no $needed)"
        echo "0 passed, 0 failed"
        exit 0
    fi
done
if ! cc -shared -fPIC -O1 -o "$room/refuse.so" tests/memory/refuse.c 2>"$room/errors" \
    || ! LD_PRELOAD="$room/refuse.so" REFUSE=0 ALLOCATIONS="$room/count" cc --version >/dev/null 2>&1 \
    || [ ! -s "$room/count" ]; then
    echo 'skipped: want of memory (no library may be loaded before that of C here)'
    echo "0 passed, 0 failed"
    exit 0
fi
for built in "$program" "$cases"; do
    if [ ! -x "$built" ]; then
        echo "there is no program $built"
        echo "0 passed, 1 failed"
        exit 1
    fi
done
tests/memory/refuse_each "$program" "$cases" "$room/refuse.so" "$room"
