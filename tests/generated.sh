#!/usr/bin/env bash
# Generated projects in meta mode, over the world in memory: after each run each made file has to be what a
# clean build makes, and so behind each refused call (docs/CASES.md). Run it at the top of the repository, where
# the program of cases stands at crates/cases/out/cases; COUNT says how many projects there are. Its last line is
# 'N passed, M failed'.
set -u
program=${CASES:-$PWD/crates/cases/out/cases}
room=$(mktemp -d) || exit 1
trap 'rm -rf "$room"' EXIT

if [ ! -x "$program" ]; then
    echo "there is no program $program"
    echo "0 passed, 1 failed"
    exit 1
fi
tools/generate-cases 1 "${COUNT:-1000}" >"$room/generated.cases" || exit 1
cd "$room" && "$program" generated.cases
