#!/usr/bin/env bash
# Generated projects in meta mode, audited between their builds, over the world in memory: what an
# audit prints is what a model of it says, and where it prints nothing each made file is what a
# clean build makes (docs/CASES.md). Run it at the top of the repository, where the program of cases
# stands at crates/cases/out/cases; COUNT says how many projects there are. Its last line is 'N
# passed, M failed'; before it stands how many audits print nothing, and what becomes of the others.
set -u
program=${CASES:-$PWD/crates/cases/out/cases}
. tests/lib.sh
if ! is_there python3; then
    skip 'audits of generated projects' 'there is no python3'
    finish
fi
needs_built "$program"
tools/generated-audits "$program" 1 "${COUNT:-1000}"
