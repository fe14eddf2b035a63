#!/usr/bin/env bash
# The line on a terminal that --progress shows while make waits. Run it at the top of the repository, where the program
# stands at crates/bmake/out. Its last line is 'N passed, M failed'.
set -u
program=${BMAKE:-$PWD/crates/bmake/out/bmake}
. tests/lib.sh
needs_built "$program"
if ! is_there script; then
    skip 'the line of --progress' 'needs script'
    finish
fi
export program
cr=$'\r'
kill=$'\033[K'
erased=$cr$kill

# The line as it is written.
line() {
    printf '%s' "${cr}bmake: $1$kill"
}

# One row, in an empty folder of its own: what it shows, the makefile, the run, how often it is tried, and then what is
# wanted of a terminal, on which standard error is, and standard output where it goes nowhere else, and of the file out.
# A terminal shows the end of a line as two bytes.
row() {
    local shows makefile run='"$program" --progress' tries=1 terminal='' out='' wrong='' at=0
    local "$@"
    local here=$room/$((passed + failed))
    while [ $at -lt "$tries" ]; do
        at=$((at + 1))
        rm -rf "$here"
        mkdir "$here"
        printf '%s' "$makefile" >"$here/makefile"
        (cd "$here" && : >out && script -qec "$run" /dev/null </dev/null >"$here.seen" 2>&1)
        wrong=$(same "$terminal" "$(cat "$here.seen")")$(holds "$here/out" "$out")
        [ -n "$wrong" ] || break
    done
    count "$shows" "$wrong"
}

long=$'t:\n\t@sleep 0.6; echo made\n'
row shows='a command that takes long: the line comes, and is erased before the output' makefile="$long" \
    terminal="$(line '0 of 1 done, 1 running, t')$erased"$'made\r'
row shows='it is on standard error' makefile="$long" run='"$program" --progress >out' \
    terminal="$(line '0 of 1 done, 1 running, t')$erased" out=made
row shows='standard output is the same without --progress, and no line comes' makefile="$long" run='"$program" >out' out=made
row shows='no line comes where standard error is no terminal' makefile="$long" run='"$program" --progress 2>out' terminal=$'made\r'
row shows='standard output may be a terminal then, and is as without --progress' makefile="$long" run='"$program" 2>out' \
    terminal=$'made\r'
# On a busy machine a command may take long that is short elsewhere.
row shows='no line comes for short commands' makefile=$'all: a b c\na b c:\n\t@echo ${.TARGET}\n' tries=5 \
    terminal=$'a\r\nb\r\nc\r'
row shows='two children, and then the one that is left' makefile=$'all: a b\na:\n\t@sleep 0.5\nb:\n\t@sleep 1.2\n' \
    run='"$program" -j2 --progress' \
    terminal="$(line '0 of 3 done, 2 running, a')$erased$(line '1 of 3 done, 1 running, b')$erased"
row shows='sources count among all targets' makefile=$'t: makefile\n\t@sleep 0.6\n' \
    terminal="$(line '1 of 2 done, 1 running, t')$erased"
row shows='it is erased before the message of a command that fails' makefile=$'t:\n\t@sleep 0.6; false\n' \
    terminal="$(line '0 of 1 done, 1 running, t')$erased"$'bmake: target t command 1: status 1\r'
row shows='it is erased before the fault of a wait' makefile=$'t:\n\t@sleep 0.6; head -c 70000000 /dev/zero\n' \
    terminal="$(line '0 of 1 done, 1 running, t')$erased"$'bmake: wait /bin/sh: more than 64 MiB\r\nbmake: an outside call failed\r'
row shows='control characters of a name' makefile=$'t\001\177u:\n\t@sleep 0.6\n' \
    terminal="$(line '0 of 1 done, 1 running, t??u')$erased"
name=$(printf '%.0sx' $(seq 100))
row shows='a name that is too long' makefile="$name"$':\n\t@sleep 0.6\n' \
    terminal="$(line "0 of 1 done, 1 running, ${name:0:48}")$erased"
row shows='a make below prints no line into the output of its target' makefile=$'t:\n\t@"$$program" --progress u\nu:\n\t@sleep 0.6; echo made\n' \
    terminal="$(line '0 of 1 done, 1 running, t')$erased"$'made\r'
row shows='-n shows none' makefile="$long" run='"$program" -n --progress' terminal=$'sleep 0.6; echo made\r'
finish
