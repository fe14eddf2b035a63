#!/usr/bin/env bash
# Meta mode on real files, with commands that write their own records: meta files that are not whole,
# runs that are killed, and many jobs. Run it at the top of the repository, where the program stands at
# crates/bmake/out/bmake. Its last line is 'N passed, M failed'.
set -u
program=${BMAKE:-$PWD/crates/bmake/out/bmake}
. tests/lib.sh
export TMPDIR=$room/outputs
mkdir "$TMPDIR"
needs_built "$program"

# The clock of a file system goes in steps, of four milliseconds on many machines, and a file that was
# changed in the step in which a job began counts as changed behind it. So a row that wants the run after
# it to do nothing waits for more than a step between its change and its run.

# A run with these words, behind a pause: its exit status has to be 0, and what stands on standard output
# and standard error is kept in the files out and err of the room. What is wrong is said.
build() {
    pause
    "$program" "$@" >"$room/out" 2>"$room/err" </dev/null || printf 'status %s: %s; ' $? "$(cat "$room/err")"
}

# Whether the last run has printed this.
printed() {
    [ "$(cat "$room/out")" = "$1" ] || printf 'standard output: %s; ' "$(head -c 200 "$room/out")"
}

# join TARGET FILE..: writes the files into the target, piece by piece, and records it.
mkdir "$room/one" && cd "$room/one" || exit 1
cat >"$room/join" <<'END'
#!/bin/sh
to=$1
shift
: >"$to"
for from; do
    cat "$from" >>"$to" || exit 1
done
[ -z "${BMAKE_FILEMON:-}" ] || {
    echo "C $$ $PWD"
    for from; do
        echo "R $$ $from"
    done
    echo "W $$ $to"
} >>"$BMAKE_FILEMON"
END
chmod +x "$room/join"

# A target of two made files, and a header that no source list names.
cat >makefile <<'END'
.MAKE.MODE=meta curdirOk=yes missing-meta=yes missing-filemon=yes
t: x y
	../join t x y
x:
	../join x a h
y:
	../join y b
END
echo 1 >a
echo 2 >b
echo 3 >h
count 'all is built' "$(build)$(printed $'../join x a h\n../join y b\n../join t x y')$(holds t $'1\n3\n2')"
count 'a second run does nothing' "$(build)$(printed '')"
echo 4 >h
count 'a recorded file was edited' "$(build)$(printed $'../join x a h\n../join t x y')$(holds t $'1\n4\n2')"

# What may stand in place of a meta file: its target is made again, and what comes from it.
whole=$room/whole
cp x.meta "$whole"
size=$(wc -c <"$whole")
for part in $(seq 0 99); do
    head -c $((part * size / 100)) "$whole" >x.meta
    wrong=$(build)$(printed $'../join x a h\n../join t x y')$(holds t $'1\n4\n2')
    [ "$(tail -n 1 x.meta)" = "$(tail -n 1 "$whole")" ] || wrong="$wrong; x.meta is not whole"
    count "a meta file that was cut behind $part parts of 100" "$wrong"
done
for ((place = 0; place < size; place++)); do
    rm x.meta
    wrong=$(build)
    { head -c "$place" x.meta && printf X && tail -c +$((place + 2)) x.meta; } >"$whole" && cp "$whole" x.meta
    count "a meta file with an X at place $place" "$wrong$(build)$(holds t $'1\n4\n2')"
done
rm x.meta
head -c 67108864 /dev/zero >x.meta
count 'a meta file of 64 MiB of zeros' "$(build)$(printed $'../join x a h\n../join t x y')$(holds t $'1\n4\n2')"
cp y.meta x.meta
count 'a meta file of another target' "$(build)$(printed $'../join x a h\n../join t x y')$(holds t $'1\n4\n2')"
count 'nothing is left to do' "$(build)$(printed '')"
rm x.meta
mkdir x.meta
"$program" >"$room/out" 2>"$room/err" </dev/null
is=$?
wrong=
[ "$is" != 0 ] || wrong="status $is"
wrong="$wrong$(printed '')"
[ "$(cat "$room/err")" = $'bmake: read x.meta: Is a directory\nbmake: an outside call failed' ] || wrong="$wrong; standard error: $(cat "$room/err")"
count 'a directory in place of a meta file is a failure, and is left' "$wrong"
rmdir x.meta
count 'when it is gone, the target is made again' "$(build)$(printed $'../join x a h\n../join t x y')"

# Many jobs.
mkdir "$room/many" && cd "$room/many" || exit 1
cat >makefile <<'END'
.MAKE.MODE=meta curdirOk=yes missing-meta=yes missing-filemon=yes
PARTS=${:U:range=256:S/^/p/}
all: ${PARTS}
	@../join all ${PARTS}
.for p in ${PARTS}
$p:
	@../join $p s h
.endfor
END
echo 1 >s
echo 2 >h
count '256 targets by 64 jobs' "$(build -j 64)$([ "$(grep -c 1 all)" = 256 ] || echo 'all is not whole')"
count 'nothing is left to do behind many jobs' "$(build -j 64)$(printed '')"
echo 3 >h
count 'each of them is made again' "$(build -j 64)$([ "$(grep -c 3 all)" = 256 ] || echo 'all is not whole')"

# Many jobs, and few processes and open files: what cannot be started then is a fault of the outside or fails, which
# is told in a last line, and the next run makes what is left. Root has no such limit, so it becomes nobody.
nobody=
[ "$(id -u)" != 0 ] || nobody='setpriv --reuid=65534 --regid=65534 --clear-groups'
mkdir "$room/few" && cd "$room/few" || exit 1
cat >makefile <<'END'
.MAKE.MODE=meta curdirOk=yes missing-meta=yes
PARTS=${:U:range=256:S/^/p/}
all: ${PARTS}
.for p in ${PARTS}
$p:
	@sleep 0.2; echo $p >$p
.endfor
END
cp "$program" bmake
chmod 711 "$room"
chmod 777 . "$TMPDIR"
few() {
    # The word is split where it is used.
    # shellcheck disable=SC2086
    $nobody bash -c "ulimit -u $1; ulimit -n 64; exec ./bmake -j 256" >out 2>err </dev/null
    case $? in
        0) ;;
        1 | 3) tail -n 1 err | grep -q '^bmake: ' || printf 'no last line: %s; ' "$(head -c 200 err)" ;;
        *) printf 'status %s: %s; ' $? "$(head -c 200 err)" ;;
    esac
}
rest() {
    # shellcheck disable=SC2086
    $nobody ./bmake -j 8 >out 2>err </dev/null || printf 'status %s: %s; ' $? "$(head -c 200 err)"
    for part in $(seq 256); do [ "$(cat "p$part")" = "p$part" ] || printf 'p%s is not whole; ' "$part"; done
    [ -z "$(ls "$TMPDIR")" ] || printf 'left behind: %s; ' "$(ls "$TMPDIR")"
}
if $nobody ./bmake --version >/dev/null 2>&1; then
    for limit in 1000 300 60; do
        count "256 jobs, $limit processes and 64 open files" "$(few "$limit")"
        count "the run behind 256 jobs with $limit processes" "$(rest)"
        rm -f p*
    done
else
    echo 'skipped: few processes and open files (nobody may not run the program here)'
fi

# Runs that are killed with all their children, after an edit: the next run makes what a clean build
# makes, and then there is nothing left to do.
mkdir "$room/killed" && cd "$room/killed" || exit 1
cat >makefile <<'END'
.MAKE.MODE=meta curdirOk=yes missing-meta=yes missing-filemon=yes
PARTS=${:U:range=8:S/^/p/}
all: ${PARTS}
	@../join all ${PARTS}
.for p in ${PARTS}
$p:
	@../join $p s$p
.endfor
END
numbers='1 2 3 4 5 6 7 8'
for number in $numbers; do echo "$number" >"sp$number"; done
RANDOM=1
for round in $(seq 200); do
    pause
    for _ in 1 2 3; do echo "$round.$RANDOM" >"sp$((RANDOM % 8 + 1))"; done
    setsid "$program" -j 3 >/dev/null 2>&1 </dev/null &
    group=$!
    sleep "0.0$((RANDOM % 90 + 10))"
    kill -KILL -- "-$group" 2>/dev/null
    wait "$group" 2>/dev/null
    wrong=$(build -j 3)
    for number in $numbers; do
        cmp -s "sp$number" "p$number" || wrong="$wrong; p$number is not sp$number"
    done
    # The numbers are parted by the blanks between them.
    # shellcheck disable=SC2046
    cat $(printf 'sp%s ' $numbers) | cmp -s - all || wrong="$wrong; all is not whole"
    for file in p1 all; do
        tail -n 1 "$file.meta" | grep -q '^# end ' || wrong="$wrong; $file.meta is not whole"
    done
    count "a run that was killed, round $round" "$wrong"
done
count 'nothing is left to do behind killed runs' "$(build)$(printed '')"

finish
