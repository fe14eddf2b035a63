#!/usr/bin/env bash
# Audits on a real machine, of builds that fmtrace has recorded: for each breach a makefile that has
# it and one that is like it and has none, the order of the lines, the status, and that an audit
# starts nothing and changes nothing. Run it at the top of the repository, where the programs stand
# at crates/{bmake,fmtrace}/out. Its last line is 'N passed, M failed'.
set -u
program=${BMAKE:-$PWD/crates/bmake/out/bmake}
recorder=${FMTRACE:-$PWD/crates/fmtrace/out/fmtrace}
. tests/lib.sh
room=$(cd "$room" && pwd -P)
if ! strace -f -D -o "$room/trace" true 2>/dev/null || [ ! -s "$room/trace" ]; then
    skip 'audits of recorded builds' 'there is no strace, or it may not trace here'
    finish
fi
needs_built "$program" "$recorder"
top=$PWD
export TMPDIR=$room/outputs
mkdir "$TMPDIR"

# A recorder that tells of each command that it starts.
cat >"$room/recorder" <<END
#!/bin/sh
echo "\$*" >>"$room/started"
exec "$recorder" "\$@"
END
chmod +x "$room/recorder"
export BMAKE_RECORDER=$room/recorder

# All files of folders, with their sizes, numbers and times.
listing() {
    find "$@" -printf '%p %y %s %i %T@ %C@\n' | LC_ALL=C sort
}

# What is said on standard error of these lines.
breaches() {
    [ -z "$1" ] || echo "bmake: breaches $(printf '%s\n' "$1" | wc -l)"
}

# One audit in the folder where it is run: the call, its status, what it starts, and what is wanted
# on standard output and standard error. What is wrong is said. Where something is started, make has
# a folder of its own for a time in that of TMPDIR.
audited() {
    local run=$1 status=$2 started=$3 out=$4 err=$5 is=0 folders=". $TMPDIR"
    [ -z "$started" ] || folders=.
    rm -f "$room/started"
    # shellcheck disable=SC2086
    listing $folders >"$room/before"
    eval "$run" >"$room/out" 2>"$room/err" </dev/null || is=$?
    # shellcheck disable=SC2086
    listing $folders >"$room/behind"
    [ "$is" = "$status" ] || printf 'status %s and not %s; ' "$is" "$status"
    same "$out" "$(cat "$room/out")"
    same "$err" "$(cat "$room/err")"
    same "$started" "$(cat "$room/started" 2>/dev/null)"
    same '' "$(diff "$room/before" "$room/behind")"
    same '' "$(ls "$TMPDIR")"
}

# One row, in a folder of its own with the files a, h and i: what it shows, the shell lines before
# the build, the makefile behind the line of the mode, the words of the build and its status, the
# shell lines behind it, the words of the audit and its lines. By these lines, each of a breach, the
# status follows and what stands on standard error, where `outcome` and `err` do not tell; `started`
# is what the audit starts, and `run` the call itself. The clock of a file system goes in steps:
# before the build, and before the shell lines behind it, there is a pause.
mode='.MAKE.MODE=meta curdirOk=yes missing-meta=yes missing-filemon=yes'
row() {
    local shows before=: mode=$mode makefile build=-s status=0 edit=: words='' out=''
    local outcome='' err=none started='' run='"$program" --audit $words' is=0 wrong=''
    local "$@"
    local here=$room/$((passed + failed))
    if [ -z "$outcome" ]; then
        outcome=$([ -z "$out" ]; echo $?)
        [ "$err" != none ] || err=$(breaches "$out")
    fi
    mkdir "$here" && cd "$here" || exit 1
    printf '%s\n%s' "$mode" "$makefile" >makefile
    for file in a h i; do echo "$file" >"$file"; done
    eval "$before" || wrong='the lines before the build failed; '
    pause
    # The words are parted by the blanks between them.
    # shellcheck disable=SC2086
    "$program" $build >"$room/out" 2>&1 </dev/null || is=$?
    [ "$is" = "$status" ] || wrong="${wrong}the build: status $is, $(head -c 500 "$room/out"); "
    pause
    eval "$edit" || wrong="${wrong}the lines behind the build failed; "
    count "$shows" "$wrong$(audited "$run" "$outcome" "$started" "$out" "$err")"
    cd "$top" || exit 1
}

# ---- Nothing ----

row shows='what is built and declared' \
    makefile=$'all: tool .PHONY\nt: a\n\tcat a h >t\ntool: t\n\tcat t i >tool\n'
row shows='before the first build' build=-n words='-j4 t u' \
    out=$'stale t missing\nstale u missing' \
    makefile=$'all: t u .PHONY\nt: a\n\tcat a >t\nu: t\n\tcat t >u\n'

# ---- The plan as a whole ----

one=$'t: a\n\tcat a >t\n'
row shows='the mode' makefile="$one" \
    mode='.MAKE.MODE=meta silent=yes curdirOk=yes missing-meta=yes missing-filemon=yes'
row shows='the mode without missing-filemon' makefile="$one" out=mode \
    mode='.MAKE.MODE=meta curdirOk=yes missing-meta=yes'
row shows='the mode without missing-meta' makefile="$one" out=mode \
    mode='.MAKE.MODE=meta curdirOk=yes missing-filemon=yes'
row shows='commands are not compared' makefile="$one" out=mode mode="$mode ignore-cmd"
row shows='records do not count' makefile="$one" out=$'mode\nstale t norecords' \
    mode="$mode nofilemon"
row shows='a path is ignored' makefile=$'.MAKE.META.IGNORE_PATHS=/etc\n'"$one" out=mode
row shows='no path is' makefile=$'.MAKE.META.IGNORE_PATHS=\n'"$one"
row shows='no meta mode' makefile="$one" mode='' out=$'mode\nunrecorded t'

# ---- The commands of a target ----

row shows='no meta file is compared' makefile=$'t: a .NOMETA_CMP\n\tcat a >t\n' out='unmeta t'
row shows='no meta file is kept' makefile=$'t: a .NOMETA\n\tcat a >t\n' \
    out=$'unmeta t\nunrecorded t'
row shows='nor is one of a target without commands' \
    makefile="all: t .PHONY .NOMETA .NOMETA_CMP$nl$one"

row shows='a line that cannot be expanded' makefile=$'t: a\n\tcat ${X:Z} >t\n' status=2 out='task t'
row shows='nothing else is told of its target' \
    makefile=$'t: a .NOMETA\n\tcat ${X:Z} ${.OODATE} >t\n' status=2 out=$'unmeta t\ntask t'
row shows='a line that can be' makefile=$'t: a\n\tcat ${X:Ua} >t\n'

row shows='the newer sources' makefile=$'t: a\n\techo ${.OODATE} >t\n' out='oodate t'
row shows='the newer sources, by a variable' makefile=$'N=$?\nt: a\n\tcat a >t # ${N:Mnone}\n' \
    out='oodate t'
row shows='all sources' makefile=$'N=$>\nt: a\n\techo ${.ALLSRC} ${N} >t\n'
row shows='a sign of the shell' makefile=$'t: a\n\tcat a >t; echo $$? >>t\n'

two=$'all: u t .PHONY\nu: a\n\tcat a >u\n'
row shows='a made file that is asked for' makefile="$two"$'t: a\n\techo ${exists(u):?1:2} >t\n' \
    out='exists t u'
row shows='a meta file that is asked for' \
    makefile="$two"$'t: a\n\techo ${exists(u.meta):?1:2} >t\n' out='exists t u.meta'
row shows='a file that is left beside a target and asked for' out='exists t side' \
    makefile=$'all: u t .PHONY\nu: a\n\techo 1 >side; cat a >u
t: a\n\techo ${exists(side):?1:2} >t\n'
row shows='sources that are asked for' \
    makefile="$two"$'t: a\n\techo ${exists(a):?1:2} ${exists(h):?1:2} ${exists(none):?1:2} >t\n'

row shows='a phony target with commands' out='unrecorded p' \
    makefile="all: t p .PHONY$nl$one"$'p: .PHONY\n\techo p\n'
row shows='a phony target without commands' makefile="all: t p .PHONY$nl$one"$'p: a .PHONY\n'
row shows='a phony target that is recorded' \
    makefile="all: t p .PHONY$nl$one"$'p: .PHONY .META\n\tcat h\n'
row shows='commands of .BEGIN and .END' out=$'unrecorded .BEGIN\nunrecorded .END' \
    makefile=$'.BEGIN:\n\techo first\n.END:\n\techo last\n'"$one"
row shows='.BEGIN and .END without commands' makefile=$'.BEGIN:\n.END:\n'"$one"

# ---- Targets that are out of date ----

apart=$'all: t u .PHONY\nt: a\n\tcat a >t\nu:\n\tcat t i >u\n'
both=$'all: t u .PHONY\nt: a\n\tcat a >t\nu: t\n\tcat t i >u\n'
row shows='a target is missing' makefile="$one" edit='rm t' out='stale t missing'
row shows='a target that is not asked for is missing' makefile="$both" edit='rm u' words=t
row shows='a source is newer' makefile="$one" edit='echo 2 >a' out='stale t newer'
row shows='another source is' makefile="$one" edit='echo 2 >h'
row shows='a meta file is missing' makefile="$one" edit='rm t.meta' out='stale t nometa'
row shows='a meta file is not whole' makefile="$one" out='stale t nometa' \
    edit='head -n 6 t.meta >part; mv part t.meta'
row shows='a meta file is of another target' makefile="$both" words=t out='stale t nometa' \
    edit='cp u.meta t.meta'
row shows='a meta file is written anew' makefile="$one" edit='cp -p t.meta whole; mv whole t.meta'
row shows='a target was written by something else' makefile="$one" edit='echo 2 >t' \
    out='stale t touched'
row shows='and put back with its time' makefile="$one" edit='cp -p t old; echo 2 >t; mv old t'
row shows='another command' makefile=$'X=1\nt: a\n\tcat a >t; echo ${X} >>t\n' words=X=2 \
    out='stale t command'
row shows='the same command' makefile=$'X=1\nt: a\n\tcat a >t; echo ${X} >>t\n' words=X=1
row shows='another exported variable' makefile=$'X=1\n.export X\nt: a\n\tcat a >t\n' words=X=2 \
    out='stale t command'
row shows='the same exported variable' makefile=$'X=1\n.export X\nt: a\n\tcat a >t\n' words=X=1
row shows='another directory' makefile="$one" out='stale t command' \
    edit='mkdir copy && cp -p a t t.meta makefile copy && cd copy'
row shows='failures are passed over' makefile="$one" words=-i out='stale t command'
row shows='they were, too' makefile="$one" build='-s -i' words=-i
row shows='nothing was recorded' makefile="$one" out='stale t norecords' \
    before='export BMAKE_RECORDER=' edit="export BMAKE_RECORDER=$room/recorder"
row shows='a process runs on behind its command' out='stale t read' \
    makefile=$'t: a\n\tcat a >t; sleep 5 >/dev/null 2>&1 &\n'
row shows='a process that is waited for' makefile=$'t: a\n\tcat a >t & sleep 0.1; wait\n'

seek=$'t: a\n\tcat a h >t; [ ! -e none ] || echo 1 >>t\n'
row shows='a file that was read is changed' makefile="$seek" edit='echo 2 >h' out='stale t read'
row shows='a file that was read is gone' makefile="$seek" edit='rm h' out='stale t read'
row shows='a file that was not read is gone' makefile="$seek" edit='rm i'
row shows='a file that was missed is there' makefile="$seek" edit=': >none' out='stale t appeared'
row shows='a file that was not missed is there' makefile="$seek" edit=': >nothing'
beside=$'t: a\n\techo 1 >side; echo 1 >gone; rm gone; cat a >t\n'
row shows='a file that was left beside the target is gone' makefile="$beside" edit='rm side' \
    out='stale t left'
row shows='a file that was left is there, and one for a time is not' makefile="$beside"
row shows='the first reason counts' makefile="$one" edit='rm t t.meta; echo 2 >a' \
    out='stale t missing'
row shows='what is read of a target that is out of date counts' makefile="$apart" edit='echo 2 >a' \
    out=$'stale t newer\nreads-made u t'
row shows='of a target that is out of date no more is told' makefile="$apart" edit='echo 2 >i' \
    out='stale u read'

# ---- What jobs read ----

row shows='a made file is read and not declared' makefile="$apart" out='reads-made u t'
row shows='it is declared' makefile="$both"
row shows='it is declared by a target without commands' \
    makefile=$'all: u .PHONY\nt: a\n\tcat a >t\nbetween: t\nu: between\n\tcat t i >u\n'
row shows='an order of both declares nothing' out='reads-made u t' \
    makefile=$'all: u t .PHONY\n.ORDER: t u\nt: a\n\tcat a >t\nu: a\n\tcat t i >u\n'
row shows='a made file is looked at' out='reads-made u t' \
    makefile=$'all: t u .PHONY\nt: a\n\tcat a >t\nu:\n\t[ ! -e t ] || cat i >u\n'
row shows='a made file is read by other names' out='reads-made u d/t' before='mkdir d' \
    makefile=$'all: d/t u .PHONY\nd/t: a\n\tcat a >d/t
u:\n\tcd d; cat ../d/t "$$PWD/t" ./t >../u\n'
row shows='a made file is read by a symbolic link' out='reads-made u t' before='ln -s t l' \
    makefile=$'all: t u .PHONY\nt: a\n\tcat a >t\nu:\n\tcat l >u\n'
row shows='a made program is run' out='reads-made u d/run' before='mkdir d' \
    makefile=$'all: d/run u .PHONY\nd/run: a\n\techo cat i >d/run; chmod +x d/run
u: i\n\td/run >u\n'
row shows='a made program is run that is declared' before='mkdir d' \
    makefile=$'all: u .PHONY\nd/run: a\n\techo cat i >d/run; chmod +x d/run\nu: d/run\n\td/run >u\n'
for way in '. ./t; : >u' '[ ! -s t ] || : >u' '[ t -nt a ] && : >u' 'ls -l t >u' 'cp -p t u' \
    'exec 3<t; sort <&3 >u' 'cd d; awk 1 ../t >../u'; do
    row shows="a made file is read by $way" out='reads-made u t' before='mkdir d' \
        makefile=$'all: t u .PHONY\nt: a\n\techo x=1 >t\nu:\n\t'"$way$nl"
done
row shows='a made file is looked for in vain' out='stale u appeared' \
    makefile=$'all: u t .PHONY\nt: a\n\tcat a >t\nu:\n\t[ -e t ] || cat i >u\n'
row shows='several are told in the order of their records' out=$'reads-made u t2\nreads-made u t1' \
    makefile=$'all: t1 t2 u .PHONY\nt1 t2:\n\techo 1 >${.TARGET}\nu:\n\tcat t2 t1 i t2 >u\n'

left=$'all: t u .PHONY\nt: a\n\techo 1 >side; cat a >t\nu: t\n'
row shows='a file is read that another target leaves' makefile="$left"$'\tcat side >u\n' \
    out=$'changes t side\nreads-changed u side'
for way in 'touch side' 'cp a side' 'cp a new; mv new side' 'ln -sf a side' 'rm side' \
    'sed 1d a | tee side'; do
    row shows="a file is changed by $way" out=$'changes t side\nreads-changed u side' \
        before=': >side' makefile=$'all: t u .PHONY\nt: a\n\t'"$way"$'; cat a >t
u: t\n\t[ ! -e side ] || : >u; : >u\n'
done
row shows='a file is read that no target leaves' makefile="$left"$'\tcat i >u\n'
row shows='a file is read that its own target has left' \
    makefile=$'t: a\n\techo 1 >side; cat side a >t\n'
row shows='a file is read and then left' out=$'stale t read' before=': >side' \
    makefile=$'t: a\n\tcat side a >t; echo 1 >>side\n'

# ---- What jobs change ----

row shows='two targets leave a file' out=$'changes t side\nchanges u side' \
    makefile="$left"$'\techo 2 >side; cat i >u\n'
row shows='each leaves one of its own' makefile="$left"$'\techo 2 >other; cat i >u\n'
row shows='each has one for a time' \
    makefile=$'all: t u .PHONY\nt u: a\n\techo 1 >${.TARGET}.side; mv ${.TARGET}.side ${.TARGET}\n'
row shows='a target writes the file of another one' out=$'stale t touched\nchanges u t' \
    makefile=$'all: t u .PHONY\nt: a\n\tcat a >t\nu: t\n\techo 2 >t; cat i >u\n'
row shows='a source is changed' makefile=$'t: a\n\techo 2 >a; cat a >t\n' out='changes t a'
row shows='a file is changed that nobody else names' makefile=$'t: a\n\techo 2 >h; cat a >t\n'
row shows='a phony target changes what another one reads' out=$'changes p i\nreads-changed t i' \
    makefile=$'all: p t .PHONY\np: .PHONY .META\n\techo 1 >i\nt: a\n\tcat i >t\n'
row shows='a phony target changes what nobody reads' \
    makefile=$'all: p t .PHONY\np: .PHONY .META\n\techo 1 >i\nt: a\n\tcat a >t\n'
row shows='a target is not written' makefile=$'t: a\n\tcat a\n' before='pause; echo 1 >t' \
    out='unwritten t'
row shows='a target is written by a name of its own' makefile=$'t: a\n\tcat a >./t\n' \
    before='pause; echo 1 >t'
row shows='a target is moved into its place' makefile=$'t: a\n\tcat a >t.new; mv t.new t\n'
row shows='a phony target writes nothing' \
    makefile="all: t p .PHONY$nl$one"$'p: .PHONY .META\n\tcat h\n'

row shows='a meta file is read' makefile=$'u: t\n\tcat t.meta >u\n'"$one" out='meta u t.meta'
row shows='a file is read whose name is nearly one' before=': >t.metal' \
    makefile=$'u: t\n\tcat t.metal >u\n'"$one"
row shows='a target is named as a meta file' makefile=$'t.meta: a\n\tcat a >t.meta\n' \
    out='meta t.meta t.meta'
row shows='a target is nearly named so' makefile=$'tmeta: a\n\tcat a >tmeta\n'

# ---- Many at once ----

# Each kind is told of the target u, in the order in which kinds are defined, with paths as they
# were asked for or recorded; and targets are told in the order of the plan.
many=$'all: t u v w .PHONY
t: a\n\techo 1 >side; cat a >t
u: i .NOMETA_CMP
\techo ${.OODATE} ${exists(t):?1:2} ${exists(side):?1:2} ${exists(t.meta):?1:2} >other
\tcat w.meta side t w >more
v: u\n\tcat more other >v
w: i\n\tcat h >w\n'
lines='mode
changes t side
unmeta u
oodate u
exists u t
exists u side
exists u t.meta
reads-made u t
reads-made u w
reads-changed u side
changes u other
changes u more
unwritten u
meta u w.meta
reads-changed v more
reads-changed v other'
row shows='all kinds, each in its place' makefile="$many" mode="${mode% *}" build='-s w' \
    out="$lines" \
    edit='echo 1 >u && "$program" -s t && pause && "$program" -s u && pause && "$program" -s v'

# ---- Words, and what an audit leaves alone ----

row shows='several jobs' makefile="$apart" words=-j4 out='reads-made u t'
row shows='a target in which all is declared' makefile="$apart" words=t
row shows='a target alone, of which the read is no part' makefile="$apart" words=u
row shows='both targets, in another order' makefile="$apart" words='u t' out='reads-made u t'
row shows='other words' makefile="$apart" words='-k -s -B -j 3 -- u t' out='reads-made u t'
row shows='lines that -n starts are not started' makefile=$'t: a\n\t+@cat a >t\n' build=-n \
    edit='rm -f t t.meta' out='stale t missing'
row shows='what a build makes is not made' makefile="$both" build=-n \
    out=$'stale t missing\nstale u missing'
row shows='a command that failed' makefile=$'t: a\n\tcat a >t; false\n' status=1 \
    out='stale t nometa'
row shows='a target that nothing makes' makefile="$one" words=x outcome=2 \
    err="bmake: don't know how to make x"

# The commands of `!=` are asked for, and no other command is started.
row shows='what the makefile asks of commands' makefile=$'X!=echo 1; cat h\n'"$one" \
    started='/bin/sh -c echo 1; cat h'

# Where the lines cannot be written the run fails, and where there are none nothing is written.
row shows='a closed standard output' makefile="$apart" outcome=3 run='"$program" --audit >&-' \
    err='bmake: write standard output: Bad file descriptor'
row shows='a closed standard output, and nothing to tell' makefile="$both" \
    run='"$program" --audit >&-'
if [ -w /dev/full ]; then
    row shows='a full device' makefile="$apart" outcome=3 run='"$program" --audit >/dev/full' \
        err='bmake: write standard output: No space left on device'
fi
row shows='a closed standard error' makefile="$apart" outcome=3 out='reads-made u t' err='' \
    run='"$program" --audit 2>&-'

# What an audit asks of the system for files, under strace: of each path the times once, and of each
# makefile and meta file the bytes once.
asked() {
    strace -f -e trace=statx,openat -o "$room/calls" "$program" --audit
    sed -nE -e 's/^[0-9]+ +(statx)\(AT_FDCWD, "([^"]+)", .*/\1 \2/p' \
        -e 's/^[0-9]+ +(openat)\(AT_FDCWD, "([^"/][^"]*)", .*/\1 \2/p' "$room/calls" >"$room/asked"
    LC_ALL=C sort "$room/asked" | uniq -d
    for file in a i t u t.meta u.meta; do
        grep -qx "statx $file" "$room/asked" || echo "no times of $file"
    done
    for file in makefile t.meta u.meta; do
        grep -qx "openat $file" "$room/asked" || echo "no bytes of $file"
    done
}
row shows='each path is asked for once' makefile="$both" run=asked

# ---- What is not told ----

# A directory that a command makes: only files are recorded as written.
row shows='a directory that a target makes' \
    makefile=$'all: t u .PHONY\nt: a\n\tmkdir d; cat a >t\nu: a\n\t[ ! -d d ] || cat a >u\n'

# A listing of a directory in which files are made: it is recorded as a read of the directory, and
# what is made there as a write of the file alone.
row shows='a listing of made files' before='mkdir d' \
    makefile=$'all: d/t u .PHONY\nd/t: a\n\tcat a >d/t\nu: a\n\tls d >u\n'

# Two targets have the same file for a time, and leave none: what a command takes away again is not
# recorded of it. Where they run side by side, each may have what the other one wrote.
row shows='two targets have a file for a time' \
    makefile=$'all: t u .PHONY\nt u: a\n\techo ${.TARGET} >side; mv side ${.TARGET}\n'

finish
