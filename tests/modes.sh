#!/usr/bin/env bash
# The words of the command line and the environment as the built program has them, what it reads of a makefile by them,
# and the modes that build nothing. Run it at the top of the repository, where the programs stand at
# crates/{bmake,fmrun}/out. Its last line is 'N passed, M failed'.
set -u
program=${BMAKE:-$PWD/crates/bmake/out/bmake}
small=${FMRUN:-$PWD/crates/fmrun/out/fmrun}
. tests/lib.sh
needs_built "$program" "$small"
top=$PWD

# One row, in an empty folder of its own: what it shows, the shell lines before, the makefile, the run, and then the
# status, standard output and standard error that are wanted.
row() {
    local shows before=: makefile='' run='"$program"' status=0 out='' err='' is wrong=''
    local "$@"
    local here=$room/$((passed + failed))
    mkdir "$here"
    (
        cd "$here" || exit 125
        [ -z "$makefile" ] || printf '%s' "$makefile" >makefile
        eval "$before" || exit 125
        eval "$run" </dev/null >"$here.out" 2>"$here.err"
    )
    is=$?
    [ "$is" = "$status" ] || wrong="status $is and not $status; "
    wrong="$wrong$(same "$out" "$(cat "$here.out")")$(same "$err" "$(cat "$here.err")")"
    count "$shows" "$wrong"
}

# The words.
row shows='--version alone' run='"$program" --version' out='bmake 0.1.0'
row shows='--version beside another word is refused' run='"$program" --version x' status=2 err='bmake: bad word: --version'
row shows='--help alone' run='"$program" --help | head -n 1' out='usage: bmake [options] [NAME=VALUE ..] [TARGET ..]'
row shows='a word that is not UTF-8' run='"$program" -V A X=$'"'"'\xe9'"'" makefile=$'A=1\n' status=2 \
    err=$'bmake: bad word: X=\xe9'
row shows='the last -j counts, and a number out of its range is refused' run='"$program" -j4 -j 257' status=2 err='bmake: bad word: 257'

# The environment.
row shows='a variable of the environment' makefile=$'A?=makefile\n' run='A=environment "$program" -v A' out=environment
row shows='a makefile stands above it' makefile=$'A=makefile\n' run='A=environment "$program" -v A' out=makefile
row shows='with -e it stands above the makefile' makefile=$'A=makefile\n' run='A=environment "$program" -e -v A' out=environment
row shows='the command line stands above both' makefile=$'A=makefile\n' run='A=environment "$program" -e A=word -v A' out=word
row shows='a value has signs and blanks as they are' makefile=$'B=1\n' run='A="x=y  z" "$program" -v A' out='x=y  z'
row shows='a long value of the environment' makefile=$'B=1\n' \
    before='long=$(printf "%0.s0123456789" $(seq 1000))' run='A=$long "$program" -v A | wc -c' out=10001
row shows='an empty value is defined' makefile=$'.ifdef A\nB=yes\n.endif\n' run='A= "$program" -v B' out=yes
row shows='a command finds the environment' makefile=$'t:\n\t@echo $$A\n' run='A=1 "$program"' out=1
row shows='a child finds what is exported, and else the environment' makefile=$'A=2\nB=2\n.export B\nt:\n\t@echo $$A $$B\n' \
    run='A=1 B=1 "$program"' out='1 2'

# What is read of a makefile by them.
row shows='.NOTMAIN' makefile=$'a: .NOTMAIN\n\t@echo a\nb:\n\t@echo b\n' out=b
row shows='.NOTMAIN in a second line of its target' makefile=$'a:\n\t@echo a\nb:\n\t@echo b\na: .NOTMAIN\n' out=b
row shows='.elifdef' makefile=$'A=1\n.ifdef B\nR=if\n.elifdef A\nR=elif\n.else\nR=else\n.endif\n' run='"$program" -v R' out=elif
row shows='.elifndef' makefile=$'.ifdef B\nR=if\n.elifndef B\nR=elif\n.endif\n' run='"$program" -v R' out=elif
row shows='.elifmake' makefile=$'.ifmake a\nR=a\n.elifmake b\nR=b\n.endif\na b:\n\t@echo ${R}\n' run='"$program" b' out=b
row shows='.elifnmake' makefile=$'.ifmake a\nR=a\n.elifnmake b\nR=not b\n.else\nR=b\n.endif\na b:\n\t@echo ${R}\n' run='"$program" b' out=b

# -n and -q.
row shows='-n shows .BEGIN and .END' makefile=$'.BEGIN:\n\tfirst\n.END:\n\tlast\nt:\n\tmiddle\n' run='"$program" -n' \
    out=$'first\nmiddle\nlast'
row shows='-n shows nothing of a node with a line that cannot be expanded' makefile=$'all: s t\ns:\n\tone\nt:\n\ttwo ${:X\n' \
    run='"$program" -n' status=2 out=one err='bmake: target t command 1: unclosed reference at 4'
row shows='-n -k goes on behind it' makefile=$'all: t s\ns:\n\tone\nt:\n\ttwo ${:X\n' \
    run='"$program" -n -k' status=2 out=one err='bmake: target t command 1: unclosed reference at 4'
row shows='-n shows lines that -i ignores as they are' makefile=$'t:\n\t-false\n\t@true\n' run='"$program" -n -i' out=$'false\ntrue'
row shows='-n starts a line with +, and shows its output' makefile=$'t:\n\t+@echo said\n\t@echo not\n' run='"$program" -n' \
    out=$'echo said\nsaid\necho not'
row shows='-q prints nothing of what it would make' makefile=$'t:\n\techo t\n' run='"$program" -q' status=1
row shows='-q where all is there' makefile=$'t:\n\techo t\n' before=': >t' run='"$program" -q'

# --explain, of each reason that meta mode has and a tour of a compiler does not.
meta=$'.MAKE.MODE=meta curdirOk=yes missing-meta=yes missing-filemon=yes\n'
export F=$small
row shows='--explain: nothing where nothing has changed' makefile="$meta"$'t:\n\t${F} put t 1\n' \
    before='"$program" -s && pause' run='"$program" --explain'
row shows='--explain: another directory' makefile="$meta"$'t:\n\t${F} put t 1\n' \
    before='"$program" -s && mkdir copy && cp -p makefile t t.meta copy && cd copy' run='"$program" --explain' out='t directory'
row shows='--explain: more lines' makefile="$meta"$'t:\n\t${F} put t 1\n' \
    before='"$program" -s && pause && printf "\t@true\n" >>makefile' run='"$program" --explain' out='t lines 1 2'
row shows='--explain: nothing was recorded' makefile="$meta"$'t:\n\techo 1 >t\n' \
    before='"$program" -s && pause' run='"$program" --explain' out='t no records'
row shows='--explain: what it left is missing' makefile="$meta"$'t:\n\t${F} put side 1\n\t${F} put t 1\n' \
    before='"$program" -s && pause && rm side' run='"$program" --explain' out='t left side'
row shows='--explain: what it missed is there' makefile="$meta"$'t:\n\t${F} probe t other\n' \
    before='"$program" -s && pause && : >other' run='"$program" --explain' out='t appeared other'
row shows='--explain: another exported variable' makefile="$meta"$'A?=1\n.export A\nt:\n\t${F} env t A\n' \
    before='"$program" -s && pause' run='"$program" --explain A=2' out='t exports'
row shows='--explain: a command that failed' makefile="$meta"$'t:\n\t${F} put t 1\n\t${F} fail 3\n' \
    before='! "$program" -s 2>/dev/null && pause' run='"$program" --explain' out='t no meta'

# --audit.
row shows='--audit: nothing of what is built and declared' makefile="$meta"$'t: s\n\t${F} cat t s\n' \
    before='echo 1 >s && "$program" -s && pause' run='"$program" --audit'
row shows='--audit: a made file that is read and not declared' \
    makefile="$meta"$'all: s t\n.PHONY: all\ns:\n\t${F} put s 1\nt:\n\t${F} cat t s\n' before='"$program" -s && pause' \
    run='"$program" --audit' status=1 out='reads-made t s' err='bmake: breaches 1'
row shows='--audit: a made file that was removed' makefile="$meta"$'t:\n\t${F} put t 1\n' \
    before='"$program" -s && pause && rm t' run='"$program" --audit' status=1 out='stale t missing' err='bmake: breaches 1'
row shows='--audit: the mode' makefile=$'.MAKE.MODE=meta curdirOk=yes missing-meta=yes\nt:\n\t${F} put t 1\n' \
    before='"$program" -s && pause' run='"$program" --audit' status=1 out=mode err='bmake: breaches 1'
row shows='--audit: it makes and starts nothing' makefile="$meta"$'t:\n\t${F} put t 1\n' \
    run='"$program" --audit; echo "$?"; ls' out=$'stale t missing\n1\nmakefile' err='bmake: breaches 1'
row shows='--audit comes before --explain' makefile="$meta"$'t:\n\t${F} put t 1\n' \
    run='"$program" -n -q --explain --audit' status=1 out='stale t missing' err='bmake: breaches 1'
row shows='behind -- the word --audit is a target' makefile=$'t:\n\t@echo t\n' run='"$program" -- --audit' status=2 \
    err="bmake: don't know how to make --audit"

# What a line has printed comes when it has ended, while another job runs.
mkdir "$room/slow" && cd "$room/slow" || exit 1
printf 'all: quick slow\nquick:\n\t@echo quick\nslow:\n\t@while [ ! -e go ]; do sleep 0.05; done; echo slow\n' >makefile
"$program" -j2 >out 2>&1 &
make=$!
for _ in $(seq 1 1200); do
    grep -q '^quick$' out && break
    sleep 0.05
done
seen=$(cat out)
: >go
wait "$make"
count 'output comes when a line has ended' "$(same $'--- quick ---\nquick' "$seen")$(same $'--- quick ---\nquick\n--- slow ---\nslow' "$(cat out)")"
cd "$top" || exit 1
finish
