#!/usr/bin/env bash
# The tool undeclared: which reads and changes of a recorded build it tells of. Run it at the top of the repository, where
# the programs stand at crates/{bmake,fmrun}/out. Its last line is 'N passed, M failed'.
set -u
program=${BMAKE:-$PWD/crates/bmake/out/bmake}
small=${FMRUN:-$PWD/crates/fmrun/out/fmrun}
recorder=${FMTRACE:-$PWD/crates/fmtrace/out/fmtrace}
. tests/lib.sh
if ! is_there python3; then
    skip 'undeclared reads' 'there is no python3'
    finish
fi
needs_built "$program" "$small"
export BMAKE=$program F=$small
tool=$PWD/tools/undeclared
top=$PWD
mode=$'.MAKE.MODE=meta curdirOk=yes missing-meta=yes missing-filemon=yes\n'

# One row: what it shows, a makefile, and the lines that the tool prints behind a build, with its status.
row() {
    local shows makefile words='' out status=0 is wrong=''
    local "$@"
    local here=$room/$((passed + failed))
    mkdir "$here" && cd "$here" || exit 1
    printf '%s%s' "$mode" "$makefile" >makefile
    echo 1 >source
    # The words are parted by the blanks between them.
    # shellcheck disable=SC2086
    "$program" -s $words >"$here.out" 2>&1 </dev/null || wrong="the build failed: $(cat "$here.out"); "
    # shellcheck disable=SC2086
    "$tool" $words >"$here.out" 2>&1 </dev/null
    is=$?
    [ "$is" = "$status" ] || wrong="${wrong}status $is; "
    count "$shows" "$wrong$(same "$out" "$(cat "$here.out")")"
    cd "$top" || exit 1
}

row shows='all is declared' makefile=$'all: a b\na: source\n\t${F} cat a source\nb: a\n\t${F} cat b a source\n' \
    out='2 targets, 0 undeclared'
row shows='through a target without commands, and another target' \
    makefile=$'all: c\nc: between\n\t${F} cat c a\nbetween: b .PHONY\nb: a\n\t${F} cat b a\na:\n\t${F} put a 1\n' out='3 targets, 0 undeclared'
row shows='a read of what another target makes' makefile=$'all: a b\na:\n\t${F} put a 1\nb:\n\t${F} cat b a\n' status=1 \
    out=$'b reads a, which a makes, and does not depend on it\n2 targets, 1 undeclared'
row shows='a read of what another makes beside its target' makefile=$'all: a b\na:\n\t${F} put side 1\n\t${F} put a 1\nb:\n\t${F} cat b side\n' \
    status=1 out=$'b reads side, which a makes, and does not depend on it\n2 targets, 1 undeclared'
row shows='a look for what is made later' makefile=$'all: a b\na:\n\t${F} probe a b\nb:\n\t${F} put b 1\n' status=1 \
    out=$'a looks for b, which b makes, and does not depend on it\n2 targets, 1 undeclared'
row shows='a file that two change' makefile=$'all: a b\na:\n\t${F} put side 1\n\t${F} put a 1\nb: a\n\t${F} put side 2\n\t${F} put b 1\n' \
    status=1 out=$'a and b both change side\n2 targets, 1 undeclared'
row shows='a target that is not written' makefile=$'all: a\na:\n\t${F} put b 1\n' status=1 \
    out=$'a does not write its own file\n1 targets, 1 undeclared'
row shows='no records' makefile=$'all: a\na:\n\techo 1 >a\n' status=1 out=$'a has no records\n1 targets, 1 undeclared'
row shows='what a job made before it reads it is its own' makefile=$'all: a\na:\n\t${F} put b 1\n\t${F} copy b a\n' out='1 targets, 0 undeclared'
row shows='objects by a rule of suffixes' \
    makefile=$'.SUFFIXES: .o .c\n.c.o:\n\t${F} cat ${.TARGET} ${.IMPSRC}\nall: p\np: x.o\n\t${F} cat p x.o\nx.c: source\n\t${F} cat x.c source\n' \
    out='3 targets, 0 undeclared'
row shows='words of make' makefile=$'all: a\n.if defined(X)\na: b\n.endif\na:\n\t${F} cat a b\nb:\n\t${F} put b 1\n' words=-DX \
    out='2 targets, 0 undeclared'

# The example of a C project.
if is_there cc && strace -f -o "$room/trace" true 2>/dev/null && [ -s "$room/trace" ] && [ -x "$recorder" ]; then
    cp -R examples/projects/recorded "$room/recorded"
    cd "$room/recorded" || exit 1
    BMAKE_RECORDER=$recorder "$program" -s >"$room/out" 2>&1 </dev/null
    count 'examples/projects/recorded declares all' "$(same '4 targets, 0 undeclared' "$("$tool" 2>&1)")"
    cd "$top" || exit 1
else
    skip 'what examples/projects/recorded declares' 'it needs cc, fmtrace and strace, which may trace'
fi
finish
