#!/usr/bin/env bash
# The recorder fmtrace: on traces of strace that stand in tests/fmtrace, each with the records that are
# wanted beside it, and on real commands, each with its records below its folder. Run it at the top of
# the repository, where the programs stand at crates/fmtrace/out/fmtrace and crates/bmake/out/bmake.
# Its last line is 'N passed, M failed'.
set -u
fmtrace=${FMTRACE:-$PWD/crates/fmtrace/out/fmtrace}
program=${BMAKE:-$PWD/crates/bmake/out/bmake}
stored=$PWD/tests/fmtrace
room=$(mktemp -d) || exit 1
room=$(cd "$room" && pwd -P)
trap 'rm -rf "$room"' EXIT
unset BMAKE_FILEMON BMAKE_RECORDER MAKEFLAGS
export LC_ALL=C
passed=0
failed=0

if [ ! -x "$fmtrace" ]; then
    echo "there is no program $fmtrace"
    echo '0 passed, 1 failed'
    exit 1
fi

# Counts one row: what it shows, and what was wrong, or nothing.
count() {
    if [ -z "$2" ]; then
        passed=$((passed + 1))
    else
        failed=$((failed + 1))
        printf 'failed: %s: %s\n' "$1" "$2"
    fi
}

# What differs between a wanted text and another one.
differs() {
    [ "$1" = "$2" ] || diff <(printf '%s\n' "$1") <(printf '%s\n' "$2") | tr '\n' ';'
}

# ---- Stored traces ----

for trace in "$stored"/*.trace; do
    count "$(head -n 1 "$trace")" \
        "$(differs "$(cat "${trace%.trace}.wanted")" "$(tail -n +2 "$trace" | "$fmtrace" --records /w)")"
done

# A trace that is cut behind any line, or in any line, is refused.
unseen='R /what cannot be seen (a trace that is cut, or of a process that runs on)'
wrong=
lines=$(tail -n +2 "$stored/processes.trace" | wc -l)
for ((i = 0; i < lines; i++)); do
    is=$(tail -n +2 "$stored/processes.trace" | head -n "$i" | "$fmtrace" --records /w)
    [ "$is" = "$unseen" ] || wrong="behind line $i"
    is=$(tail -n +2 "$stored/processes.trace" | head -n "$((i + 1))" | head -c -1 | "$fmtrace" --records /w)
    [ "$is" = "$unseen" ] || wrong="in line $((i + 1))"
done
count 'a trace that is cut is refused' "$wrong"

# 8,000 files that are moved.
{
    printf '7 execve("/bin/sh", [...], 0x7ffc /* 3 vars */) = 0\n'
    for ((i = 0; i < 8000; i++)); do
        printf '7 openat(AT_FDCWD</w>, "a%d", O_WRONLY|O_CREAT|O_TRUNC, 0666) = 3</w/a%d>\n' $i $i
        printf '7 rename("a%d", "b%d") = 0\n' $i $i
    done
    printf '7 +++ exited with 0 +++\n'
} >"$room/moves"
SECONDS=0
is=$("$fmtrace" --records /w <"$room/moves" | grep -c '^W /w/b')
count '8,000 moves' "$(differs 8000 "$is")$([ $SECONDS -le 10 ] || echo "$SECONDS seconds")"

# ---- The program ----

count 'the text of --help' "$(differs 'usage: fmtrace COMMAND [WORD]..' "$("$fmtrace" --help | head -n 1)")"
count 'the version' "$(differs 'fmtrace 0.2.0' "$("$fmtrace" --version)")"
count 'behind a command these are its words' \
    "$(differs '--version' "$(BMAKE_FILEMON='' "$fmtrace" printf %s --version)")"
"$fmtrace" 2>/dev/null
count 'no command' "$(differs 2 $?)"
is=$(cd "$room" && "$fmtrace" sh -c 'echo 1; exit 3'; echo $?)
count 'without a log the command is run as it is' "$(differs $'1\n3' "$is")"
"$fmtrace" "$room/none" 2>/dev/null
count 'and where it is not found' "$(differs 127 $?)"

if ! strace -f -D -o "$room/trace" true 2>/dev/null || [ ! -s "$room/trace" ]; then
    echo 'skipped: real commands (there is no strace, or it may not trace here)'
    echo "$passed passed, $failed failed"
    [ "$failed" = 0 ]
    exit
fi

# The records of a log of which the paths are below a directory.
records() {
    sed -n -e "s|^# N [0-9]* $1/|N |p" -e "s|^\([RWD]\) [0-9]* $1/|\1 |p" -e "s|^R [0-9]* $1\$|R .|p" \
        -e 's|^R [0-9]* /what cannot be seen.*|X|p' | sort -u
}

# One command by /bin/sh -c under fmtrace, or as it stands where `run` is given, in a folder of its own
# with the files a, b and d/c, and l that leads to d: its records, and its exit status.
row() {
    local shows before=: command='' run='"$fmtrace" /bin/sh -c "$command"' status=0 records='' is wrong=
    local "$@"
    local here=$room/$((passed + failed))
    mkdir -p "$here/d" "$here.logs"
    (cd "$here" && echo a >a && echo b >b && echo c >d/c && ln -s d l && eval "$before") || wrong='before'
    (
        cd "$here" || exit 125
        export BMAKE_FILEMON=$here.logs/log
        eval "$run"
    ) >"$here.out" 2>"$here.err" </dev/null
    is=$?
    [ "$is" = "$status" ] || wrong="status $is"
    wrong+=$(differs "$(printf '%s\n' $records | sed 'N;s/\n/ /' | sort -u)" "$(records "$here" <"$here.logs/log")")
    wrong+=$(ls "$here.logs"/log.trace.* 2>/dev/null)
    tail -n 1 "$here.logs/log" | grep -q '^# Bye bye [0-9]* [0-9]* [0-9]*$' || wrong+='no end'
    count "$shows" "$wrong"
}

row shows='nothing' command=true
row shows='a file is read, and one written' command='cat a >t' records='R a W t'
row shows='input and pipes' command='cat <a | sort >t' records='R a W t'
row shows='standard streams that are files' run='"$fmtrace" sort <a >t' records='R a W t'
row shows='a descriptor of its own' command='exec 3<a; cat <&3 >t' records='R a W t'
row shows='appending reads' command='echo x >>a' records='R a W a'
row shows='so does writing in the midst' command='dd if=b of=a conv=notrunc' records='R b R a W a'
row shows='a new time' command='touch a' records='W a'
row shows='a look that finds a file' command='[ -e a ] && echo yes >t' records='R a W t'
row shows='a look that finds none' command='[ -e none ]' status=1 records='N none'
row shows='a look at what is then made' command='[ -e t ] || echo 1 >t' records='W t'
row shows='a listing' command='ls d >t' records='R d W t'
row shows='a pattern' command='echo *.none >t' records='R . W t'
row shows='a script and its interpreter' before='printf "#!/bin/sh\ncat a\n" >s; chmod +x s' \
    command=./s records='R s R a'
row shows='a file for a time' command='echo 1 >t.tmp; cat t.tmp a >t; rm t.tmp' records='R a W t'
row shows='a file that is moved into its place' command='echo 1 >t.tmp && mv t.tmp t' records='W t'
row shows='a file is moved' command='mv a n' records='R a D a W n'
row shows='a file is removed, and one that is not there' command='rm -f a none' records='D a N none'
row shows='further names' command='ln a n; ln -s b m; cat m' records='R a W n W m R b'
row shows='a directory that is made and moved' command='mkdir e; echo 1 >e/x; mv e f; cat f/x' records='W f/x'
row shows='directories of processes' command='cd d; cat c ../a >../t' records='R d/c R a W t'
row shows='a symbolic link to a directory' command='cat l/c' records='R d/c R l/c'
row shows='without the right to' before='chmod 444 a' command='(echo x >none/a); cat a' records='R a N none/a'
row shows='a name space of its own' command='unshare -m true; true' records='X'
row shows='a process that runs on' command='(sleep 1; echo late >t) >/dev/null 2>&1 & echo 1 >u' records='X'
row shows='a command that ends itself by a signal' command='cat a; kill -9 $$' status=137 records='R a'
row shows='one whose part is ended by a signal' command='yes | head -n 1 >t' records='W t'
row shows='a file that is cut when it is open' before='cp a t' command='sort -o t a' records='R a W t'
row shows='what is made in a directory that is made' command='mkdir e; echo 1 >>e/x' records='W e/x'
row shows='and in one that stood there' command='mkdir -p d; echo 1 >>d/x' records='R d/x W d/x'
row shows='a recorder in a recorder' command='"'"$fmtrace"'" cat a' records='R a'
# The inner log stands where the outer one would; both tell of what the inner command did.
row shows='the outer log of a recorder in a recorder' \
    command='BMAKE_FILEMON=$BMAKE_FILEMON.inner "'"$fmtrace"'" cat a; cat b' records='R a R b'
row shows='the inner log of a recorder in a recorder' \
    run='"$fmtrace" /bin/sh -c "cat b; BMAKE_FILEMON=$BMAKE_FILEMON.inner \"$fmtrace\" /bin/sh -c \"(cat a; [ -e none ]); cat d/c\""; mv "$BMAKE_FILEMON.inner" "$BMAKE_FILEMON"' \
    records='R a N none R d/c'
row shows='an inner process that runs on' \
    run='"$fmtrace" /bin/sh -c "BMAKE_FILEMON=$BMAKE_FILEMON.inner \"$fmtrace\" /bin/sh -c \"(sleep 3) >/dev/null 2>&1 & cat a\""; mv "$BMAKE_FILEMON.inner" "$BMAKE_FILEMON"' \
    records='X'

if command -v cc >/dev/null; then
    row shows='a compiler' before='mkdir early; echo "#define A 1" >d/a.h; echo "#include <a.h>" >y.c' \
        run='"$fmtrace" /bin/sh -c "cc -Iearly -Id -c y.c -o y.o"; sed -i "/\.gch$/d;/stdc-predef/d" "$BMAKE_FILEMON"' \
        records='N early/a.h R d/a.h R y.c W y.o'
else
    echo 'skipped: a compiler (there is no cc)'
fi

# A log that is cut at a byte never counts: bmake makes the target again.
mkdir "$room/cut"
(
    cd "$room/cut" || exit 1
    printf 'a\n' >a
    mkdir logs
    BMAKE_FILEMON=$room/cut/logs/log "$fmtrace" cat a >/dev/null
    mv logs/log log
    for ((i = 0; i < $(wc -c <log); i++)); do
        head -c "$i" log >cut
        [ -n "$(tail -n 1 cut | grep '^# Bye bye .* [0-9]*$')" ] && [ "$(tail -c 1 cut)" = '' ] &&
            [ "$(wc -l <cut)" = "$(wc -l <log)" ] && echo "whole at $i"
    done
) >"$room/cut.out"
count 'a log that is cut' "$(cat "$room/cut.out")"

# The processor time of a command and all that it began, in milliseconds: as it is, recorded, and under strace alone. Each
# is the least of ten, which take turns.
least() {
    BMAKE_FILEMON=$room/cpu.log python3 - "$fmtrace" "$room/cpu.trace" "$@" <<'PY'
import resource, subprocess, sys, ctypes, os
ctypes.CDLL(None).prctl(36, 1, 0, 0, 0)
def spent():
    use = resource.getrusage(resource.RUSAGE_CHILDREN)
    return use.ru_utime + use.ru_stime
def once(words):
    before = spent()
    subprocess.run(words, check=True)
    while True:
        try: os.wait()
        except ChildProcessError: break
    return spent() - before
program, trace, *command = sys.argv[1:]
calls = ('execve,openat,access,faccessat2,newfstatat,statx,unlink,unlinkat,rename,renameat2,mkdir,chdir,fchdir,getdents64,'
    'vfork,clone,clone3')
strace = ['strace', '-D', '-f', '-q', '-y', '--seccomp-bpf', '-s', '0', '-e', f'trace={calls}', '-o', trace, '--']
before = [[], [program], strace]
times = [9e9] * 3
for _ in range(10):
    for at, words in enumerate(before):
        times[at] = min(times[at], once([*words, *command]))
print(*(round(1000 * it) for it in times))
PY
}
if command -v python3 >/dev/null; then
    read -r plain recorded traced <<<"$(least true)"
    echo "true: $plain ms of processor time, recorded $recorded ms, under strace alone $traced ms"
    # At most 8 ms, and where strace is slow, at most twice what it takes.
    count 'the time of a short command' "$([ "$recorded" -le 8 ] || [ "$recorded" -le $((2 * traced)) ] ||
        echo "$recorded ms, under strace alone $traced ms")"
fi
# A compiler that reads 20 headers, and takes some 100 ms: at most a quarter more than its own time, and where strace is slow,
# at most a fifth more than under strace.
if command -v python3 >/dev/null && command -v cc >/dev/null; then
    mkdir "$room/headers"
    for i in $(seq 20); do echo "static inline int f$i(int x) { return x * $i; }" >"$room/headers/h$i.h"; done
    {
        for i in $(seq 20); do echo "#include \"h$i.h\""; done
        printf '#include <stdio.h>\n#include <stdlib.h>\n#include <string.h>\n'
        for i in $(seq 8); do
            echo "int g$i(int a) { int s = 0; for (int i = 0; i < a; i++) s += f$i(i); return s; }"
        done
        for i in $(seq 6); do
            echo "int h$i(int a) { int s = 0; for (int i = 0; i < a; i++) s += f$i(i) * g$i(i); return s; }"
        done
    } >"$room/headers/many.c"
    read -r plain recorded traced <<<"$(least cc -O2 "-I$room/none" "-I$room/headers" -c "$room/headers/many.c" -o "$room/many.o")"
    echo "cc: $plain ms of processor time, recorded $recorded ms, under strace alone $traced ms"
    count 'the time of a compiler' "$([ $((4 * recorded)) -le $((5 * plain)) ] || [ $((5 * recorded)) -le $((6 * traced)) ] ||
        echo "$plain ms, recorded $recorded ms, under strace alone $traced ms")"
fi

# ---- Builds: an edit that has to be seen, and one that has not ----

if [ ! -x "$program" ]; then
    echo "skipped: builds (there is no program $program)"
    echo "$passed passed, $failed failed"
    [ "$failed" = 0 ]
    exit
fi

# How often t is made by a run in the folder.
go() {
    "$program" 2>err | grep -c '^made$'
}

# A command for t, an edit behind which t is made again, and one behind which it is not. The recorder
# stands before the command, or is named in the environment.
build() {
    local shows before=: makes seen unseen='echo 2 >other' by=makefile words
    local "$@"
    local here=$room/build$((passed + failed))
    mkdir -p "$here/d" "$here/early"
    (
        cd "$here" || exit 1
        echo a >a && echo b >b && echo c >d/c && echo 1 >other && eval "$before"
        words="$fmtrace /bin/sh -c '$makes; echo made'"
        if [ "$by" = environment ]; then
            export BMAKE_RECORDER=$fmtrace
            words="$makes; echo made"
        fi
        printf '%s\n\n%s\n\t@%s\n' '.MAKE.MODE = meta curdirOk=yes missing-meta=yes missing-filemon=yes' \
            't:' "$words" >makefile
        [ "$(go)" = 1 ] || echo 'not made first'
        [ "$(go)" = 0 ] || echo 'made again'
        sleep 0.02
        eval "$unseen"
        [ "$(go)" = 0 ] || echo 'made for another edit'
        sleep 0.02
        eval "$seen"
        [ "$(go)" = 1 ] || echo 'kept'
        cat err
    ) >"$here.wrong" 2>&1
    count "$shows" "$(tr '\n' ';' <"$here.wrong")"
}

build shows='sed of standard input' makes='sed s/a/x/ <a >t' seen='echo aa >a'
build shows='a test' makes='if [ -e d/o ]; then echo y >t; else echo n >t; fi' seen='echo 1 >d/o' unseen='echo 1 >d/p'
build shows='a pattern' before='echo 1 >d/1.c' makes='cat d/*.c >t' seen='echo 2 >d/2.c' unseen='echo 1 >early/1.c'
build shows='sort -o' makes='sort -o t a' seen='echo z >a'
build shows='a shell script' before='printf "#!/bin/sh\ncat a >t\n" >s; chmod +x s' makes=./s \
    seen='printf "#!/bin/sh\ncat b >t\n" >s'
build shows='a Perl script' before='echo "print 1;" >p.pl' makes='perl p.pl >t' seen='echo "print 2;" >p.pl'
build shows='cp' makes='cp a t' seen='echo z >a' unseen='echo z >b'
build shows='mv' makes='cp a t.new; mv t.new t' seen='echo z >a' unseen='echo z >b'
build shows='touch' makes='cat a >/dev/null; touch t' seen='echo z >a' unseen='echo z >b'
if command -v cc >/dev/null; then
    build shows='a header that is put earlier' before='echo "#define A 1" >d/a.h; printf "#include <a.h>\nint v = A;\n" >y.c' \
        makes='cc -Iearly -Id -c y.c -o t' seen='echo "#define A 2" >early/a.h' unseen='echo 1 >early/b.h'
    build shows='ar' before='echo 1 >m.o' makes='rm -f t; ar rcs t m.o' seen='echo 2 >m.o'
fi

# A make in a make, where the recorder is named in the environment.
build shows='a make in a make' before='mkdir sub; printf "out: src\n\tcat src >out\n" >sub/makefile; echo 1 >sub/src' \
    makes="cd sub && $program >/dev/null && cp out ../t" by=environment seen='echo 22 >sub/src'

# A make in meta mode below a recorded command has records of its own: it makes again what has changed, and
# nothing else.
inner() {
    local here=$room/inner
    mkdir -p "$here/sub"
    (
        cd "$here" || exit 1
        export BMAKE_RECORDER=$fmtrace
        local meta='.MAKE.MODE = meta curdirOk=yes missing-meta=yes missing-filemon=yes'
        printf '%s\n\nt: other\n\t@cd sub && %s -j4\n\t@cat sub/x sub/y >t\n' "$meta" "$program" >makefile
        printf '%s\n\nall: x y\nx:\n\t@cat a >x; echo made x\ny:\n\t@cat b >y; echo made y\n' "$meta" >sub/makefile
        echo a >sub/a && echo b >sub/b && echo 1 >other
        made() {
            "$program" 2>err | grep '^made' | sort | tr '\n' ' '
        }
        [ "$(made)" = 'made x made y ' ] || echo 'not made first'
        [ "$(made)" = '' ] || echo 'made again'
        sleep 0.02
        echo 2 >other
        is=$(made)
        [ "$is" = '' ] || echo "made below for an edit above: $is"
        sleep 0.02
        echo aa >sub/a
        is=$(made)
        [ "$is" = 'made x ' ] || echo "made for an edit of one source below: $is"
        cat err
    ) >"$here.wrong" 2>&1
    count 'a make in meta mode below a recorded command' "$(tr '\n' ';' <"$here.wrong")"
}

inner

echo "$passed passed, $failed failed"
[ "$failed" = 0 ]
