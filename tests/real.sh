#!/usr/bin/env bash
# The built program on real files and with real children. Run it at the top of the repository, where
# the program stands at crates/bmake/out/bmake. Its last line is 'N passed, M failed'.
set -u
program=${BMAKE:-$PWD/crates/bmake/out/bmake}
examples=$PWD/examples
room=$(mktemp -d) || exit 1
trap 'chmod -R u+rwx "$room"; rm -rf "$room"' EXIT
passed=0
failed=0

# Whether a file holds a text.
holds() {
    printf '%s' "$2" | cmp -s - "$1"
}

# One case, in an empty folder of its own: what it shows, the shell lines before it, the makefile,
# the program's run, and then the exit status, standard output and standard error that are wanted,
# and the shell lines that are true after it.
row() {
    local shows before=: makefile='' run='"$program"' status=0 out='' err='' after=: is
    local "$@"
    local here=$room/$((passed + failed)) wrong=''
    mkdir "$here"
    is=$(
        cd "$here" || exit 125
        eval "$before" || exit 125
        [ -z "$makefile" ] || printf '%s' "$makefile" >makefile
        # Nothing is read from standard input, and nothing is waited for that runs on.
        eval "$run" <<<'not for commands' >"$here.out" 2>"$here.err"
        is=$?
        eval "$after" || exit 126
        exit "$is"
    ) >"$here.said" 2>&1
    is=$?
    [ "$is" = "$status" ] || wrong="status $is and not $status"
    holds "$here.out" "$out" || wrong="$wrong; standard output: $(cat "$here.out")"
    holds "$here.err" "$err" || wrong="$wrong; standard error: $(cat "$here.err")"
    if [ -z "$wrong" ]; then
        passed=$((passed + 1))
    else
        failed=$((failed + 1))
        printf 'failed: %s: %s\n' "$shows" "$wrong"
        cat "$here.said"
    fi
}

if [ ! -x "$program" ]; then
    echo "there is no program $program"
    echo "0 passed, 1 failed"
    exit 1
fi

nl=$'\n'
outside=$'bmake: an outside call failed\n'

row shows='each option that is built stands in the text of --help' \
    run='"$program" --help | sed -n "s/^  -\([A-Za-z]\) .*/\1/p" | tr -d "\n"' \
    out='fImDVvejBkSisnqr'

row shows='-n prints the commands that would run, and runs none' \
    before='echo 1 >a' \
    makefile=$'p: t\n\t@cat t > p\nt: a\n\tcat a > t\n' \
    run='"$program" -n' \
    out=$'cat a > t\ncat t > p\n' \
    after='[ "$(ls -A)" = "a
makefile" ]'

row shows='-n runs a command that is marked +' \
    before='echo 1 >a' \
    makefile=$'t: a\n\t+@echo hi\n\tcat a > t\n' \
    run='"$program" -n -j4' \
    out=$'echo hi\nhi\ncat a > t\n' \
    after='[ ! -e t ]'

row shows='-n: what is made of a shown target is out of date, too' \
    before='echo 1 >a; echo 1 >o; echo 1 >p; touch -d 2001-01-01 p; touch -d 2000-01-01 o' \
    makefile=$'p: o\n\tcat o > p\no: a\n\tcat a > o\n' \
    run='"$program" -n' \
    out=$'cat a > o\ncat o > p\n'

row shows='-n: a command marked + that fails ends the run' \
    makefile=$'p: t\n\techo p\nt:\n\t+exit 3\n\techo t\n' \
    run='"$program" -n' status=1 \
    out=$'exit 3\n' err=$'bmake: target t command 1: status 3\n'

row shows='-n in meta mode writes nothing' \
    before='echo 1 >a' \
    makefile=$'.MAKE.MODE=meta curdirOk=yes\nt: a\n\tcat a > t\n' \
    run='"$program" -n' \
    out=$'cat a > t\n' \
    after='[ "$(ls -A)" = "a
makefile" ]'

row shows='-q asks, and makes nothing' \
    before='echo 1 >a' \
    makefile=$'t: a\n\tcat a > t\n' \
    run='"$program" -q' status=1 \
    after='[ ! -e t ]'

row shows='-q where all is up to date' \
    before='echo 1 >a; echo 2 >t; touch -d 2001-01-01 a' \
    makefile=$'.BEGIN:\n\techo begin\nt: a\n\tcat a > t\n' \
    run='"$program" -q'

row shows='-q where a command cannot be expanded' \
    makefile=$'t:\n\techo ${:U1:Z}\n' \
    run='"$program" -q' status=2 \
    err=$'bmake: target t command 1: unknown modifier at 11\n'

row shows='-r is taken, and without effect' \
    makefile=$'t:\n\techo hi > t\n' \
    run='"$program" -r' \
    out=$'echo hi > t\n'

row shows='--explain tells why each target is out of date, and makes nothing' \
    before='echo 1 >a; echo 1 >o; touch -d 1970-01-01T00:00:02Z a; touch -d 1970-01-01T00:00:01Z o' \
    makefile=$'p: o\n\tcat o > p\no: a\n\tcat a > o\n' \
    run='"$program" --explain' \
    out=$'o newer a 2000000000 1000000000\np missing\n' \
    after='[ ! -e p ]'

row shows='--explain in meta mode tells of another command' \
    before='mkdir -p x; printf ".MAKE.MODE=meta curdirOk=yes nofilemon\nt:\n\techo 1 > t\n" >makefile; "$program" >/dev/null; sed -i "s/echo 1/echo 2/" makefile' \
    run='"$program" --explain' \
    out=$'t command 1\n- echo 1 > t\n+ echo 2 > t\n'

row shows='--generate makes a project in memory, and builds it twice' \
    run='"$program" --generate 10' \
    out=$'targets 10\nfirst 10 started 0 kept\nsecond 2 started 8 kept\nbytes 56\n' \
    after='[ -z "$(ls -A)" ]'

row shows='a command writes its target' \
    makefile=$'t:\n\techo hi > t\n' \
    out=$'echo hi > t\n' \
    after='holds t "hi
" && [ "$(ls -A)" = "makefile
t" ]'

row shows='a second run does nothing' \
    before='printf "t:\n\techo hi > t\n" >makefile; "$program" >/dev/null; touch -d 2001-01-01 t' \
    after='[ -n "$(find t ! -newermt 2001-01-02)" ]'

row shows='a target that is older than a source is made again' \
    before='echo 1 >a; echo 2 >b; echo old >t; touch -d 2001-01-01 a t; touch -d 2001-01-02 b' \
    makefile=$'t: a b\n\t@cat a b > t\n' \
    after='holds t "1
2
"'

row shows='a target that is no older than its sources is kept' \
    before='echo 1 >a; echo old >t; touch -d 2001-01-01 a t' \
    makefile=$'t: a\n\t@cat a > t\n' \
    after='holds t "old
"'

row shows='what a command changes is seen behind it, also where it was looked at before' \
    before='for f in a h t u v; do echo 1 >$f; done; touch -d 2001-01-01 h t; touch -d 2002-01-01 a u v' \
    makefile=$'all: v t u\nv: h\n\tcp h v\nt: a\n\techo 2 > h; cp a t\nu: h\n\tcp h u\n' \
    out=$'echo 2 > h; cp a t\ncp h u\n'

if strace -o "$room/trace" true 2>/dev/null && [ -s "$room/trace" ]; then
    row shows='the time of a path is asked once while no command runs' \
        before='for f in h t u v; do echo 1 >$f; done; touch -d 2001-01-01 h' \
        makefile=$'all: t u v\nt u v: h\n\tcp h $@\n' \
        run='strace -o trace "$program"' \
        after='[ "$(grep -c "stat.*\"h\"" trace)" = 1 ]'
else
    echo 'skipped: how often times are asked for (there is no strace, or it may not trace here)'
fi

row shows='each command is a shell of its own, in the directory of the program' \
    before='mkdir d' \
    makefile=$'t:\n\t@cd d; A=1; echo 1 > t\n\t@echo "$${A-none}" > t\n' \
    after='holds t "none
" && holds d/t "1
"'

row shows='both streams are printed in order' \
    makefile=$'t:\n\t@echo a; echo b >&2; echo c; echo d >&2\n' \
    out=$'a\nb\nc\nd\n'

row shows='a long output' \
    makefile=$'t:\n\t@head -c 1000000 /dev/zero | tr "\\\\0" x\n' \
    out="$(head -c 1000000 /dev/zero | tr '\0' x)"

row shows='standard input is empty' \
    makefile=$'t:\n\t@cat; echo a\n' \
    out=$'a\n'

row shows='a command that fails ends the build' \
    makefile=$'t:\n\t@echo a\n\t@echo b; exit 3\n\t@echo c\n' \
    status=1 out=$'a\nb\n' err=$'bmake: target t command 2: status 3\n'

row shows='a command that ends itself by a signal' \
    makefile=$'t:\n\t@echo a; kill -9 $$$$\n' \
    status=1 out=$'a\n' err=$'bmake: target t command 1: status 255\n'

row shows='a child in the background is not waited for' \
    makefile=$'t:\n\t@sleep 60 & echo $$! > pid\n' \
    run='timeout 30 "$program"' \
    after='kill "$(cat pid)"'

# The status of a shell that is given no folder is the shell's own.
no_folder=$(cd "$room" && sh -c '{ echo 1 >d/t; } 2>/dev/null' || echo $?)

row shows='a target below a folder that is not there' \
    makefile=$'d/t:\n\t@{ echo 1 > d/t; } 2>/dev/null\n' \
    status=1 err="bmake: target d/t command 1: status $no_folder"$'\n'

# What commands print stands in a directory of its own below TMPDIR until they have ended.
row shows='nothing is left beside the sources nor in the directory for temporary files' \
    before='mkdir tmp' \
    makefile=$'A!=echo 1\nt:\n\t@echo ${A}; [ "$$(ls tmp)" = "bmake.$$PPID" ]\n' run='TMPDIR=$PWD/tmp "$program"' \
    out=$'1\n' after='[ "$(ls -A)" = "makefile
tmp" ] && [ -z "$(ls -A tmp)" ]'

row shows='nor behind a command that fails while others run' \
    before='mkdir tmp' \
    makefile=$'all: x y\nx:\n\t@sleep 1; echo x\ny:\n\t@exit 3\n' run='TMPDIR=$PWD/tmp "$program" -j 2' \
    status=1 out=$'--- x ---\nx\n' err=$'bmake: target y command 1: status 3\n' after='[ -z "$(ls -A tmp)" ]'

row shows='nor behind a fault of the outside, and the shells of other children are ended' \
    before='mkdir tmp' \
    makefile=$'all: x y\nx:\n\t@echo $$$$ >pid; exec sleep 600\ny:\n\t@until [ -s pid ]; do sleep 0.05; done; head -c 67108865 /dev/zero\n' \
    run='TMPDIR=$PWD/tmp timeout 60 "$program" -j 2' \
    status=3 err="bmake: wait /bin/sh: more than 64 MiB$nl$outside" after='! kill -0 "$(cat pid)" 2>/dev/null && [ -z "$(ls -A tmp)" ]'

row shows='a recorder finds its log beside the output' \
    makefile=$'t:\n\t@echo "$${BMAKE_FILEMON##*/}"\n' \
    out=$'fm.1\n'

row shows='what is printed through /dev/stderr and /dev/stdout, opened anew, stands in its place' \
    makefile=$'t:\n\t@echo 1; echo 2 >/dev/stderr; echo 3 | tee /dev/stderr >/dev/null; echo 4 >/dev/stdout; echo 5\n' \
    out=$'1\n2\n3\n4\n5\n'

row shows='nothing is left behind a refused command of !=, and its shell is ended' \
    before='mkdir tmp' makefile=$'A!=echo $$$$ >pid; head -c 67108865 /dev/zero; sleep 600\n' \
    run='TMPDIR=$PWD/tmp timeout 60 "$program" -V A' \
    status=3 err="bmake: run /bin/sh: more than 64 MiB$nl$outside" \
    after='! kill -0 "$(cat pid)" 2>/dev/null && [ -z "$(ls -A tmp)" ]'

row shows='the directory of the logs of children is its owner'"'"'s alone' \
    makefile=$'t:\n\t@stat -c %a "$${BMAKE_FILEMON%/*}"\n' out=$'700\n'

row shows='directories of makes that are gone are removed, and no others' \
    before='mkdir tmp; "$program" --version >/dev/null' \
    makefile=$'t:\n\t@echo $$PPID >pid; exec sleep 600\nu:\n\t@ls tmp | wc -l\n' \
    run='export TMPDIR=$PWD/tmp; "$program" t & until [ -s pid ]; do sleep 0.05; done; mkdir tmp/bmake.1; "$program" u;
        kill -9 "$(cat pid)"; wait 2>/dev/null; "$program" u' \
    out=$'3\n2\n' after='ls tmp | grep -qx bmake.1 && [ "$(ls tmp | wc -l)" = 1 ]; pkill -f "sleep 600"; true'

row shows='the shell is that of the system, whatever PATH says' \
    before='printf "#!/bin/false\n" >sh; chmod +x sh' makefile=$'t:\n\t@echo hi\n' \
    run='PATH=$PWD:$PATH "$program"' out=$'hi\n'

row shows='a standard output that does not block is waited for' \
    makefile=$'t:\n\t@head -c 1000000 /dev/zero\n' \
    run='perl -e '"'"'use Fcntl; pipe R, W; fcntl W, F_SETFL, O_NONBLOCK | fcntl(W, F_GETFL, 0); unless (fork) { close R; open STDOUT, ">&W"; exec @ARGV } close W; sleep 1; local $/; print length <R>'"'"' "$program" -s' \
    out='1000000'

row shows='a shell that ended is taken in, whoever still has its output' \
    makefile=$'all: x y\nx:\n\t@sleep 3 & echo x\ny: x\n\t@echo y\n' \
    run='start=$(date +%s%N); "$program" -j2 | grep -v "^---"; [ $(($(date +%s%N) - start)) -lt 2500000000 ] || echo late' out=$'x\ny\n'

row shows='a shell whose output has ended is waited for' \
    makefile=$'all: x y\nx:\n\t@exec >&- 2>&-; sleep 0.5; echo 1 >x\ny:\n\t@echo y\n' \
    run='"$program" -j2 | grep -v "^---"; "$program" x' out=$'y\n' after='holds x "1
"'

row shows='make asks seldom while it waits' \
    makefile=$'all: x y\nx y:\n\t@sleep 3\n' \
    run='if command -v strace >/dev/null; then strace -o tr -e trace=wait4,poll,read "$program" -s -j2; [ "$(wc -l <tr)" -lt 250 ] || wc -l <tr; fi'

row shows='what a process in the background prints late comes into no other output' \
    makefile=$'all: x y\nx:\n\t@(sleep 0.3; echo late) &\ny:\n\t@sleep 0.6; echo y\n' \
    out=$'y\n'

row shows='a name that stands already in the directory for temporary files' \
    before='mkdir tmp' \
    makefile=$'t:\n\t@echo "$${BMAKE_FILEMON##*/tmp/}" | sed "s/[0-9][0-9]*/N/"\n' \
    run='TMPDIR=$PWD/tmp sh -c "mkdir tmp/bmake.\$\$; exec \"\$0\"" "$program"' \
    out=$'bmake.N.1/fm.1\n' after='[ "$(ls tmp | wc -l)" = 1 ]'

row shows='a directory for temporary files that is missing' \
    makefile=$'t:\n\t@echo 1\n' run='TMPDIR=no "$program" 2>&1 | sed "s/bmake[.][0-9]*/N/; s=/.*/no=no="' \
    out="bmake: mkdir no/N: No such file or directory$nl$outside"

row shows='a plain file as the directory for temporary files' \
    before='echo 1 >no' makefile=$'A!=echo 1\n' \
    run='TMPDIR=no "$program" -V A 2>&1 | sed "s/bmake[.][0-9]*/N/; s=/.*/no=no="' \
    out="bmake: mkdir no/N: Not a directory$nl$outside"

row shows='a run that starts no child needs no directory for temporary files' \
    makefile=$'A=1\n' run='TMPDIR=$PWD/no "$program" -V A' out=$'1\n'

row shows='a relative directory for temporary files is taken from that of the program' \
    before='mkdir d tmp' makefile=$'t:\n\t@cd d; ls "$${BMAKE_FILEMON%/*}"\n' run='TMPDIR=tmp "$program"' \
    out=$'lock\n'

row shows='a make that runs itself in its own directory, three deep, with several jobs' \
    makefile=$'all: a b c d\na b c d:\n\t@[ ${N:U1} = 3 ] || MAKEFLAGS= ${P} -j4 P=${P} N=${N:U1:S/2/3/:S/1/2/} ${.TARGET}; echo ${N:U1}${.TARGET}; echo >>all\n' \
    run='"$program" -j4 P="$program" >said; sort said | uniq -c | tr -d " " | grep -v "^1---\|^[0-9]*---" | tr "\n" " "' \
    out='11a 11b 11c 11d 12a 12b 12c 12d 13a 13b 13c 13d ' after='[ "$(wc -l <all)" = 12 ]'

row shows='two makes in one directory at once' \
    makefile=$'all: x${N} y${N}\nx${N} y${N}:\n\t@sleep 0.2; echo ${.TARGET}\n' \
    run='"$program" -j2 N=1 >one & "$program" -j2 N=2 >two; wait; grep -v "^---" one two | sort' \
    out=$'one:x1\none:y1\ntwo:x2\ntwo:y2\n'

# Root may write everywhere, so it becomes nobody.
nobody=
[ "$(id -u)" != 0 ] || nobody='setpriv --reuid=65534 --regid=65534 --clear-groups'
if $nobody true 2>/dev/null && $nobody test -x "$program"; then
    chmod 755 "$room"
    row shows='a directory that cannot be written is no hindrance' \
        makefile=$'A!=echo 1\nt:\n\t@echo ${A}\n' \
        run='chmod 555 .; $nobody "$program" -V A; $nobody "$program"; chmod 755 .' out=$'1\n1\n'
    row shows='a recorded path below a closed folder makes its target again, and ends no run' \
        before='mkdir p; chmod 777 .' \
        makefile=$'.MAKE.MODE=meta curdirOk=yes missing-meta=yes\nt:\n\t@echo "R 1 p/x" >"$$BMAKE_FILEMON"; echo made; : >t\n' \
        run='$nobody "$program"; chmod 700 p; sleep 0.1; $nobody "$program"' out=$'made\nmade\n'
else
    echo 'skipped: a directory that cannot be written (nobody may not run the program here)'
fi

row shows='a folder or a pipe with a name where the log of a recorder would be is no log' \
    before='mkdir tmp' \
    makefile=$'all: t u\nt:\n\t@mkdir "$$BMAKE_FILEMON"; echo t\nu:\n\t@mkfifo "$$BMAKE_FILEMON"; echo u\n' \
    run='TMPDIR=$PWD/tmp timeout 20 "$program"' out=$'t\nu\n' after='[ -z "$(ls -A tmp)" ]'

row shows='a command that is asked answers with its standard output alone' \
    makefile=$'A!=echo a; echo "no answer" >&2; exit 4\n' run='"$program" -V A' \
    out=$'a\n' err=$'no answer\n'

row shows='MAKE is the name by which make was called: an absolute path' \
    makefile=$'t:\n\t@echo ${MAKE}\n' out="$program$nl"

row shows='MAKE is the name by which make was called: a word that PATH leads to' \
    before='mkdir bin; ln -s "$program" bin/mymake' makefile=$'t:\n\t@echo ${MAKE}\n' \
    run='PATH=$PWD/bin:$PATH mymake' out=$'mymake\n'

row shows='names that make(1) reserves are no main targets' \
    makefile=$'.POSIX:\n.INTERRUPT:\n\t@echo no\n.PATH: ..\nt:\n\t@echo hi\n' out=$'hi\n'

# A tree of three makes.
tree() {
    mkdir lib app app/sub
    printf 'all: lib app\nlib app: .PHONY\n\t+@cd ${.TARGET} && ${MAKE}\n' >makefile
    printf 'all: x y\nx:\n\t@exit ${FAILS:U0}\ny:\n\techo lib ${FLAGS:Unone} ${.MAKE.MODE:U} >y\n' >lib/makefile
    printf 'x:\n\t+@cd sub && ${MAKE}\n' >app/makefile
    printf 'y:\n\techo sub ${FLAGS:Unone} >y\n' >app/sub/makefile
}

row shows='-n makes nothing below, and an assignment holds there' \
    before=tree run='"$program" -n FLAGS=-g | sed "s=$program=MAKE="' \
    out=$'cd lib && MAKE\nexit 0\necho lib -g  >y\ncd app && MAKE\ncd sub && MAKE\necho sub -g >y\n' \
    after='[ -z "$(find . -name y)" ]'

row shows='an assignment of several words reaches the makes below, quoted' \
    before=tree run='"$program" -s FLAGS='"'"'"a  b"'"'"' ' \
    after='[ "$(cat lib/y app/sub/y)" = "lib a  b
sub a  b" ]'

row shows='-k goes on below' \
    before=tree run='"$program" -k -s FAILS=3' status=1 \
    err="bmake: target lib command 1: status 1$nl" out="bmake: target x command 1: status 3$nl" \
    after='holds lib/y "lib none
" && holds app/sub/y "sub none
"'

row shows='makefiles, jobs and targets do not reach the makes below' \
    before='tree; mv makefile Top' run='"$program" -f Top -j4 -s lib app >/dev/null' \
    after='holds lib/y "lib none
" && holds app/sub/y "sub none
"'

row shows='options for the makes below that are of no form are passed over' \
    makefile=$'t:\n\t@echo "$${BMAKE_FLAGS-none}"\n' run='BMAKE_FLAGS="-s A=1" "$program"; BMAKE_FLAGS="-s '"'"'" "$program"' \
    out=$'-s A=1 \nnone\n' err=$'bmake: BMAKE_FLAGS is passed over: a quote is open\n'

row shows='a recorder in BMAKE_RECORDER is run before each shell' \
    before='printf "#!/bin/sh\nshift; echo \"\$*\" >>log; exec \"\$@\"\n" >recorder; chmod +x recorder' \
    makefile=$'A!=echo 1\nt:\n\t@echo ${A} a\n\t@echo b\n' run='BMAKE_RECORDER="$PWD/recorder  -x" "$program"' \
    out=$'1 a\nb\n' after='holds log "/bin/sh -c echo 1
/bin/sh -c echo 1 a
/bin/sh -c echo b
"'

row shows='a recorder that is not there is named' \
    makefile=$'t:\n\t@echo 1\n' run='BMAKE_RECORDER=/no/recorder "$program"' status=3 \
    err="bmake: run /no/recorder: No such file or directory$nl$outside"

# Looks at what the system does not tell, and times of the future.
meta='.MAKE.MODE=meta curdirOk=yes missing-meta=yes'

row shows='a recorded path that is not UTF-8 makes its target again, and ends no run' \
    makefile="$meta$nl"$'t:\n\t@printf "R 1 caf\\351\\n" >"$$BMAKE_FILEMON"; echo made; : >t\n' \
    run='"$program"; sleep 0.1; "$program"; "$program" --explain | cut -d " " -f 1,2' out=$'made\nmade\nt read\n'

row shows='a variable that cannot be exported is named' \
    makefile=$'V=caf\xe9\n.export V\nt:\n\t@echo made\n' \
    status=3 err="bmake: export V: not UTF-8$nl$outside"

row shows='so does one whose name is too long' \
    makefile="$meta$nl"$'t:\n\t@printf "R 1 %05000d\\n" 1 >"$$BMAKE_FILEMON"; echo made; : >t\n' \
    run='"$program"; sleep 0.1; "$program"' out=$'made\nmade\n'

row shows='a source of the future makes its target anew in each run, and is not waited for' \
    before='touch -d "+1 hour" a' makefile="$meta$nl"$'t: a\n\t@echo made; : >t\n' \
    run='timeout 20 "$program"; timeout 20 "$program"; touch a; "$program"; sleep 0.1; "$program"' out=$'made\nmade\nmade\n'

row shows='a time that is a little ahead is waited for' \
    before='touch -d "@$(($(date +%s) + 1)).9" a' makefile="$meta$nl"$'t: a\n\t@echo made; : >t\n' \
    run='timeout 20 "$program"; timeout 20 "$program"; sleep 0.1; timeout 20 "$program"' out=$'made\nmade\n'

# What is written to /dev/null gives it no later time.
row shows='a meta file that gets no later time ends the run, within seconds' \
    before='touch -d 2001-01-01 t; touch a; ln -s /dev/null t.meta' makefile="$meta$nl"$'t: a\n\t@echo made; : >t\n' \
    run='timeout 20 "$program"' status=3 \
    err="bmake: write t.meta: the time of the file does not come to be later than that of others$nl$outside"

row shows='a pipe with a name as meta file gives way' \
    before='mkfifo t.meta; touch t' makefile="$meta$nl"$'t:\n\t@echo made; : >t\n' \
    run='timeout 20 "$program"; sleep 0.1; timeout 20 "$program"' out=$'made\n' after='[ -f t.meta ]'

row shows='a meta file that cannot be written is named' \
    before='mkdir t.meta' makefile="$meta$nl"$'t:\n\t@echo made; : >t\n' status=3 \
    err="bmake: write t.meta: Is a directory$nl$outside"

row shows='the names of folders are quoted' \
    before=$'d=$\'it\\\'s "$x" *\\n`y`\'; mkdir "$d"; cd "$d"' \
    makefile=$'t:\n\t@echo a > t; echo b\n' \
    out=$'b\n' after='holds t "a
"'

row shows='a makefile that is a folder' \
    before='mkdir makefile' status=3 err="bmake: read makefile: Is a directory$nl$outside"

row shows='a makefile below a plain file is missing' \
    before='echo 1 >f' run='"$program" -f f/x' \
    status=2 err=$'bmake: no makefile f/x\n'

row shows='targets in the order of their sources, between what stands around a build' \
    makefile=$'all: a b\na b: c\na b c:\n\t@echo ${.TARGET}\n.BEGIN:\n\t@echo begin\n.END:\n\t@echo end\n' \
    out=$'begin\nc\na\nb\nend\n'

row shows='a macro and what takes it' \
    makefile=$'u: .USE\n\techo u\nt: u\n\techo t\n.PHONY: t\n' run='"$program" t' \
    out=$'echo t\nt\necho u\nu\n'

row shows='a target that no line names' \
    makefile=$'.DEFAULT:\n\techo 1 > ${.TARGET}\n' run='"$program" q' \
    out=$'echo 1 > q\n' after='holds q "1
"'

names=$'a: ${:U:range=500000}\nb: ${:U:range=500000:S/^/x/}\n'

row shows='1048576 names on three lines' \
    makefile="$names"$'c: ${:U:range=48573:S/^/y/}\n' run='"$program" -V X' out=$'\n'

row shows='one name more' \
    makefile="$names"$'c: ${:U:range=48574:S/^/y/}\n' run='"$program" -V X' \
    status=2 err=$'bmake: limit of names 1048576\n'

row shows='two jobs at once, each of which waits for the other' \
    makefile=$'all: x y\nx:\n\t@touch a; until [ -e b ]; do sleep 0.05; done\ny:\n\t@touch b; until [ -e a ]; do sleep 0.05; done\n' \
    run='timeout 60 "$program" -j 2'

row shows='with several jobs a line names the target of what follows' \
    makefile=$'t: x\n\t@echo 3\nx:\n\t@echo 1\n\t@echo 2\n' \
    run='"$program" -j 2' out=$'--- x ---\n1\n2\n--- t ---\n3\n'

row shows='short jobs do not wait for a long one' \
    before='{ echo "all: long $(seq -f s%g 40 | tr "\n" " ")"
            printf "%s\n\t@%s\n" "$(seq -f s%g 40 | tr "\n" " "):" "touch done.\${.TARGET}" \
                long: "until [ \$\$(ls done.* 2>/dev/null | wc -l) = 40 ]; do sleep 0.05; done"; } >makefile' \
    run='timeout 60 "$program" -j 4 2>/dev/null'

row shows='256 jobs at once' \
    before='{ echo "all: $(seq -f s%g 256 | tr "\n" " ")"
            printf "%s\n\t@%s\n" "$(seq -f s%g 256 | tr "\n" " "):" \
                "touch at.\${.TARGET}; until [ -e at.s256 ]; do sleep 0.5; done"; } >makefile' \
    run='timeout 100 "$program" -j 256' after='[ "$(ls at.* | wc -l)" = 256 ]'

row shows='-k goes on behind several failures, but not above them' \
    makefile=$'all: x y z above\nx:\n\t@exit 3\ny:\n\t@echo y\nz:\n\t@exit 4\nabove: x\n\t@echo above\n' \
    run='"$program" -k' \
    status=1 out=$'y\n' err=$'bmake: target x command 1: status 3\n'

row shows='.DELETE_ON_ERROR removes the target of a job that failed, but for a precious one' \
    makefile=$'.DELETE_ON_ERROR:\n.PRECIOUS: p\nall: t p\nt p:\n\t@echo 1 > ${.TARGET}; exit 2\n' \
    run='"$program" -k' \
    status=1 err=$'bmake: target t command 1: status 2\n' after='[ ! -e t ] && [ -e p ]'

row shows='a target that cannot be removed' \
    makefile=$'.DELETE_ON_ERROR:\nt:\n\t@mkdir t; exit 2\n' \
    status=3 err="bmake: remove t: Is a directory$nl$outside" after='[ -d t ]'

row shows='a target that is not there, or stands below a plain file, is not removed' \
    makefile=$'.DELETE_ON_ERROR:\nall: t p/x\nt:\n\t@exit 2\np/x:\n\t@echo 1 > p; exit 2\n' \
    run='"$program" -k' \
    status=1 err=$'bmake: target t command 1: status 2\n' after='[ -f p ]'

if mkdir "$room/small" && mount -t tmpfs -o size=64k none "$room/small" 2>/dev/null; then
    row shows='a full file system' \
        makefile="$meta$nl"$'t:\n\t@head -c 100000 /dev/zero | tr "\\0" x; : >t\n' \
        run='cp makefile "$room/small" && cd "$room/small" && "$program" >/dev/null' \
        status=3 err="bmake: write t.meta: No space left on device$nl$outside"
    umount "$room/small"
else
    echo 'skipped: a full file system (no small one may be made here)'
fi

if command -v cc >/dev/null && command -v ar >/dev/null; then
    row shows='a C project is made by suffix rules, and a second run starts nothing' \
        before='cp "$examples"/count/* .' \
        run='"$program" -j4 CC=cc >first; printf "a b\nc\n" | ./count; "$program" -j4 CC=cc' \
        out=$'2 3\n' after='[ -s first ]'
    row shows='a change of one source makes what stands on it, and nothing else' \
        before='cp "$examples"/count/* . && "$program" CC=cc CFLAGS= >/dev/null
            touch -d 2001-01-01 ./* && touch -d 2001-01-02 words.c' \
        run='"$program" CC=cc CFLAGS=' \
        out=$'cc  -c words.c -o words.o\nar rcs libcount.a lines.o words.o\ncc -o count main.o libcount.a\n'
else
    echo 'skipped: a C project (there is no cc or no ar)'
fi

row shows='a closed standard output' \
    makefile=$'A=1\n' run='"$program" -v A >&-' status=3 err="bmake: write standard output: Bad file descriptor$nl"

row shows='a full device as standard output' \
    makefile=$'A=1\n' run='"$program" -v A >/dev/full' status=3 err="bmake: write standard output: No space left on device$nl"

# Root reads everything, unless these capabilities are taken away.
plainly=''
[ "$(id -u)" != 0 ] || plainly='setpriv --bounding-set=-dac_override,-dac_read_search'
if [ -n "$plainly" ] && ! $plainly true 2>/dev/null; then
    echo 'skipped: an unreadable makefile, and a closed directory (root reads everything)'
else
    row shows='an unreadable makefile' \
        before='echo A=1 >makefile; chmod 000 makefile' run="$plainly \"\$program\" -v A" \
        status=3 err="bmake: read makefile: Permission denied$nl$outside"

    # The system does not tell whether such a source is there: it counts as there, and as newer than what it makes.
    row shows='a source in a closed directory, whose time is not known, is there' \
        before='mkdir d && : >d/s && : >t && chmod 000 d' makefile=$'t: d/s d/other\n\t@echo $(.ALLSRC) >$@\n' \
        run="$plainly \"\$program\"" after='[ "$(cat t)" = "d/s d/other" ] && chmod 700 d'
fi

echo "$passed passed, $failed failed"
[ "$failed" = 0 ]
