#!/usr/bin/env bash
# The program fmrun: what each of its commands does to real files and records, and builds in meta mode of
# which it is the only command. Run it at the top of the repository, where the programs stand at
# crates/bmake/out/bmake and crates/fmrun/out/fmrun. Its last line is 'N passed, M failed'.
set -u
program=${BMAKE:-$PWD/crates/bmake/out/bmake}
fmrun=${FMRUN:-$PWD/crates/fmrun/out/fmrun}
. tests/lib.sh
room=$(cd "$room" && pwd -P) || exit 1
export TMPDIR=$room/outputs
mkdir "$TMPDIR"
needs_built "$program" "$fmrun"

# Whether a file holds a text, in which \n is a newline.
holds() {
    printf '%b' "$2" | cmp -s - "$1" || printf '%s holds %s; ' "$1" "$(head -c 200 "$1" 2>&1)"
}

# Whether nothing stands at these paths.
gone() {
    for path; do
        [ ! -e "$path" ] || printf '%s stands; ' "$path"
    done
}

# The clock of a file system goes in steps, of four milliseconds on many machines, and a file that was
# changed in the step in which a job began counts as changed behind it. So there is more than a step
# between a change and the run behind it.

# One command line of fmrun, in a folder of its own in which the file a holds the lines 1, 2 and 3, and b
# the word b without a newline: what it shows, the shell lines before it, its words, and then the exit
# status, standard output, standard error and records that are wanted, and the shell lines behind it, which
# print what is wrong. The log begins with the folder, which HERE stands for in the records.
row() {
    local shows before=: words='' status=0 out='' err='' records='' after=: is wrong
    local "$@"
    local here=$room/row$((passed + failed)) is
    mkdir "$here"
    wrong=$(
        cd "$here" || exit 1
        printf '1\n2\n3\n' >a
        printf b >b
        eval "$before" || echo 'the lines before it failed; '
        eval "BMAKE_FILEMON=\$here.log \"\$fmrun\" $words" >"$here.out" 2>"$here.err" </dev/null
        is=$?
        [ "$is" = "$status" ] || echo "status $is and not $status; "
        holds "$here.out" "$out"
        holds "$here.err" "$err"
        holds "$here.log" "C 1 $here\n${records//HERE/$here}"
        eval "$after"
    )
    count "$shows" "$wrong"
}

row shows='put writes its words as a line' words='put t 1 "2 3" 4' records='W 1 t\n' \
    after='holds t "1 2 3 4\n"'
row shows='put without words writes an empty line' words='put t' records='W 1 t\n' after='holds t "\n"'
row shows='put writes a file anew' words='put a x' records='W 1 a\n' after='holds a "x\n"'
row shows='paths are recorded as given' words='put ./d/../t x' before='mkdir d' records='W 1 ./d/../t\n' \
    after='holds t "x\n"'
row shows='an absolute path' words='copy "$PWD/a" t' records='R 1 HERE/a\nW 1 t\n' \
    after='holds t "1\n2\n3\n"'
row shows='cat writes the contents of its sources in order' words='cat t b a b' \
    records='R 1 b\nR 1 a\nR 1 b\nW 1 t\n' after='holds t "b1\n2\n3\nb"'
row shows='cat may read its own target' words='cat a b a' records='R 1 b\nR 1 a\nW 1 a\n' \
    after='holds a "b1\n2\n3\n"'
row shows='cat ends at the first file that is missing' words='cat t a x b y' status=1 \
    records='R 1 a\n# N 1 x\n' after='gone t'
row shows='a path below a plain file is missing' words='cat t a/x' status=1 records='# N 1 a/x\n' after='gone t'
row shows='copy writes the contents of one file to another' words='copy a t' records='R 1 a\nW 1 t\n' \
    after='holds t "1\n2\n3\n"; holds a "1\n2\n3\n"'
row shows='copy of a missing file' words='copy x b' status=1 records='# N 1 x\n' after='holds b b'
row shows='move gives a file another path' words='move a t' records="R 1 a\nM 1 'a' 't'\n" \
    after='holds t "1\n2\n3\n"; gone a'
row shows='move writes the new file anew, so that its time is new' before='touch -d 2001-01-01 a' words='move a b' \
    records="R 1 a\nM 1 'a' 'b'\n" after='[ -n "$(find b -newermt 2002-01-01)" ] || echo "b is old"; gone a'
row shows='move onto itself keeps the file, with a new time' before='touch -d 2001-01-01 a' words='move a ./a' \
    records="R 1 a\nM 1 'a' './a'\n" \
    after='[ -n "$(find a -newermt 2002-01-01)" ] || echo "a is old"; holds a "1\n2\n3\n"'
row shows='move of a missing file' words='move x b' status=1 records='# N 1 x\n' after='holds b b'
row shows='move of a path with a quote is recorded as what it does to each path' before="mv a it\\'s" words="move it\\'s b" \
    records="R 1 it's\nD 1 it's\nW 1 b\n" after='holds b "1\n2\n3\n"; gone "it'"'"'s"'
row shows='move to a path with a quote' words="move a it\\'s" records="R 1 a\nM 1 'a' 'it's'\n" after='gone a'
row shows='a path with a newline is recorded as a file that is never there' words='copy a "x
y"' records='R 1 a\nR 1 /a path with a newline has no record\n' after='cmp a "x
y"'
row shows='del removes a file' words='del a' records='R 1 a\nD 1 a\n' after='gone a'
row shows='del of a missing file' words='del x' status=1 records='# N 1 x\n'
row shows='show prints a file' words='show a' out='1\n2\n3\n' records='R 1 a\n'
row shows='show of a file without a newline' words='show b' out=b records='R 1 b\n'
row shows='show of a missing file' words='show x' status=1 records='# N 1 x\n'
row shows='say prints its words as a line' words='say 1 "2  3"' out='1 2  3\n'
row shows='say without words' words='say' out='\n'
row shows='pick writes one line' words='pick t 2 a' records='R 1 a\nW 1 t\n' after='holds t "2\n"'
row shows='pick of a last line without a newline' words='pick t 1 b' records='R 1 b\nW 1 t\n' \
    after='holds t "b\n"'
row shows='pick behind the last line writes nothing' words='pick t 4 a' records='R 1 a\nW 1 t\n' after='holds t ""'
row shows='pick far behind the last line' words='pick t 999999999 a' records='R 1 a\nW 1 t\n' after='holds t ""'
row shows='pick of a number with leading zeros' words='pick t 000000003 a' records='R 1 a\nW 1 t\n' \
    after='holds t "3\n"'
row shows='pick of an empty file' before=': >e' words='pick t 1 e' records='R 1 e\nW 1 t\n' after='holds t ""'
row shows='pick of an empty line' before='echo >e' words='pick t 1 e' records='R 1 e\nW 1 t\n' \
    after='holds t "\n"'
row shows='pick of a missing file' words='pick b 1 x' status=1 records='# N 1 x\n' after='holds b b'
row shows='probe writes whether a file stands' words='probe t a' records='R 1 a\nW 1 t\n' after='holds t "yes\n"'
row shows='probe of a missing file is no failure' words='probe t x' records='# N 1 x\nW 1 t\n' \
    after='holds t "no\n"'
row shows='probe of a folder' before='mkdir d' words='probe t d' records='R 1 d\nW 1 t\n' after='holds t "yes\n"'
row shows='env writes the value of a variable' words='env t V' before='export V="1 2"' records='W 1 t\n' \
    after='holds t "1 2\n"'
row shows='env of a variable that is not set' words='env t V' before='unset V' records='W 1 t\n' \
    after='holds t "\n"'
row shows='fail ends with its status' words='fail 1' status=1
row shows='fail with the greatest status' words='fail 255' status=255
row shows='no words' words=''
row shows='an unknown word' words='touch t' status=127 after='gone t'
row shows='a semicolon is a word like others' words='put t 1 \; put u 2' records='W 1 t\n' \
    after='gone u; holds t "1 ; put u 2\n"'

for words in put cat 'cat t' copy 'copy a' 'copy a t u' move 'move a' 'move a t u' del 'del a b' show 'show a b' \
    pick 'pick t' 'pick t 1' 'pick t 1 a b' 'pick t 0 a' 'pick t x a' 'pick t -1 a' 'pick t +1 a' 'pick t "" a' \
    'pick t 1000000000 a' 'pick t 0000000001 a' probe 'probe t' 'probe t a b' env 'env t' 'env t a b' \
    fail 'fail 0' 'fail 256' 'fail x' 'fail ""' 'fail 1 2' 'fail 0000000001'; do
    row shows="a wrong number of words or a bad number: $words" words="$words" status=2 after='gone t u'
done

refuses='fmrun: the system refuses'
row shows='a file that cannot be written' before='mkdir t' words='put t 1' status=1 err="$refuses t\n" \
    records='W 1 t\n'
row shows='a file in a folder that is not there' words='copy a d/t' status=1 err="$refuses d/t\n" \
    records='R 1 a\nW 1 d/t\n'
row shows='a folder cannot be read' before='mkdir d' words='cat t a d b' status=1 err="$refuses d\n" \
    records='R 1 a\nR 1 d\n' after='gone t'
row shows='a file that is moved to where none can be written stays' words='move a d/t' status=1 \
    err="$refuses d/t\n" records="R 1 a\nM 1 'a' 'd/t'\n" after='holds a "1\n2\n3\n"'
row shows='a word that is not UTF-8' before='echo "C 1 $PWD" >"$here.log"' words='show "$(printf "\\377")"' status=2 \
    err='fmrun: a word is not UTF-8\n'

mkdir "$room/alone" && cd "$room/alone" || exit 1
echo 1 >a
wrong=$("$fmrun" cat t a)
count 'nothing is recorded where no log is asked for' "$wrong$(holds t '1\n')$([ "$(ls)" = $'a\nt' ] || ls)"
wrong=$(BMAKE_FILEMON='' "$fmrun" copy a t)
count 'nor where its name is empty' "$wrong$([ "$(ls)" = $'a\nt' ] || ls)"
wrong=$(BMAKE_FILEMON=log "$fmrun" show a)$(BMAKE_FILEMON=log "$fmrun" probe u x)
count 'a log grows, and is named from the current directory' \
    "${wrong#1}$(holds log "C 1 $PWD\nR 1 a\nC 1 $PWD\n# N 1 x\nW 1 u\n")"
wrong=$(BMAKE_FILEMON=. "$fmrun" put v 1 2>&1) && wrong='it ended well'
count 'a log that cannot be written is a failure, and nothing is done' \
    "${wrong#fmrun: the system refuses .}$(gone v)"
wrong=$("$fmrun" say 1 2>&1 >/dev/full) && wrong='it ended well'
count 'a full standard output is a failure' "${wrong#fmrun: the system refuses standard output}"
"$fmrun" --help >/dev/full
count 'a full standard output behind --help' "$([ $? = 3 ] || echo 'another status')"
count 'each command stands in the text of --help' "$("$fmrun" --help | sed -n 's/^  \([a-z]*\) .*/\1/p' | tr '\n' ' ' |
    cmp - <(printf 'put cat copy move del show say pick probe fail env meet '))"
count 'the version is one line' "$("$fmrun" --version | grep -vx 'fmrun [0-9.]*')"
"$fmrun" --help more >"$room/out"
count '--help beside another word is an unknown command' "$([ $? = 127 ] || echo 'another status')$(holds "$room/out" '')"

# Two that wait for each other.
mkdir "$room/meet" && cd "$room/meet" || exit 1
export BMAKE_FILEMON=$room/meet.log
"$fmrun" meet x y &
"$fmrun" meet y x
is=$?
wait $!
count 'two that meet' "$([ "$is.$?" = 0.0 ] || echo "$is, $?")$(holds x 1)$(holds y 1)"
rm x y
"$fmrun" meet x y
count 'one that waits for none' "$([ $? = 1 ] || echo 'another status')$(holds x 1)$(gone y)"
"$fmrun" meet x
count 'meet with too few words' "$([ $? = 2 ] || echo 'another status')"
count 'meet is not recorded' "$(gone "$BMAKE_FILEMON")"
unset BMAKE_FILEMON

# A new world: an empty folder with this makefile.
world() {
    mkdir "$room/$1" && cd "$room/$1" || exit 1
    cat >makefile
}

# A run with these words, behind a pause: its exit status has to be 0 and standard error empty, and what
# stands on standard output is kept in the file out of the room. What is wrong is said.
build() {
    pause
    "$program" "$@" >"$room/out" 2>"$room/err" </dev/null || printf 'status %s; ' $?
    holds "$room/err" ''
}

# Whether the last run has printed these lines.
printed() {
    printf '%s\n' "$@" | cmp -s - "$room/out" || printf 'standard output: %s; ' "$(head -c 300 "$room/out")"
}

# The same for two blocks of two lines, of two jobs at once: which of them ends first is free.
printed_in_any_order() {
    printf '%s\n' "$3" "$4" "$1" "$2" | cmp -s - "$room/out" || printed "$@"
}

# Whether a run with these words prints nothing and changes no file.
rests() {
    find . -type f -printf '%p %T@ %s\n' | sort >"$room/before"
    build "$@"
    holds "$room/out" ''
    find . -type f -printf '%p %T@ %s\n' | sort | cmp -s - "$room/before" || echo 'a file has changed; '
}

meta='.MAKE.MODE=meta curdirOk=yes missing-meta=yes missing-filemon=yes'

world apart <<END
.PHONY: all
all: x y
x:
	$fmrun meet x y
y:
	$fmrun meet y x
END
count 'two jobs that meet end well at once' "$(build -s -j 2)$(holds "$room/out" '')"
rm x y
"$program" -s -j 1 >"$room/out" 2>"$room/err"
count 'and not one after the other' "$([ $? = 1 ] || echo 'another status; ')$(holds "$room/err" \
    'bmake: target x command 1: status 1\n')$(holds "$room/out" '')$(gone y)"

# The world of two sources.
sources() {
    world "$1" <<END
$meta
t: a b
	$fmrun cat t a b
END
    echo 1 >a
    echo 2 >b
}

# A meta file whose first stamp is left out.
stamped() {
    sed '2s/^STAMP [0-9]*$/STAMP n/' "$1"
}

sources first
count 'a target is made of its sources' "$(build)$(printed "$fmrun cat t a b")$(holds t '1\n2\n')"
count 'its meta file' "$(stamped t.meta | cmp - <(printf '%s\n' '# Meta data file t.meta' 'STAMP n' \
    "CMD $fmrun cat t a b" "CWD $PWD" 'TARGET t' 'OUTPUT 0' '-- command output --' '' \
    '-- filemon acquired metadata --' 'R 1 a' 'R 1 b' 'W 1 t' '# end 3') 2>&1)"
count 'a second run does nothing' "$(rests)"
cp makefile "$room/old"
echo "$meta" >makefile
echo 9 >t
cp "$room/old" makefile
count 'a target that was edited by hand is made again' "$(build)$(printed "$fmrun cat t a b")$(holds t '1\n2\n')$(rests)"
sed -i 's/cat t a b/cat t b a/' makefile
count 'so is one whose command is another' "$(build)$(printed "$fmrun cat t b a")$(holds t '2\n1\n')$(rests)"

sources parts
wrong=$(build)
cp t.meta "$room/whole"
size=$(wc -c <"$room/whole")
for part in $(seq 0 $((size - 1))); do
    head -c "$part" "$room/whole" >t.meta
    wrong=$wrong$(build)$(printed "$fmrun cat t a b")$(holds t '1\n2\n')
done
cmp -s <(stamped t.meta) <(stamped "$room/whole") || wrong="$wrong t.meta is not whole; "
count 'each beginning of its meta file makes it again' "$wrong$(rests)"

world header <<END
$meta
all: t u
t: a
	$fmrun cat t a h
u: a
	$fmrun cat u a
.PHONY: all
END
echo 1 >a
echo 2 >h
count 'two targets' "$(build)$(printed "$fmrun cat t a h" "$fmrun cat u a")$(holds t '1\n2\n')$(holds u '1\n')$(rests)"
echo 3 >h
cp -p u u.meta "$room"
count 'an edit of a file that no source list names makes again what reads it, and no other' \
    "$(build)$(printed "$fmrun cat t a h")$(holds t '1\n3\n')$([ ! u -nt "$room/u" ] && [ ! u.meta -nt "$room/u.meta" ] ||
        echo 'u was made again')$(rests)"

world generated <<END
$meta
t: a g.h
	$fmrun cat t a g.h
g.h: d
	$fmrun copy d g.h
END
echo 1 >a
echo 2 >d
count 'a header that is made' "$(build)$(printed "$fmrun copy d g.h" "$fmrun cat t a g.h")$(holds t '1\n2\n')$(rests)"
echo 3 >d
count 'an edit of what it is made of' "$(build)$(printed "$fmrun copy d g.h" "$fmrun cat t a g.h")$(holds t '1\n3\n')$(rests)"

world absent <<END
$meta
t: a
	$fmrun probe t b
END
echo 1 >a
count 'a command that looks for a file that is missing' "$(build)$(printed "$fmrun probe t b")$(holds t 'no\n')$(rests)"
echo 1 >b
count 'it is run again when the file appears' "$(build)$(printed "$fmrun probe t b")$(holds t 'yes\n')$(rests)"
rm b
count 'and when it is gone' "$(build)$(printed "$fmrun probe t b")$(holds t 'no\n')$(rests)"

# What a command reads of its environment counts where it is exported, and else not.
world exported <<END
$meta
.export V
t:
	$fmrun env t V
END
count 'a command finds an exported variable' "$(V=1 build)$(printed "$fmrun env t V")$(holds t '1\n')$(V=1 rests)"
count 'the meta file keeps its value' "$(grep '^ENV ' t.meta | cmp - <(echo 'ENV V=1') 2>&1)"
count 'with another value the target is made again' "$(V=2 build)$(printed "$fmrun env t V")$(holds t '2\n')$(V=2 rests)"
count 'and so where it is no longer exported' "$(sed -i '/^.export/d' makefile; V=2 build)$(printed "$fmrun env t V")$(V=2 rests)"
count 'where it is not, another value of the environment does not count' "$(V=3 rests)$(holds t '2\n')"

world asked <<END
V=1
A!=$fmrun env a V; cat a
.export V
V=2
B!=$fmrun env b V; cat b
END
count 'a command of != finds what is exported at its line' "$(unset V; build -V A -V B)$(printed '' 2)"

world logged <<END
$meta
t:
	@echo 1 >t; printf '%s\n' '# N 5 f' '# x' 'W 5 t' >>"\$\$BMAKE_FILEMON"
END
count 'a miss in the log of another recorder' "$(build)$(grep -x '[RNWDM] .*' t.meta | cmp - <(printf 'N 1 f\nW 1 t\n') 2>&1)$(rests)"
echo 1 >f
touch -d 2001-01-01 t
count 'its target is made again when the file appears' "$(build)$([ -n "$(find t -newermt 2002-01-01)" ] || echo 't is old')"

world tool <<END
# a small tool
PROG?=	tool
SRCS=	main.c \\
	util.c
OBJS=	\${SRCS:.c=.o}
.SUFFIXES: .c .o
$meta
all: \${PROG} .PHONY
\${PROG}: \${OBJS}
	@$fmrun cat \${.TARGET} \${.ALLSRC}
.c.o:
	$fmrun cat \${.TARGET} \${.IMPSRC} defs.h
END
echo main >main.c
echo util >util.c
echo 1 >defs.h
objects=('--- main.o ---' "$fmrun cat main.o main.c defs.h" '--- util.o ---' "$fmrun cat util.o util.c defs.h")
count 'a tool of two sources and a header, by four jobs' "$(build -j 4)$(printed_in_any_order "${objects[@]}")$(holds tool \
    'main\n1\nutil\n1\n')$(rests -j 4)"
echo 2 >defs.h
count 'an edit of the header' "$(build -j 4)$(printed_in_any_order "${objects[@]}")$(holds tool 'main\n2\nutil\n2\n')$(rests -j 4)"
cp -p util.o "$room"
echo more >>main.c
count 'an edit of one source' "$(build -j 4)$(printed "${objects[@]:0:2}")$(holds tool 'main\nmore\n2\nutil\n2\n')$([ ! \
    util.o -nt "$room/util.o" ] || echo 'util.o was made again')$(rests -j 4)"

# What stands now is what a clean build of the same sources leaves.
mkdir "$room/clean" && cp makefile ./*.[ch] "$room/clean" && cd "$room/clean" || exit 1
wrong=$(build -j 4)$(printed_in_any_order "${objects[@]}")
for file in main.o util.o tool; do
    cmp -s "$file" "$room/tool/$file" || wrong="$wrong $file differs; "
done
count 'a clean build leaves the same files' "$wrong"

cd "$room" || exit 1
finish
