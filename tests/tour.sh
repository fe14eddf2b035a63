#!/usr/bin/env bash
# A tour of meta mode on a real machine: examples/tool is built, changed and built again, and each run
# starts exactly the commands that the change reaches. Run it at the top of the repository, where the
# program stands at crates/bmake/out/bmake. Its last line is 'N passed, M failed'.
set -u
program=${BMAKE:-$PWD/crates/bmake/out/bmake}
recorder=${FMTRACE:-$PWD/crates/fmtrace/out/fmtrace}
. tests/lib.sh
export BMAKE_RECORDER=$recorder

for needed in cc strace; do
    if ! is_there "$needed"; then
        skip 'the tour of meta mode' "there is no $needed"
        finish
    fi
done
if ! strace -f -D -o "$room/trace" true 2>/dev/null || [ ! -s "$room/trace" ]; then
    skip 'the tour of meta mode' 'strace may not trace here'
    finish
fi
needs_built "$program" "$recorder"

# A copy of the example.
copy() {
    mkdir -p "$1/examples/tool"
    cp -R examples/tool/. "$1/examples/tool/"
    rm -f "$1"/examples/tool/{tool,*.o,*.meta,local/*.h}
}

copy "$room/tour"
copy "$room/clean"
top=$PWD
cd "$room/tour/examples/tool" || exit 1

flags=-O2
link_flags=-s

# The commands that make an object, and the program.
compile() {
    printf 'cc %s -Ilocal -Iinclude -c %s.c -o %s.o\n' "$flags" "$1" "$1"
}

link() {
    printf 'cc %s -o tool main.o table.o words.o\n' "$link_flags"
}

objects() {
    for object; do compile "$object"; done
}

# One step: what it shows, the shell lines before the run, the words of the run, the commands that are
# wanted, by the shell line that prints them, why, as --explain tells it with a T for each time, and what the
# program then prints. Before the run -n shows these commands, and -q tells whether there are some. Between the change and the
# run there is a pause: the clock of a file system goes in steps, and a file that was changed in the step in
# which a job began counts as changed behind it.
step() {
    local shows before=: words='' wanted=: told=any says=$'2 the\n1 and\n1 cat\n1 dog' is wrong=''
    local "$@"
    eval "$before" || wrong='the change failed'
    sleep 0.02
    [ "$wanted" != : ] || told=''
    # The words are parted by the blanks between them.
    # shellcheck disable=SC2086
    "$program" -n $words >"$room/out" 2>&1 </dev/null
    eval "$wanted" | cmp -s - "$room/out" || wrong="$wrong; -n shows: $(cat "$room/out")"
    # shellcheck disable=SC2086
    "$program" -q $words >"$room/out" 2>&1 </dev/null
    is=$?
    [ "$is" = "$([ "$wanted" = : ]; echo $?)" ] || wrong="$wrong; -q ends with $is"
    [ ! -s "$room/out" ] || wrong="$wrong; -q prints: $(cat "$room/out")"
    # shellcheck disable=SC2086
    "$program" --explain $words </dev/null 2>&1 | sed -E 's/ [0-9]{10,}/ T/g' >"$room/out"
    [ "$told" = any ] || [ "$(cat "$room/out")" = "$told" ] || wrong="$wrong; --explain tells: $(cat "$room/out")"
    # shellcheck disable=SC2086
    "$program" $words >"$room/out" 2>"$room/err" </dev/null
    is=$?
    [ "$is" = 0 ] || wrong="$wrong; status $is"
    eval "$wanted" | cmp -s - "$room/out" || wrong="$wrong; standard output: $(cat "$room/out")"
    [ ! -s "$room/err" ] || wrong="$wrong; standard error: $(cat "$room/err")"
    is=$(echo 'the cat and the dog' | ./tool)
    [ "$is" = "$says" ] || wrong="$wrong; the program says: $is"
    count "$shows" "$wrong"
}

# One audit: what it shows, and the lines that are wanted, each of a breach.
audit() {
    local shows=$1 wanted=$2 told='' wrong='' is
    [ -z "$wanted" ] || told="bmake: breaches $(printf '%s\n' "$wanted" | wc -l)"
    "$program" --audit >"$room/out" 2>"$room/err" </dev/null
    is=$?
    [ "$is" = "$([ -z "$wanted" ]; echo $?)" ] || wrong="status $is; "
    wrong="$wrong$(same "$wanted" "$(cat "$room/out")")$(same "$told" "$(cat "$room/err")")"
    count "$shows" "$wrong"
}

step shows='all is built' wanted='objects main table words; link' \
    told=$'main.o missing\ntable.o missing\nwords.o missing\ntool missing'

step shows='a second run prints and starts nothing'

step shows='nor does one with several jobs' words='-j 4'

audit 'an audit finds all declared' ''

step shows='a header that no makefile names was edited, which two sources include' \
    before='echo "/* Words. */" >>include/words.h' wanted='objects main words; link' \
    told=$'main.o read include/words.h T T\nwords.o read include/words.h T T\ntool newer main.o new T'

step shows='nothing more is to do'

step shows='a header was edited that one source includes' \
    before='echo "/* Letters. */" >>include/letters.h' wanted='objects words; link' \
    told=$'words.o read include/letters.h T T\ntool newer words.o new T'

step shows='a header appeared earlier in the include path' \
    before='echo "#define IS_LETTER(c) ((c) > 100)" >local/letters.h' wanted='objects words; link' \
    told=$'words.o appeared local/letters.h\ntool newer words.o new T' \
    says=$'2 the\n1 n\n1 og\n1 t'

step shows='it is found there from now on' says=$'2 the\n1 n\n1 og\n1 t'

step shows='it was edited' before='echo "#define IS_LETTER(c) ((c) >= 97)" >local/letters.h' \
    wanted='objects words; link' told=$'words.o read local/letters.h T T\ntool newer words.o new T'

step shows='it is gone again' before='rm local/letters.h' wanted='objects words; link' \
    told=$'words.o read local/letters.h missing T\ntool newer words.o new T'

step shows='a header appeared that nothing looks for' before='echo "#error" >local/other.h'

flags=-O1
step shows='the flags of the compiler reach the objects' words=CFLAGS=-O1 wanted='objects main table words; link'

step shows='the same flags again' words=CFLAGS=-O1

link_flags=-rdynamic
step shows='the flags of the linker reach the program alone' words='CFLAGS=-O1 LDFLAGS=-rdynamic' wanted=link \
    told=$'tool command 1
- cc -s -o tool main.o table.o words.o
+ cc -rdynamic -o tool main.o table.o words.o'

flags=-O2
link_flags=-s
step shows='the flags of the makefile again' wanted='objects main table words; link'

step shows='an object was removed' before='rm table.o' wanted='objects table; link' \
    told=$'table.o missing\ntool newer table.o new T'

step shows='an object was edited by hand' before='echo 1 >>words.o' wanted='objects words; link' \
    told=$'words.o touched T T\ntool newer words.o new T'

step shows='an object of another build was put in its place' before='cp main.o table.o' wanted='objects table; link'

step shows='the program was edited by hand' before='echo 1 >>tool' wanted=link told='tool touched T T'

step shows='the record of an object was removed' before='rm main.o.meta' wanted='objects main; link' \
    told=$'main.o no meta\ntool newer main.o new T'

step shows='the record of an object was cut' before='head -c 200 words.o.meta >cut; mv cut words.o.meta' \
    wanted='objects words; link'

step shows='a source was edited' before='cp main.c old; sed -i "s/%zu %s/%zu times %s/" main.c' \
    wanted='objects main; link' told=$'main.o newer main.c T T\ntool newer main.o new T' says=$'2 times the\n1 times and\n1 times cat\n1 times dog'

step shows='the old source was put back' before='cp old main.c; rm old' wanted='objects main; link'

step shows='nothing is left to do'

audit 'an audit finds all declared behind all this' ''

# What stands now is what a clean build of the same sources leaves.
step shows='a clean build leaves the same' before='cp include/* ../../../clean/examples/tool/include/
        cd ../../../clean/examples/tool' wanted='objects main table words; link'
for file in main.o table.o words.o tool; do
    count "$file is that of a clean build" \
        "$(cmp "$room/tour/examples/tool/$file" "$room/clean/examples/tool/$file" 2>&1)"
done

# A header that is made, which a source includes and no line declares. One job makes it in time,
# since it stands before the program in the line of `all`.
cd "$top" || exit 1
copy "$room/header"
cd "$room/header/examples/tool" || exit 1
sed -i 's,^all: tool,all: include/width.h tool,' makefile
cat >>makefile <<'END'
include/width.h: width
	echo "#define WIDTH $$(cat width)" >${.TARGET}
END
sed -i -e 's/^#include "letters.h"/&\n#include "width.h"/' \
    -e 's/length < WORD_SIZE - 1/length < WIDTH/' words.c
echo 2 >width
sleep 0.02

header() {
    echo 'echo "#define WIDTH $(cat width)" >include/width.h'
}

short=$'2 th\n1 an\n1 ca\n1 do'
all='header; objects main table words; link'
step shows='a header that is made and not declared is made in time' wanted="$all" says="$short"
audit 'an audit tells who reads it' 'reads-made words.o include/width.h'

# What it warns of: where the program is asked for first, one build leaves it as it was made with
# the old header, and ends well.
tiny=$'2 t\n1 a\n1 c\n1 d'
first='tool include/width.h'
step shows='the header is made behind its reader' words="$first" before='echo 1 >width' \
    wanted=header told='include/width.h newer width T T' says="$short"
audit 'an audit tells who is out of date' 'stale words.o read'
step shows='and a second build makes this right' words="$first" wanted='objects words; link' \
    told=$'words.o read include/width.h T T\ntool newer words.o new T' says="$tiny"

# From nothing the program cannot be made at all where it is asked for first.
from_nothing() {
    rm -f tool ./*.o ./*.meta include/width.h include/*.meta
    "$program" "$@" >"$room/out" 2>"$room/err" </dev/null
}
from_nothing tool include/width.h
wrong=$(same 1 $?)$(same 'bmake: target words.o command 1: status 1' "$(cat "$room/err")")
grep -q 'width\.h' "$room/out" || wrong="$wrong the compiler says: $(cat "$room/out")"
[ ! -e tool ] || wrong="$wrong the program is there"
count 'from nothing it fails' "$wrong"
step shows='in the order of the makefile all goes well' before='rm -f main.o table.o' \
    wanted="$all" says="$tiny"

# The repair.
step shows='a line that declares it makes nothing again' says="$tiny" \
    before='echo words.o: include/width.h >>makefile'
audit 'an audit finds it declared' ''
step shows='then one build is enough, in any order' words="$first" before='echo 2 >width' \
    wanted='header; objects words; link' says="$short"
audit 'and an audit finds nothing behind it' ''
from_nothing -j4 tool
wrong=$(same 0 $?)
count 'from nothing the program alone is made' \
    "$wrong$(same "$short" "$(echo 'the cat and the dog' | ./tool)")"
cd "$top" || exit 1
finish
