#!/usr/bin/env bash
# The projects of examples/projects: each is built, built again, and built once more after an edit, with one job and with
# eight. The commands that run are those that are wanted, a second build runs none, and what stands at the end is what
# a clean build makes. Another bmake, as Debian's, where it is there and can read the project, runs the same commands. Run it at the
# top of the repository, where the programs stand at crates/{bmake,fmtrace}/out. Its last line is 'N passed, M failed'.
set -u
. tests/lib.sh
program=${BMAKE:-$PWD/crates/bmake/out/bmake}
recorder=${FMTRACE:-$PWD/crates/fmtrace/out/fmtrace}
needs_built "$program"
share=$PWD/share/mk
projects=$PWD/examples/projects
# Another bmake: one that knows its version, as this one does not.
other=${OTHER_BMAKE:-$(command -v bmake)}
[ -n "$other" ] && [ -n "$("$other" -V MAKE_VERSION 2>/dev/null)" ] || other=''

# The commands of a run that was printed, in order of their bytes: without the names of targets before the output of
# several jobs.
commands() {
    grep -v '^--- .* ---$' "$1" | LC_ALL=C sort
}

# The files of a project, with their checksums, but for records.
files() {
    (cd "$1" && find . -type f ! -name '*.meta' | LC_ALL=C sort | xargs cksum)
}

# A build with these words in a folder: its status has to be this, and what it prints is kept.
build() {
    local folder=$1 status=$2 is
    shift 2
    pause
    (cd "$folder" && "$@" </dev/null) >"$room/out" 2>"$room/err"
    is=$?
    [ "$is" = "$status" ] || printf 'status %s: %s; ' "$is" "$(head -c 500 "$room/err")"
}

# Makes all files as old as each other, so that a make that counts in seconds sees an edit.
age() {
    find "$1" -exec touch -h -d 2020-01-01 {} +
}

# One project: its name, the status of its builds, an edit, the commands that it makes run, words for make, and whether
# another bmake reads it.
project() {
    local name status=0 edit wanted words='' both=yes jobs wrong folder
    local "$@"
    for jobs in 1 8; do
        folder=$room/$name.$jobs
        cp -R "$projects/$name" "$folder"
        # The words are parted by the blanks between them.
        # shellcheck disable=SC2086
        wrong=$(build "$folder" "$status" "$program" -j$jobs $words)
        [ -s "$room/out" ] || wrong="$wrong nothing was run;"
        commands "$room/out" >"$room/$name.first.$jobs"
        [ "$status" = 0 ] || words="$words -k"
        # shellcheck disable=SC2086
        wrong="$wrong$(build "$folder" "$status" "$program" -j$jobs $words)"
        [ "$status" != 0 ] || [ ! -s "$room/out" ] || wrong="$wrong the second build printed $(head -c 300 "$room/out");"
        (cd "$folder" && eval "$edit") || wrong="$wrong the edit failed;"
        # shellcheck disable=SC2086
        wrong="$wrong$(build "$folder" "$status" "$program" -j$jobs $words)"
        wrong="$wrong$(same "$(printf '%s\n' "$wanted" | LC_ALL=C sort)" "$(commands "$room/out")")"
        rm -rf "$room/clean"
        cp -R "$projects/$name" "$room/clean"
        (cd "$room/clean" && eval "$edit")
        # shellcheck disable=SC2086
        wrong="$wrong$(build "$room/clean" "$status" "$program" $words)"
        wrong="$wrong$(same "$(files "$room/clean")" "$(files "$folder")")"
        count "$name, -j$jobs" "$wrong"
    done
    count "$name: one job and eight run the same commands" \
        "$(same "$(cat "$room/$name.first.1")" "$(cat "$room/$name.first.8")")"
    [ "$both" = yes ] || return
    if [ -z "$other" ]; then
        skip "$name beside another bmake" 'there is none'
        return
    fi
    folder=$room/$name.other
    cp -R "$projects/$name" "$folder"
    age "$folder"
    # It gives 0 after -k, so its status counts where all goes well alone.
    # shellcheck disable=SC2086
    wrong=$(cd "$folder" && "$other" -r $words </dev/null >"$room/out" 2>"$room/err" || [ "$status" != 0 ] || head -c 300 "$room/err")
    grep -vE "^(${other##*/}|make)(\[[0-9]+\])?: |^\*\*\* |^Stop\.|\(continuing\)|not remade because of errors|^\$" "$room/out" >"$room/plain"
    wrong="$wrong$(same "$(cat "$room/$name.first.1")" "$(commands "$room/plain")")"
    age "$folder"
    (cd "$folder" && eval "$edit")
    # shellcheck disable=SC2086
    wrong="$wrong$(cd "$folder" && "$other" -r $words </dev/null >"$room/out" 2>"$room/err" || [ "$status" != 0 ] || head -c 300 "$room/err")"
    grep -vE "^(${other##*/}|make)(\[[0-9]+\])?: |^\*\*\* |^Stop\.|\(continuing\)|not remade because of errors|^\$" "$room/out" >"$room/plain"
    wrong="$wrong$(same "$(printf '%s\n' "$wanted" | LC_ALL=C sort)" "$(commands "$room/plain")")"
    count "$name: another bmake runs the same commands" "$wrong"
}

if is_there cc && is_there ar; then
    project name=library edit='echo "/* Counts. */" >>count.c' \
        wanted='cc -O -c count.c -o count.o
ar rc libtext.a upper.o count.o
cc -o text main.o libtext.a'

    project name=headers words="-m $share" edit='echo black >>colors.list' \
        wanted='awk '\''{ printf "%s%s", gap, toupper($1); gap = ", " } BEGIN { printf "enum color { " } END { print " };" }'\'' colors.list >colors.h
awk '\''{ printf "\"%s\",\n", $1 }'\'' colors.list >table.h
cc -O2  -c main.c -o main.o
cc -O2  -c names.c -o names.o
cc  -o colors main.o names.o  '

    project name=tree words="-m $share" edit='echo "/* Says hello. */" >>lib/greet.c' \
        wanted='cc -O2  -c greet.c -o greet.o
rm -f libgreet.a
ar rcs libgreet.a greet.o
cc  -o hello hello.o ../lib/libgreet.a '
else
    skip 'C projects' 'there is no cc or no ar'
fi

project name=options edit='echo blue >>color.in' words='OPTIONS=color' \
    wanted='sed -e '\''s/^/color: /'\'' color.in >color.part
cat base.part color.part >package'

project name=document words="-m $share" edit='echo "A last word." >>usage.txt' \
    wanted='sed -e '\''1s,.*,<h1>&</h1>,'\'' -e '\''2,$s,.*,<p>&</p>,'\'' usage.txt >usage.html
for one in intro.txt usage.txt; do sed -n '\''1s/^/- /p'\'' $one; done >contents
cat contents intro.html usage.html >book.html'

# One of its tests fails, each time.
project name=checks status=1 words=-k edit='echo 8 >short.test; echo 8 >>short.test' \
    wanted='sh ./subject <long.test >long.got
tail -n 1 long.test | cmp -s - long.got
sh ./subject <short.test >short.got
tail -n 1 short.test | cmp -s - short.got
touch short.passed'

project name=architectures edit='rm -f out.vax/size' \
    wanted='grep -c bits out.vax/config.h >out.vax/size'

project name=directories edit='echo more >>common/text.txt' \
    wanted='tr a-z A-Z <common/text.txt >text.upper
cat title.upper text.upper common/license >book
wc -c own/title.txt common/text.txt >sizes'

project name=environment edit='echo c >>words' wanted='sort words >sorted.txt'

project name=version edit='echo 1.5 >VERSION' \
    wanted='echo '\''#define VERSION "1.5"'\'' >version.h
{ echo '\''Version 1.5 (unknown)'\''; cat notes; } >version.txt'

# What install puts below DESTDIR, and that clean leaves what was there before, in the tree of makes.
installs() {
    local folder=$room/installed.$1 wrong
    shift
    cp -R "$projects/tree" "$folder"
    wrong=$(build "$folder" 0 "$@" -s install "DESTDIR=$folder.to" PREFIX=/usr)
    wrong="$wrong$(same './usr/bin/hello
./usr/include/greet.h
./usr/lib/libgreet.a
./usr/share/doc/hello.txt' "$(cd "$folder.to" && find . -type f | LC_ALL=C sort)")"
    wrong="$wrong$(same hello "$("$folder.to/usr/bin/hello")")"
    wrong="$wrong$(build "$folder" 0 "$@" -s clean)"
    wrong="$wrong$(same "$(files "$projects/tree")" "$(files "$folder")")"
    count "tree: install and clean with ${*##*/bin/}" "$wrong"
}
if is_there cc && is_there ar; then
    installs one "$program" -m "$share"
    installs eight "$program" -j8 -m "$share"
    [ -z "$other" ] || installs other "$other" -r -m "$share"
fi

# The rules of sys.mk that no project has: another language, an assembler, and pages of a manual.
rule() {
    local what=$1 from=$2 text=$3 to=$4 needs=$5 wrong
    if ! is_there "$needs"; then
        skip "$what" "there is no $needs"
        return
    fi
    rm -rf "$room/rule"
    mkdir "$room/rule"
    printf '%s\n' "$text" >"$room/rule/$from"
    printf '.include <sys.mk>\nall: %s\n' "$to" >"$room/rule/makefile"
    wrong=$(build "$room/rule" 0 "$program" -m "$share")
    [ -s "$room/rule/$to" ] || wrong="$wrong $to is empty;"
    wrong="$wrong$(build "$room/rule" 0 "$program" -m "$share" -q)"
    count "$what" "$wrong"
}
rule 'sys.mk: C++, .cc' a.cc 'int main() { return 0; }' a.o c++
rule 'sys.mk: C++, .cpp' a.cpp 'int main() { return 0; }' a.o c++
rule 'sys.mk: an assembler, .s' a.s '.globl a' a.o cc
rule 'sys.mk: an assembler, .S' a.S '#define A a' a.o cc
rule 'sys.mk: yacc' a.y '%%
all: ;
%%' a.c yacc
rule 'sys.mk: lex' a.l '%%' a.c lex
rule 'sys.mk: a page as text' a.1 '.Dd January 1, 2026
.Dt A 1
.Os
.Sh NAME
.Nm a
.Nd one' a.txt mandoc
rule 'sys.mk: a page as HTML' a.8 '.Dd January 1, 2026
.Dt A 8
.Os
.Sh NAME
.Nm a
.Nd one' a.html mandoc

if is_there strace && is_there cc && strace -f -o "$room/trace" true 2>/dev/null && [ -s "$room/trace" ] && [ -x "$recorder" ]; then
    export BMAKE_RECORDER=$recorder
    project name=recorded both=no edit='echo "#define LIMIT 20" >limit.h' \
        wanted='cc -c main.c -o main.o
cc -o primes main.o prime.o
./primes | sh ./columns >primes.txt'
    unset BMAKE_RECORDER
else
    skip 'a project in meta mode' 'it needs cc, fmtrace and strace, which may trace'
fi
# The commands of examples/README.md, each in a copy of its folder: its status is 0, but for the tests of which one fails.
mkdir -p "$room/bin" "$room/all"
ln -s "$program" "$room/bin/bmake"
ln -s "$recorder" "$room/bin/fmtrace"
cp -R examples share "$room/all"
while IFS='|' read -r _ folder _ command _; do
    folder=$(printf %s "$folder" | tr -d ' `')
    command=$(printf %s "$command" | sed -e 's/^ *`//' -e 's/` *$//')
    is=0
    case $folder in
        projects/checks) is=1 ;;
        *.mk) folder=.. ;;
    esac
    case $command in
        *fmtrace*) { is_there strace && is_there cc && [ -s "$room/trace" ]; } || {
            skip "examples/README.md: $folder" 'it needs cc and strace'
            continue
        } ;;
    esac
    (cd "$room/all/examples/$folder" && PATH=$room/bin:$PATH && eval "$command") >"$room/out" 2>&1 </dev/null
    count "examples/README.md: $folder, $command" "$(same $is $?)"
done < <(grep '^| `' examples/README.md)
finish
