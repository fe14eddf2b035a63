#!/usr/bin/env bash
# The program bmeta: what it tells of meta files that stand here, and where make is built too of a project
# that is built in meta mode. Run it at the top of the repository, where the programs stand at
# crates/bmeta/out/bmeta and crates/bmake/out/bmake. Its last line is 'N passed, M failed'.
set -u
program=${BMETA:-$PWD/crates/bmeta/out/bmeta}
make=${BMAKE:-$PWD/crates/bmake/out/bmake}
fmrun=${FMRUN:-$PWD/crates/fmrun/out/fmrun}
room=$(mktemp -d) || exit 1
room=$(cd "$room" && pwd -P) || exit 1
trap 'rm -rf "$room"' EXIT
unset MAKEFLAGS BMAKE_FILEMON
export TZ=UTC
passed=0
failed=0

if [ ! -x "$program" ]; then
    echo "there is no program $program"
    echo "0 passed, 1 failed"
    exit 1
fi

# Counts one row: what it shows, and what was wrong, or nothing.
count() {
    if [ -z "$2" ]; then
        passed=$((passed + 1))
    else
        failed=$((failed + 1))
        printf 'failed: %s: %s\n' "$1" "$2"
    fi
}

# Whether a file holds a text, in which \n is a newline.
holds() {
    printf '%b' "$2" | cmp -s - "$1" || printf '%s holds %s; ' "$1" "$(head -c 600 "$1" 2>&1)"
}

# One run in the current folder: what it shows, the exit status, standard output and standard error that
# are wanted, and its words.
row() {
    local shows=$1 status=$2 out=$3 err=$4 is=0
    shift 4
    "$program" "$@" >"$room/out" 2>"$room/err" </dev/null || is=$?
    count "$shows" "$([ "$is" = "$status" ] || echo "status $is; ")$(holds "$room/out" "$out")$(holds "$room/err" "$err")"
}

# Writes a meta file: the target as its path, the time at which its job began and that of the file, both
# in tenths of a second, its commands and its records, where \n is a newline, and the directory if it is
# another one than this.
meta() {
    local target=$1 start=$2 end=$3 commands=$4 records=$5 cwd=${6-$PWD} file=${7-$1.meta}
    {
        printf '# Meta data file %s.meta\nSTAMP %s00000000\n' "$target" "$start"
        printf '%b\n' "$commands" | sed 's/^/CMD /'
        printf 'CWD %s\nTARGET %s\nOUTPUT 0\n-- command output --\n\n' "$cwd" "$target"
        [ "$records" = none ] || printf -- '-- filemon acquired metadata --\n%b' "$records"
        echo '# end 3'
    } >"$file"
    touch -d "@$((end / 10)).$((end % 10))" "$file"
}

# A folder of its own for the rows that follow.
folder() {
    mkdir "$room/$1" && cd "$room/$1" || exit 1
}

# Whether python takes the last output as JSON for which a condition holds.
python() {
    if ! command -v python3 >/dev/null; then
        echo "skipped: $1, as there is no python3"
        return
    fi
    count "$1" "$(python3 -c "
import json, sys
value = json.load(open(sys.argv[1], encoding='utf-8'))
if not ($2):
    print('not so of', value)" "$room/out" 2>&1)"
}

folder words
row 'no meta files and a file that is sought' 1 '' '' readers a
row 'no meta files and a target that is sought' 1 '' '' reads t
row 'a graph of nothing' 0 'digraph {\n}\n' '' graph
row 'a database of nothing' 0 '[]\n' '' compdb
row 'a trace of nothing' 0 '[]\n' '' timeline
row 'its version' 0 'bmeta 0.1.0\n' '' --version
"$program" --help >"$room/help" 2>"$room/err"
count 'its help' "$(holds "$room/err" '')$(grep -q '^usage: bmeta readers FILE$' "$room/help" || echo 'no usage')"
for words in '' nothing readers reads 'readers a b' 'graph a' 'compdb --svg' 'timeline a' 'timeline --svg a' '--help a' -x; do
    is=0
    # shellcheck disable=SC2086 # the words are apart
    "$program" $words >"$room/out" 2>"$room/err" || is=$?
    count "wrong words: '$words'" "$([ "$is" = 2 ] || echo "status $is; ")$(holds "$room/out" '')$(cmp "$room/err" "$room/help" 2>&1)"
done

folder looks
mkdir sub
meta main.o 10 20 'cc -c main.c' 'R 1 main.c\nN 1 sub/defs.h\nR 1 defs.h\nR 1 main.c\nW 1 main.o\n'
meta util.o 10 22 'cc -c util.c' 'R 1 util.c\nR 1 defs.h\nR 1 defs.h\nW 1 util.o\n'
meta sub/lib.a 22 30 'ar r sub/lib.a util.o\nmv x y' 'R 1 util.o\nM 2 '\''x'\'' '\''y'\''\nD 2 z\nR 2 /usr/bin/ar\nW 2 sub/lib.a\n'
meta blind 1 2 'true' none
row 'who reads a header' 0 'main.o\nutil.o\n' '' readers defs.h
row 'who reads it by another name' 0 'main.o\nutil.o\n' '' readers "./sub/../defs.h"
row 'who reads it by its whole path' 0 'main.o\nutil.o\n' '' readers "$PWD/defs.h"
row 'who missed a file' 0 'main.o\n' '' readers sub/defs.h
row 'who moved a file away' 0 'sub/lib.a\n' '' readers x
row 'where a file is moved to is not read' 1 '' '' readers y
row 'what is written is not read' 1 '' '' readers main.o
row 'what is removed is not read' 1 '' '' readers z
row 'a file outside' 0 'sub/lib.a\n' '' readers /usr/bin/ar
row 'a file that none reads' 1 '' '' readers none
row 'what a target reads and missed, each once' 0 'main.c\n- sub/defs.h\ndefs.h\n' '' reads main.o
row 'what a target in a folder reads' 0 'util.o\nx\n/usr/bin/ar\n' '' reads sub/lib.a
row 'a target without records' 1 '' '' reads blind
row 'a target that is none' 1 '' '' reads none
row 'the graph' 0 'digraph {\n  "main.o" -> "main.c";\n  "main.o" -> "defs.h";\n  "sub/lib.a" -> "util.o";
  "sub/lib.a" -> "x";\n  "sub/lib.a" -> "/usr/bin/ar";\n  "util.o" -> "util.c";\n  "util.o" -> "defs.h";\n}\n' '' graph
if command -v dot >/dev/null; then
    "$program" graph | dot -Tplain >"$room/plain" 2>"$room/err"
    count 'the graph as dot reads it' "$(grep -c '^edge ' "$room/plain" | grep -vx 7)"
else
    echo 'skipped: the graph as dot reads it, as there is no dot'
fi
cd sub || exit 1
row 'from a folder below, names are those from there' 0 "$room/looks/util.o\n$room/looks/x\n/usr/bin/ar\n" '' reads lib.a
row 'who reads a file, from there' 0 'lib.a\n' '' readers ../util.o
cd .. || exit 1
echo nothing >notes.meta
row 'a file that is no meta file' 0 'main.o\nutil.o\n' 'bmeta: notes.meta: is no meta file, and is passed over\n' readers defs.h
head -c -3 main.o.meta >sub/cut.meta
row 'a meta file that is not whole' 0 'util.c\ndefs.h\n' "$(printf 'bmeta: %s: is no meta file, and is passed over\\n' notes.meta sub/cut.meta)" reads util.o
rm notes.meta sub/cut.meta
ln -s nowhere gone.meta
row 'a file that cannot be read' 3 'main.o\nutil.o\n' 'bmeta: gone.meta: there is no such file\n' readers defs.h
row 'a file that cannot be read, where nothing fits' 3 '' 'bmeta: gone.meta: there is no such file\n' readers none
rm gone.meta
ln -s . again
row 'a link to a folder is not followed' 0 'main.o\n' '' readers main.c
rm again
: >"$(printf 'a\377')"
row 'a name that is not UTF-8' 3 'main.o\n' 'bmeta: .: holds a name that is not UTF-8\n' readers main.c
rm -f a*
if [ -w /dev/full ]; then
    is=0
    "$program" graph >/dev/full 2>"$room/err" || is=$?
    count 'an output that is full' "$([ "$is" = 3 ] || echo "status $is; ")$(holds "$room/err" 'bmeta: standard output: cannot be written\n')"
fi

folder names
meta 'a "b"\\c' 1 2 true 'R 1 d\\\\e\nR 1 f\\ng\nN 1 h\nR 1 \0377\n' "$PWD" odd.meta
row 'names with quotes, backslashes and newlines in a graph' 0 \
    'digraph {\n  "a \\"b\\"\\\\c" -> "d\\\\e";\n  "a \\"b\\"\\\\c" -> "f\\ng";\n  "a \\"b\\"\\\\c" -> "\0377";\n}\n' '' graph
row 'and a name a line' 0 'd\\\\e\nf\\ng\n- h\n\0377\n' '' reads 'a "b"\c'

folder compilations
object() {
    printf '{"directory":"%s","command":"%s","file":"%s","output":"%s"}' "$PWD" "$1" "$2" "$3"
}
meta a.o 10 20 'echo a.c\ncc -O2 -c a.c -o a.o\nld -r a.s' none
meta b.o 10 20 '/usr/bin/clang++  -c src/b.cc -o b.o' none
meta c.s 10 20 'gcc -S -o c.s c.c\ncc -c -DX=y.c c.h\nmycc d.c\ncc' none
meta d 10 20 '-c99 -o d d.c e.S\ng++ f.C h.cxx i.cpp j.m k.c.h' none
row 'the compilations' 0 "[\n$(object 'cc -O2 -c a.c -o a.o' a.c a.o),\n$(object '/usr/bin/clang++  -c src/b.cc -o b.o' src/b.cc b.o),\n$(
    object 'gcc -S -o c.s c.c' c.c c.s),\n$(object 'c99 -o d d.c e.S' d.c d),\n$(object 'c99 -o d d.c e.S' e.S d),\n$(
    for file in f.C h.cxx i.cpp; do object 'g++ f.C h.cxx i.cpp j.m k.c.h' $file d && printf ',\\n'; done
)$(object 'g++ f.C h.cxx i.cpp j.m k.c.h' j.m d)\n]\n" '' compdb
python 'the compilations as JSON' 'len(value) == 9 and all(set(one) == {"directory", "command", "file", "output"} for one in value)'
rm ./*.meta
meta e.o 10 20 'cc -D"A=\\\\\\\\t\t\0001" -c \0303\0244.c' none
meta f.o 10 20 'cc -DA=\0377\0303 -c f.c' none
"$program" compdb >"$room/out" 2>"$room/err"
python 'strings of JSON, of bytes that are UTF-8 and that are not' \
    'value[0]["command"] == "cc -D\"A=\\\\t\t\x01\" -c \u00e4.c" and value[1]["command"] == "cc -DA=\ufffd\ufffd -c f.c"'

folder times
meta b 10 30 true none
meta a 10 20 true none
meta c 20 25 true none
meta d 25 60 true none
meta e 26 40 true none
meta f 40 30 true none
event() {
    printf '{"name":"%s","ph":"X","ts":%s,"dur":%s,"pid":1,"tid":%s}' "$1" "$2" "$3" "$4"
}
row 'what ran when' 0 "[\n$(event a 1000000 1000000 0),\n$(event b 1000000 2000000 1),\n$(event c 2000000 500000 0),\n$(
    event d 2500000 3500000 0),\n$(event e 2600000 1400000 2),\n$(event f 4000000 0 1)\n]\n" '' timeline
python 'the trace as JSON' 'len(value) == 6'
cat >"$room/apart.py" <<'EOF'
import json, sys
value = json.load(open(sys.argv[1], encoding="utf-8"))
ends = {}
for one in value:
    if one["ts"] < ends.get(one["tid"], 0):
        print("these overlap:", one)
    ends[one["tid"]] = one["ts"] + one["dur"]
moments = sorted([(one["ts"], 1) for one in value] + [(one["ts"] + one["dur"], -1) for one in value])
most = at_once = 0
for _, step in moments:
    at_once += step
    most = max(most, at_once)
if len(ends) > max(most, 1):
    print("there are", len(ends), "lanes for", most)
EOF
if command -v python3 >/dev/null; then
    count 'no jobs of a lane overlap' "$(python3 "$room/apart.py" "$room/out" 2>&1)"
    mkdir many
    cd many || exit 1
    for number in {1..200}; do
        start=$((RANDOM % 1000 + 10))
        meta "t$number" $start $((start + 1 + RANDOM % 50)) true none
    done
    "$program" timeline >"$room/out" 2>"$room/err"
    count 'nor do those of 200 jobs, in as many lanes as run at once' "$(python3 "$room/apart.py" "$room/out" 2>&1)"
    cd .. && rm -r many
    "$program" timeline --svg >"$room/out" 2>"$room/err"
    count 'a picture' "$(holds "$room/err" '')$(python3 -c '
import sys, xml.etree.ElementTree as tree
root = tree.parse(sys.argv[1]).getroot()
bars = root.findall(".//{http://www.w3.org/2000/svg}rect")
titles = [one.text for one in root.findall(".//{http://www.w3.org/2000/svg}title")]
if len(bars) != 6 or titles[3] != "d: at 1500 ms, for 3500 ms":
    print(len(bars), titles)' "$room/out" 2>&1)"
else
    echo 'skipped: lanes and pictures, as there is no python3'
fi

if [ -x "$make" ] && [ -x "$fmrun" ]; then
    folder project
    mkdir "$room/outputs"
    export TMPDIR=$room/outputs
    for source in a b; do echo "$source" >$source.c; done
    echo 1 >defs.h
    cat >makefile <<EOF
.MAKE.MODE=meta curdirOk=yes missing-meta=yes missing-filemon=yes
tool: a.o b.o
	@$fmrun cat tool a.o b.o
a.o: a.c
	@$fmrun cat a.o a.c defs.h
b.o: b.c
	@$fmrun cat b.o b.c defs.h
	@$fmrun probe b.note extra.h
EOF
    count 'a project is built' "$("$make" -j 2 2>&1)"
    row 'who reads its header' 0 'a.o\nb.o\n' '' readers defs.h
    row 'who missed one' 0 'b.o\n' '' readers extra.h
    row 'what a target of it reads' 0 'b.c\ndefs.h\n- extra.h\n' '' reads b.o
    row 'its graph' 0 'digraph {\n  "a.o" -> "a.c";\n  "a.o" -> "defs.h";\n  "b.o" -> "b.c";\n  "b.o" -> "defs.h";
  "tool" -> "a.o";\n  "tool" -> "b.o";\n}\n' '' graph
    "$program" timeline >"$room/out" 2>"$room/err"
    python 'what of it ran when' 'sorted(one["name"] for one in value) == ["a.o", "b.o", "tool"]
        and value[2]["name"] == "tool" and all(one["ts"] > 10**15 and one["dur"] >= 0 for one in value)'
else
    echo 'skipped: a project that is built, as there is no make'
fi

cd "$room" || exit 1
echo "$passed passed, $failed failed"
[ "$failed" = 0 ]
