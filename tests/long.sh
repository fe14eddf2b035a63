#!/usr/bin/env bash
# The built program on long makefiles: lines at their limit, long values, and what a walk that is not
# linear would not end on. Run it at the top of the repository, where the program stands at
# crates/bmake/out/bmake. Its last line is 'N passed, M failed'.
set -u
program=${BMAKE:-$PWD/crates/bmake/out/bmake}
room=$(mktemp -d) || exit 1
trap 'rm -rf "$room"' EXIT
passed=0
failed=0

# So many letters x.
letters() {
    head -c "$1" /dev/zero | tr '\0' x
}

# So many times a text.
times() {
    yes "$2" | head -n "$1" | tr -d '\n'
}

# One case: what it shows, the standard output, standard error and exit status that are wanted, and the
# words of the run. The makefile comes from standard input. The run may take as many seconds of a
# processor as the variable says.
row() {
    local shows=$1 out=$2 err=$3 status=$4 is wrong=''
    shift 4
    cat >"$room/makefile"
    (cd "$room" && ulimit -t "${seconds:-100}" && exec timeout 100 "$program" "$@") >"$room/out" 2>"$room/err" </dev/null
    is=$?
    [ "$is" = "$status" ] || wrong="status $is and not $status"
    printf '%s' "$out" | cmp -s - "$room/out" || wrong="$wrong; standard output"
    printf '%s' "$err" | cmp -s - "$room/err" || wrong="$wrong; standard error: $(cat "$room/err")"
    if [ -z "$wrong" ]; then
        passed=$((passed + 1))
    else
        failed=$((failed + 1))
        printf 'failed: %s: %s\n' "$shows" "$wrong"
    fi
}

if [ ! -x "$program" ]; then
    echo "there is no program $program"
    echo "0 passed, 1 failed"
    exit 1
fi

# A makefile whose lines are read, and one whose first fault stands at a line.
fine() {
    row "$1" $'\n' '' 0 -V A
}
refused() {
    row "$1" '' "bmake: \"makefile\" line $2: $3"$'\n' 2 -V A
}

# The most bytes of a logical line.
limit=1048576

fine 'short lines' < <(printf '#a\\\nb\n#'; letters 3; printf '\n\n')
fine 'a line at the limit' < <(printf '#'; letters $((limit - 1)); echo)
refused 'a line of one byte more' 1 'line too long' < <(letters $((limit + 1)))
refused 'a continued line has the number of its first part' 2 'line too long' \
    < <(printf 'a\nb\\\n'; letters $limit; printf '\\\nc')
refused 'the space of a continuation counts' 1 'line too long' \
    < <(printf 'a\\\n'; letters $((limit - 1)))
fine 'blanks behind it do not' < <(printf '#\\\n \t'; letters $((limit - 2)))
fine 'nor does a last backslash' < <(printf '#'; letters $((limit - 1)); printf '\\')
refused 'a zero byte on a line that is too long' 2 'zero byte' \
    < <(letters $((limit + 1)); printf '\\\n\0\n')
refused 'a zero byte behind it' 1 'line too long' < <(letters $((limit + 1)); printf '\n\0\n')
fine 'a line at the limit between others' < <(printf '#\n#'; letters $((limit - 1)); printf '\n#\n')
fine 'two backslashes end a line' < <(printf '#\\\\\n#'; letters $((limit - 1)))

# The one line of a loop's body, which has seven bytes beside the loop's word.
turned() {
    printf 'B='
    letters "$1"
    printf '\n.for i in ${B}\nA=$i\n.endfor\n'
}
row 'a turned line at the limit' $'1\n' '' 0 -V '${A:[#]}' < <(turned $((limit - 7)))
refused 'a turned line of one byte more' 3 'line too long' < <(turned $((limit - 6)))
refused 'a backslash counts that quotes a byte' 3 'line too long' < <(
    printf 'B='; times $((limit / 2 - 2)) '$$'; printf '\n.for i in ${B}\nA=$i\n.endfor\n')

row 'a value of more than 4194304 bytes' '' $'bmake: value too long\n' 2 \
    -V '${a:L:range=1000000}' <<<''
row 'a value with one byte between its words' $'600000\n' '' 0 \
    -V '${a:L:range=600000:ts,:[#]}' <<<''
row 'and with one byte more in each' '' $'bmake: value too long\n' 2 \
    -V '${a:L:range=600000:ts,:S/$/x/}' <<<''

row 'forty stars and no end that fits' $'[]\n' '' 0 -V '[${W:M$P}]' \
    < <(printf 'W='; times 20000 a; printf '\nP='; times 40 '*a'; echo b)
row 'brackets that are not closed' $'[]\n' '' 0 -V '[${W:M$P}]' \
    < <(printf 'W='; times 4000 '['; printf '\nP=*'; times 300 '['; echo a)

# A target of 80000 sources whose names have more than 4194304 bytes together.
long_sources() {
    printf 'B='
    times 99 b
    printf '\nC='
    times 99 c
    printf '\n%s:\n' '${:U:range=40000:S/^/$B/}' '${:U:range=40000:S/^/$C/}'
    printf 't: %s\n' '${:U:range=40000:S/^/$B/}' '${:U:range=40000:S/^/$C/}'
    printf '\t@%s\n' "$1"
}

row 'a local name is defined where its value would be too long' $'y y\n' '' 0 t \
    < <(long_sources 'echo ${defined(>F):?y:n} ${defined(>):?y:n}')
row 'the value itself is too long' '' $'bmake: target t command 1: value too long\n' 2 t \
    < <(long_sources 'echo ${>F:[1]}')

# A text of 4 MiB, to be looked for in short words.
long_text() {
    printf 'A='
    times 1048000 x
    printf '\nB=$A$A$A$A\nW=${:U:range=600000:${B}=y}\n'
}

row 'a text of 4 MiB is looked for in 600000 words' $'600000\n' '' 0 \
    -V '${:U:range=600000:S/${B}/y/:[#]}' < <(long_text)
row 'an end of 4 MiB is looked for in 600000 words' $'600000\n' '' 0 \
    -V '${W:[#]}' < <(long_text)

# So many names that are set, and taken away in this order by one line.
names_taken_away() {
    seq -f 'V%.0f=' "$1"
    printf '.undef'
    seq -f ' V%.0f' "$1" | tr -d '\n'
    printf '\nA=${V%s:Unone}\n' "$1"
}

row '120000 names are taken away, in their order and four times' $'none\n' '' 0 -v A \
    < <(for time in 1 2 3 4; do names_taken_away 120000; done)

row '200000 suffixes on a line' $'1\n' '' 0 -v A \
    <<<$'.SUFFIXES: ${:U:range=200000:S/^/./}\nA=1'

seconds=3 row '16000 lines of one suffix' $'1\n' '' 0 -v A <<'MAKEFILE'
.for i in ${:U:range=16000}
.SUFFIXES: .$i
.endfor
A=1
MAKEFILE

# 200 sources that stand, and a chain of rules to their suffix from 799 others.
suffix_chain() {
    echo '.SUFFIXES: ${:U:range=800:S/^/./}'
    local i
    for ((i = 1; i < 800; i++)); do
        echo ".$((i + 1)).$i: ; @: x"
    done
    echo 'all: ${:U:range=200:S/^/f/:S/$/.1/}'
    echo 'all: .PHONY'
}
(cd "$room" && touch f{1..200}.1)
seconds=3 row '200 files and a chain of 800 suffixes' '' '' 0 -n < <(suffix_chain)
rm "$room"/f*.1

seconds=4 row 'make() for 40000 targets that are no main ones' $'\n' '' 0 -V X <<'MAKEFILE'
${:U:range=40000:S/^/t/}: .NOTMAIN
.for i in ${:U:range=40000}
.if make(x)
.endif
.endfor
MAKEFILE

# A recorder's log, which lies in the file `log`, and what the next run tells of its target.
log_row() {
    printf '%s\n' '.MAKE.MODE=meta curdirOk=yes missing-meta=yes missing-filemon=yes' \
        't:' $'\t@cp log "$$BMAKE_FILEMON"; echo >t' >"$room/log.mk"
    row "$1" '' '' 0 <"$room/log.mk"
    row "$1, and the next run" "$2" '' 0 --explain <"$room/log.mk"
    rm -f "$room/t" "$room/t.meta"
}
yes 'C 1 d' | head -n 2000 >"$room/log"
log_row 'a log of 2000 lines that go down' ''
yes 'C 1 d' | head -n 200000 >"$room/log"
log_row 'a log of 200000 lines that go down is none' $'t no records\n'
yes $'C 1 d\nR 1 x' | head -n 200000 >"$room/log"
log_row 'and one with reads between them' $'t no records\n'
yes $'R 1 /d/a' | head -c 67108872 >"$room/log"
log_row 'a log above 67108864 bytes is none' $'t no records\n'
rm -f "$room/log"

seconds=5 row '340000 groups of braces, one behind another' $'\n' '' 0 -V A \
    < <(printf 't: '; times 340000 '{a}'; echo)

seconds=5 row '500000 groups of braces, one in another' $'\n' '' 0 -V A \
    < <(printf 't: '; times 500000 '{'; printf a; times 500000 '}'; echo)

# An environment of so many variables, in two seconds of a processor.
if command -v python3 >/dev/null; then
    cat >"$room/many" <<PYTHON
#!/usr/bin/env python3
import os, resource, sys
resource.setrlimit(resource.RLIMIT_CPU, (2, 2))
names = {f"V{i}": str(i) for i in range(90000)}
os.execve("$program", ["$program", *sys.argv[1:]], {**os.environ, **names})
PYTHON
    chmod +x "$room/many"
    plain=$program program=$room/many
    row 'an environment of 90000 variables' $'0\n4095\n4096\n89999\n' '' 0 \
        -V V0 -V V4095 -V V4096 -V V89999 <<<''
    program=$plain
fi

row 'a chain of 20000 targets' '' '' 0 t20000 <<'MAKEFILE'
P=
.for i in ${:U:range=20000}
t${i}: ${P}
P=t${i}
.endfor
MAKEFILE

# A directory that a pattern lists: its files are 20000.
mkdir "$room/sources" && (cd "$room/sources" && seq -f 'f%g.c' 20000 | xargs touch)
seconds=5 row 'a pattern in a directory of 20000 files' $'20000\n' '' 0 t <<'MAKEFILE'
t: sources/*.c
	@echo ${.ALLSRC:[#]}
MAKEFILE

# So many targets that stand there beside their meta files, each with so many recorded reads of 1000
# headers; and the makefile to them. All was made in order: headers, jobs, targets, meta files.
recorded() {
    mkdir -p "$room/d"
    (cd "$room/d" && seq -f 'h%.0f' 0 999 | xargs touch)
    : >"$room/s"
    sleep 0.02
    local stamp folder
    stamp=$(date +%s%N)
    folder=$(cd "$room" && pwd -P)
    sleep 0.02
    (cd "$room" && seq -f 't%.0f' "$1" | xargs touch)
    (cd "$room" && awk -v targets="$1" -v reads="$2" -v stamp="$stamp" -v folder="$folder" 'BEGIN {
        head = "# Meta data file t%d.meta\nSTAMP %s\nCMD compile t%d\nCWD %s\nTARGET t%d\n"
        for (i = 1; i <= targets; i++) {
            to = "t" i ".meta"
            printf head, i, stamp, i, folder, i >to
            print "OUTPUT 0\n-- command output --\n\n-- filemon acquired metadata --" >to
            for (k = 0; k < reads; k++) print "R 1 d/h" (i + k) % 1000 >to
            printf "W 1 t%d\n# end 3\n", i >to
            close(to)
        }
    }')
}
recorded_makefile() {
    printf '%s\n' '.MAKE.MODE=meta curdirOk=yes missing-meta=yes missing-filemon=yes' \
        "T=\${:U:range=$1:S/^/t/}" 'all: $T .PHONY' '$T: s' $'\tcompile ${.TARGET}'
}

recorded 1000 200
seconds=1 row 'an audit of 1000 targets with 200 recorded reads each' '' '' 0 --audit \
    < <(recorded_makefile 1000)
recorded 4000 400
seconds=5 row 'an audit of 4000 targets with 400 recorded reads each' '' '' 0 --audit \
    < <(recorded_makefile 4000)
rm -rf "$room"/t* "$room/d" "$room/s"

echo "$passed passed, $failed failed"
[ "$failed" = 0 ]
