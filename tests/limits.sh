#!/usr/bin/env bash
# The built program at limits that need a million lines, turns or names. Run it at the top of the
# repository, where the program stands at crates/bmake/out/bmake. Its last line is 'N passed, M failed'.
set -u
program=${BMAKE:-$PWD/crates/bmake/out/bmake}
room=$(mktemp -d) || exit 1
trap 'rm -rf "$room"' EXIT
passed=0
failed=0

# One case, in an empty folder of its own: what it shows, the shell lines that print the makefile,
# the words, and then the exit status, standard output and standard error that are wanted.
row() {
    local shows before=: makefile words=() status=0 out='' err='' is
    shows=$1 makefile=$2 status=$3 out=$4 err=$5
    shift 5
    words=("$@")
    local here=$room/$((passed + failed)) wrong=''
    mkdir "$here"
    (cd "$here" && eval "$makefile" >makefile && timeout 120 "$program" "${words[@]}" >"$here.out" 2>"$here.err")
    is=$?
    [ "$is" = "$status" ] || wrong="status $is and not $status"
    printf '%s' "$out" | cmp -s - "$here.out" || wrong="$wrong; standard output: $(head -c 200 "$here.out")"
    printf '%s' "$err" | cmp -s - "$here.err" || wrong="$wrong; standard error: $(head -c 200 "$here.err")"
    rm -r "$here"
    if [ -z "$wrong" ]; then
        passed=$((passed + 1))
    else
        failed=$((failed + 1))
        printf 'failed: %s: %s\n' "$shows" "$wrong"
    fi
}

if [ ! -x "$program" ]; then
    echo "there is no program $program"
    echo "0 passed, 1 failed"
    exit 1
fi

nl=$'\n'

# So many lines, each of which is this text.
times() {
    yes "$1" | head -n "$2"
}

# Two loops, one in the other, with so many turns.
loops() {
    printf '.for a in ${:U:range=%s}\n.for b in ${:U:range=%s}\n%s.endfor\n.endfor\n' "$1" "$2" "$3"
}

row '100000 nested branches' 'times ".if 1" 100000; times .endif 100000' 0 "$nl" '' -V X
row '100000 nested loops' 'times ".for i in 1" 100000; times .endfor 100000' 0 "$nl" '' -V X
row '4192257 lines and turns' 'loops 2048 2045 ""' 0 "$nl" '' -V X
row '4194305 lines and turns' 'loops 2048 2046 ""' 2 '' "bmake: limit of lines 4194304$nl" -V X

# Each turn of the inner loop reads a line with a name of its own.
own=$'$a.$b:\n'
row '1048576 names' 'loops 1024 1024 "$own"' 0 "$nl" '' -V X
row '1048577 names' 'loops 1024 1024 "$own"; echo x:' 2 '' "bmake: limit of names 1048576$nl" -V X

# Names that come with the plan: that of a file that no line names.
most='printf "a: \${:U:range=500000}\nb: \${:U:range=500000:S/^/x/}\nc: \${:U:range=%s:S/^/y/}\n"'
row 'a target of the words is the 1048576th name' "touch q; $most 48572" 0 '' '' q
row 'a target of the words is the 1048577th name' "touch q; $most 48573" 2 '' \
    "bmake: limit of names 1048576$nl" q

# A file, and so many targets without files, each over the one before it, and a target over the last.
chain='seq -f "%.0f" 1 100000 | awk "{ print \"n\" \$1 \": \" (\$1 == 1 ? \"a\" : \"n\" \$1 - 1) }"'
row 'a chain of 100000 targets below one that is newer than its file' \
    "touch -d 2001-01-01 a; touch t; $chain; printf 't: n100000\n\t@echo \${.OODATE}\n'" 0 '' '' t
row 'a chain of 100000 targets below one that is older than its file' \
    "touch -d 2001-01-01 t; touch a; $chain; printf 't: n100000\n\t@echo \${.OODATE}\n'" 0 "n100000$nl" '' t

# Ten thousand targets in a generated world, in 1 GiB: all are made, and then what the changed source reaches.
told="targets 10000${nl}first 10000 started 0 kept${nl}second 2 started 9998 kept${nl}bytes 76644$nl"
row 'ten thousand generated targets' 'ulimit -v 1048576' 0 "$told" '' --generate 10000

echo "$passed passed, $failed failed"
[ "$failed" = 0 ]
