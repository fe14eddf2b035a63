#!/usr/bin/env bash
# The built program on makefiles that are as deep as the limits allow, with a stack of 8 MiB. Run it
# at the top of the repository, where the program stands at crates/bmake/out/bmake. Its last line is
# 'N passed, M failed'.
set -u
program=${BMAKE:-$PWD/crates/bmake/out/bmake}
room=$(mktemp -d) || exit 1
trap 'rm -rf "$room"' EXIT
passed=0
failed=0

# A text so many times.
times() {
    local spaces
    printf -v spaces '%*s' "$1" ''
    printf '%s' "${spaces// /"$2"}"
}

# A text and what stands behind it, so many times: 'a' and 'b' three times are 'aaabbb'.
around() {
    times "$1" "$2"
    printf '%s' "$3"
    times "$1" "$4"
}

# Lines for the numbers from 0 to before the first argument: the second one with each % replaced by
# the number and each + by the next one.
lines() {
    local i line
    for ((i = 0; i < $1; i++)); do
        line=${2//%/"$i"}
        printf '%s\n' "${line//+/"$((i + 1))"}"
    done
}

# One case, in an empty folder of its own: what it shows, the shell lines that write its makefile, the
# program's words, and the exit status, the standard output and the start of standard error that are
# wanted. The program has at most that many KiB of memory beside the stack.
row() {
    local shows makefile words='' status=0 out='' err='' memory=unlimited is
    local "$@"
    local here=$room/$((passed + failed)) wrong='' said
    mkdir "$here"
    (
        cd "$here" || exit 125
        eval "$makefile" >makefile || exit 125
        ulimit -s 8192 || exit 126
        ulimit -v "$memory" || exit 126
        eval "\"\$program\" $words" </dev/null >"$here.out" 2>"$here.err"
    )
    is=$?
    [ "$is" = "$status" ] || wrong="status $is and not $status"
    printf '%s' "$out" | cmp -s - "$here.out" || wrong="$wrong; standard output: $(head -c 200 "$here.out")"
    said=$(head -c "${#err}" "$here.err")
    [ "$said" = "$err" ] || wrong="$wrong; standard error: $(head -c 200 "$here.err")"
    if [ -z "$wrong" ]; then
        passed=$((passed + 1))
    else
        failed=$((failed + 1))
        printf 'failed: %s: %s\n' "$shows" "$wrong"
    fi
}

if [ ! -x "$program" ]; then
    echo "there is no program $program"
    echo "0 passed, 1 failed"
    exit 1
fi

one=$'1\n'

# Conditions inside conditions

row shows='conditions of 255 ! in the values of one another' out="$one" words='-v A0' \
    makefile='lines 127 "A%=\${$(times 255 "!")\$\${A+} == 1:?0:1}"; echo A127=1'

row shows='conditions of 256 parentheses in the values of one another' out="$one" words='-v A0' \
    makefile='lines 127 "A%=\${$(around 256 "(" "\$\${A+} == 1" " && 1 || 0)"):?1:0}"; echo A127=1'

row shows='conditions of 255 parentheses behind || and && in the values of one another' \
    out="$one" words='-v A0' \
    makefile='lines 127 "A%=\${$(around 255 "(0||1&&" "\$\${A+}" ")"):?1:0}"; echo A127=1'

row shows='256 parentheses in a directive' out="$one" words='-v A' \
    makefile='echo ".if $(around 256 "(" 1 ")")"; echo A=1; echo .endif'

row shows='a parenthesis too many in a directive' status=2 words='-v A' \
    makefile='echo ".if $(around 257 "(" 1 ")")"; echo A=1; echo .endif'

# References inside references

row shows='256 references in the names of one another' out=$'\n' words='-v "$(cat expression)"' \
    makefile='around 256 "\${" a "}" >expression'

row shows='256 defaults in one another' out="$one" words='-v "$(cat expression)"' \
    makefile='around 256 "\${:U" 1 "}" >expression'

row shows='256 patterns in one another' out=$'\n' words='-v "$(cat expression)"' \
    makefile='around 256 "\${:Ua:M" 1 "}" >expression'

row shows='256 substitutions in one another' out="$one" words='-v "$(cat expression)"' \
    makefile='around 256 "\${:Ua:S/a/" 1 "/}" >expression'

row shows='256 choices in one another' out="$one" words='-v "$(cat expression)"' \
    makefile='around 256 "\${1:?" 1 ":0}" >expression'

row shows='255 loops over words in one another' out="$one" words='-v A' \
    makefile='printf "A=%s\n" "$(around 255 "\${:Ux:@v@" 1 "@}")"'

row shows='256 variables in the values of one another' out="$one" words='-v A0' \
    makefile='lines 255 "A%=\${A+}"; echo A255=1'

row shows='257 variables in the values of one another' status=2 words='-v A0' \
    makefile='lines 257 "A%=\${A+}"; echo A257=1'

row shows='256 variables through changing modifiers in the values of one another' \
    out=$'a\n' words='-v A0' \
    makefile='lines 255 "A%=\${A+:tu:tl:S/a/b/:S/b/a/}"; echo A255=a'

# Files and blocks

row shows='64 files open at once' out="$one" words='-v A' \
    makefile='for i in {1..63}; do echo ".include \"f$((i + 1))\"" >f$i; done
        echo A=1 >f63; echo ".include \"f1\""'

row shows='50,000 .if in one another' out="$one" words='-v A' \
    makefile='lines 50000 ".if 1"; echo A=1; lines 50000 .endif'

row shows='1,000 loops in one another' out="$one" words='-v A' \
    makefile='lines 1000 ".for v% in a"; echo A=1; lines 1000 .endfor'

row shows='a word of 4 MiB a thousand times in a line of a loop, in less than 64 MiB' status=2 words='-V X' \
    err='bmake: "makefile" line 15: line too long' memory=65536 \
    makefile='echo "C0=$(times 1024 x)"; lines 12 "C+=\${C%}\${C%}"
        printf ".for i in \${C12}\nA=%s\n.endfor\n" "$(times 1000 "\$i")"'

# Graphs

row shows='a chain of 100,000 targets' out=$'made\n' words='-s t0' \
    makefile='lines 100000 "t%: t+"; printf "t100000:\n\techo made\n"'

row shows='a cycle of 100,000 targets' status=2 words='t0' err='bmake: ' \
    makefile='lines 99999 "t%: t+"; echo "t99999: t0"'

row shows='a chain of 100,000 targets in order' out=$'made\n' words='-s t100000' \
    makefile='printf .ORDER:; lines 100000 " t%\\"; echo; printf "t100000:\n\techo made\n"'

row shows='a chain of 10,000 macros' out=$'made\n' words='-s t' \
    makefile='echo "t: u0"; lines 10000 "u%: .USE u+"; printf "u10000: .USE\n\techo made\n"'

row shows='a chain of 300 suffix rules' out=$'made\n' words='-s t' \
    makefile='echo t.s300 >t.s300; printf ".SUFFIXES:"; lines 301 " .s%\\"; echo
        lines 300 ".s+.s%:;@cp t.s+ t.s%"
        printf "t: t.s0\n\techo made\n"'

# Words

row shows='5,000 groups of braces in a word' words='-s t' \
    out="$(times 5000 a)"$'\n' \
    makefile='printf "t: %s\n\techo \$>\n" "$(times 5000 "{a}")"; echo "$(times 5000 a):"'

row shows='2,000 groups of braces in one another' words='-s t' \
    out=$'a\n' \
    makefile='printf "t: %s\n\techo \$>\na:\n" "$(around 2000 "{" a "}")"'

# Values

row shows='a chain of 1,024 modifiers of 4 MiB in less than 64 MiB' memory=65536 \
    words='-v "\${C12$(times 512 ":tu:tl")}" | wc -c' out=$'4194305\n' \
    makefile='echo "C0=$(times 1024 x)"; lines 12 "C+=\${C%}\${C%}"'

row shows='a chain of 20 modifiers over 2,097,145 words in less than 64 MiB' memory=65536 \
    words='-V "\${W:$(times 10 "S/a/b/:S/b/a/:")[#]}"' out=$'2097145\n' \
    makefile='printf "P=%s\n" "$(yes "a " | head -n 262144 | tr -d "\n")"; echo "W=$(times 8 "\$P")"'

row shows='a text of 4,000,000 bytes of references in less than 128 MiB' memory=131072 \
    words='-v A' out=$'\n' \
    makefile='printf "P=%s\n" "$(yes "\${a}" | head -n 250000 | tr -d "\n")"
        echo "A:=\${P}\${P}\${P}\${P}"'

row shows='200,000 suffixes in a line' words='-v A' out="$one" \
    makefile='echo ".SUFFIXES: \${:U:range=200000:S/^/./}"; echo A=1'

echo "$passed passed, $failed failed"
[ "$failed" = 0 ]
