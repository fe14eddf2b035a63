#!/usr/bin/env bash
# The manual pages: mandoc finds no fault in them, each option and each message that the program has stands in bmake(1),
# and each example of the pages, and that of README.md, does what it says. Run it at the top of the repository, where the
# programs stand at crates/{bmake,fmtrace,fmrun}/out. Its last line is 'N passed, M failed'.
#
# An example of a page begins with a comment, '.\" example WHAT', behind which '; needs PROGRAM ..' may stand. Behind
# '.\" file NAME' comes a block of a file's lines, behind '.\" run' one of commands, which begin with '$ ', with what each
# prints; '.\" setup COMMAND' is run before. A number of ten and more digits is a time.
set -u
. tests/lib.sh
program=${BMAKE:-$PWD/crates/bmake/out/bmake}
recorder=${FMTRACE:-$PWD/crates/fmtrace/out/fmtrace}
small=${FMRUN:-$PWD/crates/fmrun/out/fmrun}
needs_built "$program"
top=$PWD

# The programs under their names, as they are called in examples.
mkdir "$room/bin" && ln -s "$program" "$room/bin/bmake" && ln -s "$recorder" "$room/bin/fmtrace" && ln -s "$small" "$room/bin/fmrun"
export PATH=$room/bin:$PATH

may_trace() {
    strace -f -o "$room/trace" true 2>/dev/null && [ -s "$room/trace" ]
}

# The text of a block, without the escapes of a page.
plain() {
    sed -e 's/^\\&//' -e 's/\\e/\\/g' -e "s/\\\\(aq/'/g" -e 's/\\-/-/g'
}

# Runs the commands of a block in a folder, and compares what they print with what stands below them.
run_block() {
    local folder=$1 block=$2
    # Each command is told before it is run, and leaves the status of the one before it.
    {
        echo 'tell() { is=$?; printf "%s\n" "$1"; return $is; }'
        awk '/^\$ / { c = substr($0, 3); q = c; gsub(/\047/, "\047\\\047\047", q); print "tell \047$ " q "\047"; print c }' "$block"
    } >"$room/script"
    (cd "$folder" && sh "$room/script" </dev/null) >"$room/got" 2>&1
    sed -E 's/[0-9]{10,}/T/g' "$block" >"$room/wanted"
    sed -E 's/[0-9]{10,}/T/g' "$room/got" | diff "$room/wanted" - >"$room/differs" || cat "$room/differs"
}

# The examples of one page.
page() {
    local what='' wrong='' missing='' mode='' name='' line in_block=''
    while IFS= read -r line || [ -n "$line" ]; do
        case $line in
            '.\" example '*)
                [ -z "$what" ] || told "$what" "$wrong" "$missing"
                what=${line#'.\" example '}
                wrong=''
                missing=''
                case $what in
                    *'; needs '*)
                        for name in ${what#*; needs }; do
                            is_there "$name" || missing="$missing there is no $name"
                            [ "$name" != strace ] || may_trace || missing="$missing strace may not trace here"
                        done
                        what=${what%; needs *}
                        ;;
                esac
                folder=$room/example.$((passed + failed))
                rm -rf "$folder"
                mkdir "$folder"
                ;;
            '.\" file '*) mode=file name=${line#'.\" file '} ;;
            '.\" run') mode=run ;;
            '.\" setup '*)
                [ -n "$missing" ] || (cd "$folder" && eval "${line#'.\" setup '}") || wrong="$wrong the setup failed;"
                ;;
            '.Bd -literal'*) [ -z "$mode" ] || in_block=1 && : >"$room/block" ;;
            .Ed)
                if [ -n "$in_block" ] && [ -n "$mode" ] && [ -z "$missing" ]; then
                    plain <"$room/block" >"$room/plain"
                    case $mode in
                        file) cp "$room/plain" "$folder/$name" ;;
                        run) wrong="$wrong$(run_block "$folder" "$room/plain")" ;;
                    esac
                fi
                in_block='' mode=''
                ;;
            *) [ -z "$in_block" ] || printf '%s\n' "$line" >>"$room/block" ;;
        esac
    done <"$1"
    [ -z "$what" ] || told "$what" "$wrong" "$missing"
}

told() {
    if [ -n "$3" ]; then skip "$1" "$3"; else count "$1" "$2"; fi
}

for file in man/*.1; do
    if is_there mandoc; then
        count "mandoc finds no fault in $file" "$(mandoc -Tlint -W warning "$file" 2>&1)"
    else
        skip "whether $file is well formed" 'there is no mandoc'
    fi
    page "$file"
done

# Each option that --help lists stands in the page, and each message that the code has.
wrong=''
for option in $("$program" --help | sed -n 's/^  -\([A-Za-z]\) .*/\1/p'); do
    grep -qE "^\.It Fl $option( |\$)" man/bmake.1 || wrong="$wrong no -$option;"
done
for option in $("$program" --help | sed -n 's/^  --\([a-z][a-z]*\) .*/\1/p'); do
    grep -qE -- " -$option( |\$)" man/bmake.1 || wrong="$wrong no --$option;"
done
count 'each option of --help stands in bmake(1)' "$wrong"
wrong=''
tr '\n' ' ' <man/bmake.1 | sed -e 's/\.It Li / /g' -e 's/ , Li / /g' >"$room/page"
sed -n '/^fn .*what\|^fn /,$p' crates/mk_modes/src/message.rt | grep -oE 'b"[a-z.:][^"\\]*[a-z]' | sed 's/^b"//' | sort -u >"$room/messages"
while IFS= read -r text; do
    # Too many names are told as a limit.
    case $text in bmake* | ' '* | 'too many names') continue ;; esac
    grep -qF -- "$(printf %s "$text" | sed 's/ at$//')" "$room/page" || wrong="$wrong no '$text';"
done <"$room/messages"
count 'each message stands in bmake(1)' "$wrong"

# So does each call of the system that a fault of the outside is named by.
wrong=''
for call in $(grep -rhoE '(named\.name|refused|refused_child|write_fault)\((&[a-z]+, )?b"[a-z]+"' crates/mk_realworld/src | sed 's/.*b"//; s/"$//' | sort -u); do
    grep -qE "^\.Ql $call( |\$)" man/bmake.1 || wrong="$wrong no $call;"
done
count 'each call that a fault is named by stands in bmake(1)' "$wrong"

# What DIFFERENCES says is refused is refused, and so told.
mkdir "$room/refused" && cd "$room/refused" || exit 1
: >makefile
refused() {
    "$program" "$@" 2>&1 </dev/null | grep -qF "$wanted" || wrong="$wrong $*;"
}
wrong=''
wanted='unknown modifier'
for modifier in $(sed -n 's/^\.It Ic \\&:C //p' "$top/man/bmake.1" | tr -d '\\&') :C :Ca/b/; do
    refused -V "\${A$modifier}"
done
for modifier in ::=x ::+=x ::?=x ::!=x; do refused -V "\${A$modifier}"; done
count 'modifiers that are refused' "$wrong"
wrong=''
wanted='bad word'
for option in $(sed -n 's/^\.It Fl \(C [A-Za-z ]*\) ,.*/\1/p' "$top/man/bmake.1"); do refused "-$option" x; done
refused -f -
refused -j 4k
count 'options that are refused' "$wrong"
wrong=''
wanted='no operator'
for directive in export-env export-literal unexport-env endfi foo; do
    printf '.%s A\n' "$directive" >makefile
    refused
done
wanted=':: is not supported'
echo 'a:: b' >makefile
refused
wanted="don't know how to make"
for source in .MAKE .RECURSIVE .NOPATH 'lib.a(x.o)'; do
    printf 'all: %s\n' "$source" >makefile
    refused
done
count 'lines that are refused' "$wrong"
wrong=''
wanted=made
for name in .PATH.c .OBJDIR .SHELL .MAKEFLAGS .POSIX .INTERRUPT .ERROR .STALE .Phony; do
    printf '%s: x\nx:\nall:\n\t@echo made\n' "$name" >makefile
    refused all
    printf '%s:\nall:\n\t@echo made\n' "$name" >makefile
    refused
done
count 'names that are plain names, and never the main target' "$wrong"
cd "$top" || exit 1

# The example that README.md begins with, in a copy of it.
if is_there cc && is_there strace && may_trace; then
    mkdir "$room/readme"
    cp -R "$top/examples" "$room/readme"
    rm -f "$room"/readme/examples/tool/{tool,*.o,*.meta,local/*.h}
    # Its first build may print its objects in any order.
    sed -n '/^## See it/,/^## /p' README.md | sed -n 's/^    //p' | sed 's/^\$ bmake -j4$/$ bmake -j4 >first; sleep 0.1/' >"$room/block"
    count 'the example of README.md' "$(run_block "$room/readme" "$room/block")"
else
    skip 'the example of README.md' 'it needs cc and strace'
fi
finish
