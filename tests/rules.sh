#!/usr/bin/env bash
# The map of rules, docs/RULES.md: each file of definitions has a row, and each file, definition and call that a row
# names exists. Run it at the top of the repository. Its last line is 'N passed, M failed'.
set -u
. tests/lib.sh

# Whether a file of definitions has this name: as a definition, a field, a constructor, or a type of the code that it
# speaks of.
defines() {
    grep -qE "^( *((abbrev|unfoldable|opaque) )?pub +((data|record) +)?| +)◌?$2◌?( |:|\$)" "$1" \
        || grep -qE "^use .*\.declared\..*[.{ ]$2[,}]" "$1"
}

# Whether some crate has this function, type or trait. A call may be named with its type, Type::call.
is_call() {
    grep -qE "(^|[^a-z_])(fn|struct|enum|trait|type) $1([^A-Za-z0-9_]|\$)" "$room/calls"
}

cat crates/*/src/*.rt crates/*/src/*/*.rt 2>/dev/null | grep -E '(fn|struct|enum|trait|type) ' >"$room/calls"

# One row: its definitions, each with the crate and file before it, and its calls.
while IFS= read -r line; do
    rest=${line#| }
    rule=${rest%% | *}
    rest=${rest#* | }
    definitions=${rest%% | *}
    calls=${rest#* | }
    wrong=''
    crate=''
    file=''
    for word in $(printf '%s' "$definitions" | grep -oE '`[^`]+`|\b(mk_[a-z]+|fmrun|fmtrace)\b' | tr -d '`'); do
        case $word in
            mk_* | fmrun | fmtrace)
                if [ -d "crates/$word" ]; then crate=$word; else defines "crates/$crate/$file" "$word" || wrong="$wrong no $word;"; fi
                ;;
            specs/*.antt)
                file=$word
                echo "crates/$crate/$file" >>"$room/have"
                [ -e "crates/$crate/$file" ] || wrong="$wrong no $crate $file;"
                ;;
            *)
                [ -e "crates/$crate/$file" ] && defines "crates/$crate/$file" "$word" || wrong="$wrong no $word in $crate $file;"
                ;;
        esac
    done
    for word in $(printf '%s' "$calls" | grep -oE '`[A-Za-z_:]+`' | tr -d '`'); do
        for part in ${word//::/ }; do is_call "$part" || wrong="$wrong no call $part;"; done
    done
    count "$rule" "$wrong"
done < <(grep '^| [^R-]\|^| R[^u]' docs/RULES.md)

# The calls of docs/ARCHITECTURE.md, and its crates.
wrong=''
while IFS='|' read -r _ _ crates calls _; do
    for crate in $(printf '%s' "$crates" | tr ',' ' '); do [ -d "crates/$crate" ] || wrong="$wrong no crate $crate;"; done
    for word in $(printf '%s' "$calls" | grep -oE '`[A-Za-z_:]+`' | tr -d '`'); do
        is_call "${word##*::}" || wrong="$wrong no call $word;"
    done
done < <(sed -n '/^## The way of the bytes/,/^## In a crate/p' docs/ARCHITECTURE.md | grep '^| [a-z]')
for crate in $(sed -n '/^```text/,/^```$/p' docs/ARCHITECTURE.md | grep -oE '\bmk_[a-z]+'); do
    [ -d "crates/$crate" ] || wrong="$wrong no crate $crate;"
done
for crate in $(sed -n 's/^\([a-z_]*\):.*/\1/p' crates.txt); do
    sed -n '/^```text/,/^```$/p' docs/ARCHITECTURE.md | grep -qw "$crate" || wrong="$wrong no $crate in the picture;"
done
count 'docs/ARCHITECTURE.md has each crate, and names what is there' "$wrong"

# Each file of definitions has a row, but for the lists of modules.
for file in $(find crates/*/specs -name '*.antt' | sort); do
    grep -qv '^pub mod ' "$file" || continue
    grep -qxF "$file" "$room/have" || count "$file" 'it has no row'
done
finish
