#!/usr/bin/env bash
# The pages: those that are printed are current, README is short, and pages name files and options that are there. Run
# it at the top of the repository. Its last line is 'N passed, M failed'.
set -u
. tests/lib.sh

wrong=''
tools/crates-page >"$room/crates" 2>&1
cmp -s "$room/crates" docs/CRATES.md || wrong='print it again: tools/crates-page >docs/CRATES.md'
count 'docs/CRATES.md is what tools/crates-page prints' "$wrong"

lines=$(wc -l <README.md)
[ "$lines" -le 120 ] && wrong='' || wrong="it has $lines lines"
count 'README.md has at most 120 lines' "$wrong"
wrong=$(awk 'length($0) > 100 { printf "line %d; ", NR }' README.md)
count 'README.md has at most 100 columns' "$wrong"

# A name in backquotes that looks like a path of the repository.
named() {
    grep -ohE '`(docs|tests|tools|examples|share|man|crates)/[A-Za-z0-9_./-]+`' "$@" | tr -d '`' | sort -u
}

for page in README.md docs/*.md; do
    wrong=''
    for path in $(named "$page"); do
        [ -e "$path" ] || case $path in crates/*/out/* | */NAME/*) ;; *) wrong="$wrong no $path;" ;; esac
    done
    count "$page names what is there" "$wrong"
done

# Each definition that a clause of the theorem names stands in a file of its row.
wrong=''
while IFS='|' read -r _ clause _ definitions files _; do
    paths=''
    crate=''
    for word in $(printf '%s' "$files" | grep -oE '`[^`]+`|mk_[a-z]+' | tr -d '`'); do
        case $word in mk_*) crate=$word ;; *) paths="$paths crates/$crate/$word" ;; esac
    done
    for name in $(printf '%s' "$definitions" | grep -oE '`[A-Za-z_]+`' | tr -d '`'); do
        # The paths are parted by the blanks between them.
        # shellcheck disable=SC2086
        cat $paths 2>&1 | grep -qE "pub (record |data )?$name( |\$)" || wrong="$wrong no $name of $clause;"
    done
done < <(sed -n '/^## The clauses of/,/^## The premises/p' docs/THEOREM.md | grep '^| [`a-z]')
count 'docs/THEOREM.md names definitions where they stand' "$wrong"

# Each crate has a row of what is proved of it, and each script a row of what it shows.
wrong=''
for crate in $(sed -n 's/^\([a-z_]*\):.*/\1/p' crates.txt); do
    grep -q "^| $crate |" docs/PROVED.md || wrong="$wrong no row of $crate;"
done
count 'docs/PROVED.md has a row for each crate' "$wrong"
wrong=''
for script in tests/*.sh; do
    [ "$script" = tests/lib.sh ] || grep -qF "| \`$script\` |" docs/TESTING.md || wrong="$wrong no row of $script;"
done
count 'docs/TESTING.md has a row for each script' "$wrong"

# What is proved is proved from the kit's logic alone.
count 'no crate has an axiom or a postulate' "$(grep -rlwE 'axiom|postulate' crates --include=*.antt --include=*.rt | tr '\n' ' ')"
finish
