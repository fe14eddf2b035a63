#!/usr/bin/env bash
# What shells offer behind the words of bmake: options, and the targets and variables of the makefile here. Each is tried
# in a shell of its kind. Run it at the top of the repository. Its last line is 'N passed, M failed'.
set -u
. tests/lib.sh
share=$PWD/share/completions
program=${BMAKE:-$PWD/crates/bmake/out/bmake}

mkdir "$room/here" && cd "$room/here" || exit 1
cat >makefile <<'END'
# all: not this
PROG=   tool
SRCS!=  echo main.c >ran; echo main.c
.include "more.mk"
.PHONY: all clean \
        check
.SUFFIXES: .c .o
.c.o:
	cc -c main.c
other: nothing
all: ${PROG}
${PROG}: main.o
	main: cc -o tool main.o
.if defined(X)
clean! ; rm -f tool
.endif
lib/one.o lib/two.o: all.h
name.with.dots: VALUE
A:= b
B?=c
END
echo 'more: all' >more.mk
printf 'second: x\nC=1\n' >other.mk

targets=$(printf '%s\n' all check clean lib/one.o lib/two.o more name.with.dots other)
variables=$(printf '%s\n' A B PROG SRCS)

# What bash offers for a line of words, the last of which is being written.
in_bash() {
    bash --norc --noprofile -c '
        . "$1"
        shift
        COMP_WORDS=("$@")
        COMP_CWORD=$(($# - 1))
        $(complete -p bmake | sed "s/.*-F //; s/ .*//")
        [ ${#COMPREPLY[@]} = 0 ] || printf "%s\n" "${COMPREPLY[@]}"' bash "$share/bmake.bash" "$@" | sort
}

# The same in fish.
in_fish() {
    fish --no-config -c 'source $argv[1]; complete -C "$argv[2]"' "$share/bmake.fish" "$*" | cut -f 1 | sort -u
}

# The same in zsh, at a terminal of its own: what is offered stands in a list, behind a mark.
in_zsh() {
    cat >"$room/offer.zsh" <<END
zmodload zsh/zpty
zpty shell zsh -f -i
zpty -w shell 'PS1=; fpath=($share \$fpath); autoload -Uz compinit; compinit -u -D; LISTMAX=1000; COLUMNS=400
compadd() { local -a all; builtin compadd -O all "\$@"; (( \${#all} )) && print -rl -- "\${all[@]}" >>$room/offered; builtin compadd "\$@" }
zstyle ":completion:*" list-grouped false; bindkey "^I" complete-word; cd $room/here; print ready >$room/ready'
for (( i = 0; i < 600; i++ )) { [[ -e $room/ready ]] && break; sleep 0.05 }
zpty -n -w shell "\$1"\$'\t'
for (( i = 0; i < 600; i++ )) { [[ -s $room/offered ]] && break; sleep 0.05 }
sleep 0.3
zpty -d shell
END
    rm -f "$room/ready" "$room/offered"
    timeout 120 zsh -f "$room/offer.zsh" "$*" >/dev/null 2>&1
    [ ! -e "$room/offered" ] || sort -u "$room/offered"
}

for shell in bash fish zsh; do
    if ! is_there "$shell"; then
        skip "what $shell offers" "there is no $shell"
        continue
    fi
    count "$shell: the targets of the makefile" "$(same "$targets" "$("in_$shell" bmake '')")"
    count "$shell: targets that begin so" "$(same "$(printf 'check\nclean')" "$("in_$shell" bmake c)")"
    count "$shell: targets of another makefile" "$(same second "$("in_$shell" bmake -f other.mk '')")"
    count "$shell: variables behind -v" "$(same "$variables" "$("in_$shell" bmake -v '')")"
    offered=$("in_$shell" bmake -)
    wrong=''
    for option in -B -D -V -f -j -k -n -q; do
        case $nl$offered$nl in *"$nl$option$nl"*) ;; *) wrong="$wrong no $option;" ;; esac
    done
    count "$shell: options" "$wrong"
    count "$shell: long options, the first of them" "$(same --audit "$("in_$shell" bmake --au)")"
    count "$shell: long options" "$(same --explain "$("in_$shell" bmake --ex)")"
done
count 'nothing was run' "$([ ! -e ran ] || echo 'a command of != was run')"

# The three files have one program, by which they read a makefile, and each has each option.
program_in() {
    sed -n '/^function show(name)/,/^BEGIN/p' "$share/$1"
}
for file in bmake.fish _bmake; do
    count "$file reads makefiles as bmake.bash does" "$(same "$(program_in bmake.bash)" "$(program_in "$file")")"
done
if [ -x "$program" ]; then
    options=$("$program" --help | sed -n 's/^  -\([A-Za-z]\) .*/\1/p; s/^  --\([a-z][a-z]*\) .*/\1/p')
    for file in bmake.bash bmake.fish _bmake; do
        wrong=''
        for option in $options; do
            grep -qE -- "(-|-s |-l )$option([^a-zA-Z]|\$)" "$share/$file" || wrong="$wrong no $option;"
        done
        count "$file has each option" "$wrong"
    done
else
    skip 'whether each option is offered' "there is no program $program"
fi
cd "$OLDPWD" || exit 1
finish
