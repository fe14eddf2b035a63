#!/usr/bin/env bash
# What tools/install puts below a prefix, and that it takes exactly this away again; and the package of Debian, in a root
# of its own, where there is no kit. Run it at the top of the repository, where the program stands at
# crates/bmake/out/bmake. Its last line is 'N passed, M failed'.
set -u
. tests/lib.sh
program=${BMAKE:-$PWD/crates/bmake/out/bmake}
needs_built "$program"
export BMAKE=$program

# All files and links below a folder.
below() {
    (cd "$1" && find . ! -type d | LC_ALL=C sort)
}

# A program that runs: by itself, and with what it was installed with.
runs() {
    same 'bmake 0.1.0' "$("$1" --version 2>&1)"
}

# Below a directory, in which others have files too.
mkdir -p "$room/root/usr/local/bin" && echo other >"$room/root/usr/local/bin/other"
below "$room/root" >"$room/before"
wrong=$(DESTDIR=$room/root tools/install /usr/local 2>&1 >"$room/said")
count 'it installs below DESTDIR and a prefix' "$wrong"
wrong=''
for file in bin/bmake share/man/man1/bmake.1 share/bash-completion/completions/bmake share/fish/vendor_completions.d/bmake.fish \
    share/zsh/site-functions/_bmake share/bmake/mk/sys.mk share/bmake/mk/prog.mk share/doc/bmake/README.md share/doc/bmake/THEOREM.md; do
    [ -e "$room/root/usr/local/$file" ] || wrong="$wrong no $file;"
done
count 'programs, pages, completions, makefiles and documents' "$wrong"
count 'the installed program runs' "$(runs "$room/root/usr/local/bin/bmake")"
count 'modes' "$(same '755 644' "$(stat -c %a "$room/root/usr/local/bin/bmake") $(stat -c %a "$room/root/usr/local/share/man/man1/bmake.1")")"
mkdir "$room/project" && printf 'PROG=hello\n.include <prog.mk>\n' >"$room/project/makefile"
count 'it finds the makefiles that were installed with it' \
    "$(same 'hello hello.o' "$(cd "$room/project" && "$room/root/usr/local/bin/bmake" -m "$room/root/usr/local/share/bmake/mk" -v '${PROG} ${OBJS}' 2>&1)")"
below "$room/root" >"$room/with"
DESTDIR=$room/root tools/install /usr/local >"$room/said" 2>&1
count 'a second time leaves the same' "$(same "$(cat "$room/with")" "$(below "$room/root")")"
wrong=$(DESTDIR=$room/root tools/install --remove /usr/local 2>&1)
count '--remove takes away exactly these' "$wrong$(same "$(cat "$room/before")" "$(below "$room/root")")"
count 'and its own directories' "$([ ! -e "$room/root/usr/local/share/bmake" ] && [ ! -e "$room/root/usr/local/share/doc/bmake" ] || echo 'they stand')"

# Beside another program of the name.
echo mine >"$room/root/usr/local/bin/bmake"
below "$room/root" >"$room/before"
wrong=$(DESTDIR=$room/root tools/install --suffix -proved /usr/local 2>&1 >"$room/said")
wrong="$wrong$(same mine "$(cat "$room/root/usr/local/bin/bmake")")$(runs "$room/root/usr/local/bin/bmake-proved")"
grep -q '^complete -F _bmake bmake-proved$' "$room/root/usr/local/share/bash-completion/completions/bmake-proved" || wrong="$wrong bash completes another;"
grep -q '^#compdef bmake-proved$' "$room/root/usr/local/share/zsh/site-functions/_bmake-proved" || wrong="$wrong zsh completes another;"
grep -q '^complete -c bmake-proved -s j' "$room/root/usr/local/share/fish/vendor_completions.d/bmake-proved.fish" || wrong="$wrong fish completes another;"
grep -q '/usr/local/share/bmake-proved/mk' "$room/root/usr/local/share/man/man1/bmake-proved.1" || wrong="$wrong the page names another directory;"
count '--suffix installs beside another bmake' "$wrong"
DESTDIR=$room/root tools/install --remove --suffix -proved /usr/local >/dev/null
count '--remove with the suffix, too' "$(same "$(cat "$room/before")" "$(below "$room/root")")"

# Words that are refused.
for words in '' relative '/a /b' '--suffix' '--suffix a/b /usr' '--what /usr'; do
    # The words are parted by the blanks between them.
    # shellcheck disable=SC2086
    DESTDIR=$room/refused tools/install $words >"$room/said" 2>&1
    count "refused: tools/install $words" "$(same 2 $?)"
done
wrong=$(BMAKE=$room/none DESTDIR=$room/refused tools/install /usr >"$room/said" 2>&1; same 1 $?)
count 'nothing is installed where nothing was built' "$wrong$([ ! -e "$room/refused" ] || echo 'something was installed')"

# The package.
if is_there dpkg-deb; then
    package=$(tools/debian-package "$room" 2>"$room/err" | tail -n 1)
    count 'a package is made' "$([ -e "$package" ] || cat "$room/err")"
    wrong=''
    dpkg-deb --contents "$package" | awk '{ print $6 }' >"$room/contents"
    for file in usr/bin/bmake-proved usr/share/man/man1/bmake-proved.1.gz usr/share/zsh/vendor-completions/_bmake-proved usr/share/bmake-proved/mk/sys.mk; do
        grep -qx "./$file" "$room/contents" || wrong="$wrong no $file;"
    done
    ! grep -qx './usr/bin/bmake' "$room/contents" || wrong="$wrong it has the name of another package;"
    count 'its files' "$wrong"

    # A root with a shell and the libraries that the programs name, and a make in it.
    clean=$room/clean
    mkdir -p "$clean/bin" "$clean/tmp" "$clean/project" "$clean/dev" "$clean/var/lib/dpkg/info" "$clean/var/lib/dpkg/updates" "$clean/var/lib/dpkg/triggers"
    : >"$clean/var/lib/dpkg/status"
    cp -L /bin/sh "$clean/bin/sh"
    for library in $(ldd "$program" /bin/sh | grep -oE '/[^ ]+\.so[^ ]*' | sort -u); do
        mkdir -p "$clean$(dirname "$library")"
        cp -L "$library" "$clean$library"
    done
    if dpkg --root="$clean" --force-depends --force-not-root --force-bad-path --no-triggers --install "$package" >"$room/dpkg" 2>&1; then
        wrong=''
    else
        wrong=$(tail -n 3 "$room/dpkg")
    fi
    count 'dpkg installs it in a clean root' "$wrong"
    [ -e "$clean/usr/bin/bmake-proved" ] || dpkg-deb -x "$package" "$clean"
    printf 'all: b\nb: a\n\tread x <a; echo $$x >b\n' >"$clean/project/makefile"
    echo 1 >"$clean/project/a"
    : >"$clean/dev/null"
    if chroot "$clean" /bin/sh -c : 2>/dev/null; then
        wrong=$(chroot "$clean" /bin/sh -c 'cd /project && bmake-proved -j4 && exec /usr/bin/bmake-proved -q' >"$room/out" 2>&1 \
            || printf 'status %s: %s; ' $? "$(cat "$room/out")")
        wrong="$wrong$(holds "$clean/project/b" 1)"
        count 'it runs there, without the kit' "$wrong"
    else
        skip 'whether the package runs in a clean root' 'only root may change the root'
    fi
    if [ -e "$clean/usr/bin/bmake-proved" ] && dpkg --root="$clean" --force-depends --force-not-root --force-bad-path --no-triggers --purge bmake-proved >"$room/dpkg" 2>&1; then
        count 'it is removed' "$([ ! -e "$clean/usr/bin/bmake-proved" ] || echo 'it stands')"
    else
        skip 'that dpkg removes it' "dpkg did not install it"
    fi
else
    skip 'the package of Debian' 'there is no dpkg-deb'
fi
finish
