# shellcheck shell=bash
# What scripts of tests have in common. It is read by `. tests/lib.sh` at the top of the repository, and is no test.
# It counts rows, and makes a room for files, which is removed at the end.
#
#   count SHOWS WRONG      counts a row: what it shows, and what is wrong, or nothing
#   skip WHAT WHY          tells of rows that cannot run on this machine
#   is_there PROGRAM       whether the system has this program
#   needs_built PROGRAM .. ends the script where a built program is missing
#   same WANTED GOT        says how two texts differ, or nothing
#   holds FILE TEXT        says where a file holds another text, or nothing
#   pause                  waits for more than a step of a file system's clock
#   finish                 prints the last line, 'N passed, M failed', and ends the script
# shellcheck disable=SC2034
nl=$'\n'
passed=0
failed=0
room=$(mktemp -d) || exit 1
trap 'chmod -R u+rwx "$room"; rm -rf "$room"' EXIT
unset MAKEFLAGS BMAKE_FILEMON BMAKE_FLAGS BMAKE_RECORDER

count() {
    if [ -z "$2" ]; then
        passed=$((passed + 1))
    else
        failed=$((failed + 1))
        printf 'failed: %s: %s\n' "$1" "$2"
    fi
}

skip() {
    printf 'skipped: %s (%s)\n' "$1" "$2"
}

is_there() {
    command -v "$1" >/dev/null
}

needs_built() {
    local built
    for built; do
        if [ ! -x "$built" ]; then
            echo "there is no program $built"
            echo '0 passed, 1 failed'
            exit 1
        fi
    done
}

same() {
    [ "$1" = "$2" ] || printf 'wanted: %s; got: %s; ' "$(printf %s "$1" | head -c 2000)" "$(printf %s "$2" | head -c 2000)"
}

holds() {
    [ "$(cat "$1" 2>&1)" = "$2" ] || printf '%s holds %s; ' "$1" "$(head -c 200 "$1" 2>&1)"
}

pause() {
    sleep 0.02
}

finish() {
    echo "$passed passed, $failed failed"
    [ "$failed" = 0 ]
    exit
}
