#!/usr/bin/env bash
# A build whose compiler runs elsewhere: examples/tool with distcc, in meta mode, with a server on the loopback
# address. Run it at the top of the repository, where the programs stand at crates/{bmake,fmtrace}/out. Its last line is
# 'N passed, M failed'.
set -u
. tests/lib.sh
program=${BMAKE:-$PWD/crates/bmake/out/bmake}
recorder=${FMTRACE:-$PWD/crates/fmtrace/out/fmtrace}

for needed in cc strace distcc distccd; do
    if ! is_there "$needed"; then
        skip 'a build by distcc' "there is no $needed"
        finish
    fi
done
if ! strace -f -D -o "$room/trace" true 2>/dev/null || [ ! -s "$room/trace" ]; then
    skip 'a build by distcc' 'strace may not trace here'
    finish
fi
needs_built "$program" "$recorder"

mkdir "$room/client"
server=$room/server
install -d -m 777 "$server"
chmod 755 "$room"
port=$((20000 + $$ % 20000))
distccd --daemon --no-detach --listen 127.0.0.1 --port "$port" --allow 127.0.0.1 --jobs 8 --job-lifetime 60 \
    --log-file "$server/log" --log-level info </dev/null >/dev/null 2>&1 &
daemon=$!
trap 'kill "$daemon" 2>/dev/null; chmod -R u+rwx "$room"; rm -rf "$room"' EXIT
for _ in $(seq 50); do
    ! grep -q 'preforking daemon started' "$server/log" 2>/dev/null || break
    sleep 0.1
done

# How many compilations the server has done so far.
served() {
    grep -c 'COMPILE_OK' "$server/log"
}

copy() {
    mkdir "$1"
    cp -R examples/tool/. "$1/"
    rm -f "$1"/{tool,*.o,*.meta,local/*.h}
}

# A build in a folder: its status has to be 0, and its commands are counted. The locks of distcc, which each compilation
# takes, are no source of it.
build() {
    (cd "$1" && DISTCC_DIR=$room/client DISTCC_HOSTS="127.0.0.1:$port/8" DISTCC_FALLBACK=0 BMAKE_RECORDER=$recorder \
        "$program" -j8 'CC=distcc cc' .MAKE.META.IGNORE_PATHS="$room/client" </dev/null) >"$room/out" 2>"$room/err" ||
        printf 'status %s: %s; ' $? "$(head -c 500 "$room/err")"
    grep -c '^distcc cc ' "$room/out" >"$room/count"
}

copy "$room/far"
copy "$room/near"
wrong=$(build "$room/far")
count 'a clean build compiles on the server' "$wrong$(same '4 3' "$(cat "$room/count") $(served)")"
pause
wrong=$(build "$room/far")
count 'a second one does nothing' "$wrong$(same '0 3' "$(cat "$room/count") $(served)")"
pause
echo '/* Letters. */' >>"$room/far/include/letters.h"
wrong=$(build "$room/far")
count 'an edited header is compiled on the server, with what reads it alone' \
    "$wrong$(same '2 4' "$(cat "$room/count") $(served)")"
cp "$room/far/include/letters.h" "$room/near/include/letters.h"
(cd "$room/near" && "$program" -s </dev/null) >/dev/null 2>&1
for made in main.o table.o words.o tool; do
    count "$made is that of a compiler on this machine" "$(cmp "$room/far/$made" "$room/near/$made" 2>&1)"
done
finish
