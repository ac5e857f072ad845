#!/bin/sh
# session.sh PROGRAM BUILD SCRIPTS SEED: the program and the naive one in BUILD on the specification's session and the examples; then the
# program against the naive one on so many random scripts from the seed on, each given whole and in short pieces; then as an editor's partner.
set -eu
program=$1 build=$2 scripts=$3 seed=$4
top=$(dirname "$0")/..
room=$build/session
mkdir -p "$room"

fail() {
    echo "session: DIFFERS: $1 (script, got and want are in $room)"
    exit 1
}

# same SCRIPT WANT: both programs answer the script with what is wanted.
same() {
    for one in "$program" "$build/naive_session"; do
        "$one" <"$1" >"$room/got"
        cmp "$room/got" "$2" || fail "$1, by $one"
    done
}

same "$top/crates/session/stdin" "$top/crates/session/stdout"
examples=0
for script in "$top"/examples/*.session; do
    same "$script" "${script%.session}.expected"
    examples=$((examples + 1))
done
echo "session: the specification's session and $examples examples answered as expected"

last=$((seed + scripts - 1))
while [ "$seed" -le "$last" ]; do
    "$build/scripts" "$seed" >"$room/script"
    "$build/naive_session" <"$room/script" >"$room/want"
    "$program" <"$room/script" >"$room/got" || fail "seed $seed: status $?"
    cmp -s "$room/got" "$room/want" || fail "seed $seed"
    "$build/scripts" "$seed" pieces | "$program" >"$room/got" || fail "seed $seed in pieces: status $?"
    cmp -s "$room/got" "$room/want" || fail "seed $seed in pieces"
    seed=$((seed + 1))
done
echo "session: $scripts scripts, each whole and in pieces, answered alike"

# A partner that waits for each answer before it asks again, and one that goes away.
rm -f "$room/ask" "$room/tell" "$room/answers"
mkfifo "$room/ask" "$room/tell"
"$program" <"$room/ask" >"$room/tell" &
exec 3>"$room/ask" 4<"$room/tell"
for line in "new 8 8 2" "check 1" "paint 0 0 1 1 9"; do
    echo "$line" >&3
    timeout 20 head -n 1 <&4 >>"$room/answers" || fail "no answer to: $line"
done
exec 3>&- 4<&-
wait $! || fail "status $? at the end of the input"
printf 'ok\ncheck 0 0 0\nno 5 3\n' | cmp -s - "$room/answers" || fail "one line at a time"
{ status=0; SESSION=$program "$top/bin/session" <"$top/examples/long.session" || status=$?; echo $status >"$room/status"; } | head -n 1 >"$room/got"
[ "$(cat "$room/status")" = 0 ] || fail "status $(cat "$room/status") when nobody reads its output"
echo "session: answers line by line, and ends when nobody reads its output"
