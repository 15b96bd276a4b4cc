#!/bin/sh
# Kills a program of four threads at random moments: `sh tests/c/kills.sh PROGRAM N [SEED]`, where PROGRAM is built of kills.c.
# After each kill the journal has all that the program printed, each once, and the next run goes on from it. The file grows by one
# page, by sixteen, or by megabytes; lines are mapped or written; messages are numbers or bytes; the text has sums or none. Each
# third run begins a new file.
set -e
program=$1
many=$2
seed=${3:-$$}
here=$(cd "$(dirname "$0")" && pwd)
work=$(mktemp -d "${SERYUGO_TRY:-.}/kills.XXXXXX")
trap 'rm -rf "$work"' EXIT

# random N: a number from 0 to N - 1.
random() {
    seed=$(((seed * 1103515245 + 12345) % 2147483648))
    drawn=$((seed / 65536 % $1))
}

# text FILE: its text, up to the first byte 0 and the last line end.
text() { { cat "$1"; printf '\0'; } | tr '\0\n' '\n\0' | head -n 1 | tr '\0\n' '\n\0' | sed '$d'; }

told=0
again=0
cut=0
early=0
grown=0
run=1
while [ "$run" -le "$many" ]; do
    if [ $((run % 3)) -eq 1 ]; then
        file=$work/$run.journal
        random 2 && kind=$([ "$drawn" -eq 0 ] || echo bytes)
        random 2 && sums=$([ "$drawn" -eq 0 ] || echo sealed)
        : > "$work/all"
    fi
    random 3 && segment=$([ "$drawn" -eq 0 ] && echo 4096 || { [ "$drawn" -eq 1 ] && echo 65536 || echo 0; })
    random 4 && way=$([ "$drawn" -ne 0 ] || echo writes)
    : > "$work/pid"
    { "$program" "$file" "$run" 100000000 $kind $sums $way "$segment" 2> "$work/error" & echo $! > "$work/pid"
      status=0; wait $! 2> "$work/wait" || status=$?; echo "$status" > "$work/status"; } | cat > "$work/told" &
    reader=$!
    until [ -s "$work/pid" ]; do sleep 0.01; done
    pid=$(cat "$work/pid")
    # Each eighth is killed while it opens the file, or soon after. The others have printed something.
    [ $((run % 8)) -eq 0 ] || until [ -s "$work/told" ] || ! kill -0 "$pid" 2> "$work/none"; do sleep 0.01; done
    random 60
    sleep "0.$(printf %03d $((drawn + 1)))"
    kill -9 "$pid"
    wait "$reader"
    status=$(cat "$work/status")
    [ "$status" -eq 137 ] || { echo "run $run ended with $status before it was killed"; cat "$work/error"; exit 1; }
    # A line that was cut by the kill was not told.
    awk 'NF == 2' "$work/told" >> "$work/all"
    [ -s "$work/told" ] || early=$((early + 1))
    if [ -f "$file" ]; then
        text "$file" > "$work/text"
        awk -f "$here/kept.awk" "$work/all" "$work/text" > "$work/verdict" || {
            echo "run $run ($kind $sums $way $segment):"; cat "$work/verdict"; cp "$file" "$work/all" /tmp; exit 1; }
        [ "$segment" -eq 0 ] || grown=$((grown + 1))
        ! grep -q opened "$work/error" || grep -q 'entries 0 ' "$work/error" || again=$((again + 1))
        ! grep -q 'cut [1-9]' "$work/error" || cut=$((cut + 1))
    else
        [ ! -s "$work/all" ] || { echo "run $run: there is no file"; exit 1; }
    fi
    told=$((told + $(wc -l < "$work/told")))
    run=$((run + 1))
done
echo "$many kills: $told calls returned, none is lost or twice; $again openings went on, $cut of these cut half a line,"
echo "$early kills before a call returned, $grown while the file grew by pages"
