#!/bin/sh
# A switchboard in a file, for Rattle: `sh tests/libraries/kept_file.sh [PROGRAM]` hands cml_rows calls, and looks
# at what it tells and at the file. It kills the program while it sends, and lets its writes fail. What its calls returned is in the
# file afterwards, and the file is gone on with. Without PROGRAM it builds one, unproved. The last line is `N passed, M failed`.
top=$(cd "$(dirname "$0")/../.." && pwd) || exit 1
. "$top/tests/lib/cases.sh"
cd "$top" || exit 1
program=${1:-}
if [ -z "$program" ]; then
    kit=$(dirname "$(rt doc)")
    . tests/lib/tried.sh
    build cml_rows crates/cml_rows/src/main.rt || exit 1
fi

# plays CASE BEFORE LINES TOLD AFTER [bytes]: on a file with the text BEFORE the program gets LINES, tells TOLD, and leaves the text
# AFTER, before the zeros of a file that isn't closed. printf writes the texts. With `-` for BEFORE the file is that of the case
# before, and with `-` for AFTER it isn't looked at.
# shellcheck disable=SC2059,SC2086
plays() {
    [ "$2" = - ] || printf "$2" > "$work/played.journal"
    printf "$3" | bounded "$program" file "$work/played.journal" $6 > "$work/told" 2>&1
    printf "$4" | cmp - "$work/told" > "$work/differs" 2>&1 || { fail "$1: it tells $(cat "$work/told")"; return; }
    case $3 in
        *close*) cp "$work/played.journal" "$work/left" ;;
        *) tr -d '\000' < "$work/played.journal" > "$work/left" ;;
    esac
    if [ "$5" = - ] || printf "$5" | cmp -s - "$work/left"; then pass; else fail "$1: the file has $(head -c 300 "$work/left")"; fi
}

two='journal 1\nseat 0 mailbox: made 0\nseat 0 send 0 5: done\n'
recv='seat 1 recv 0: 5\n'
got='stored 2: Got(5)\n'

goes_on() {
    plays 'a new file' - 'seat 0 mailbox: made 0\nseat 0 send 0 5: done\n' '0 entries, 0 cut\nstored 0: Made(Name(0))\nstored 1: Done\n' "$two"
    plays 'it goes on, and is closed' - "${recv}seat 1 poll 0: none\nclose\n" \
        "2 entries, 0 cut\n${got}stored 3: Nothing\nclosed\n" "$two${recv}seat 1 poll 0: none\n"
}

# What a kill left of a line is cut off, and no more.
cuts() {
    plays "cut off $1: $2" "$two$2" "${recv}sync\n" "2 entries, $1 cut\n${got}synced true\n" -
    plays "after that" - 'close\n' '3 entries, 0 cut\nclosed\n' -
}

# What is no journal is refused by name, and is not changed.
refuses() { plays "refused: $2" "$2" 'close\n' "$1\n" "$2"; }

rm -f "$work/played.journal"
goes_on
cuts 0 ''
cuts 19 'seat 0 send 0 6: do'
cuts 14 '\000\000\000 0 6: done\n\000'
cuts 0 'end 2\n'
cuts 13 'end 2\njournal 1\nfro'
refuses 'the first line is none of a journal' '#!/bin/sh\n'
refuses 'the first line is none of a journal' 'precious'
refuses 'the first line is none of a journal' '\000\000\000\000\000\000\000\000\000\000\000'
refuses "a version that this library doesn't know" 'journal 9\n'
refuses 'it has messages of another type' 'journal 2\n'
refuses "what was before the cut isn't known" 'journal 1\nfrom 3\n'
refuses 'the journal was changed: line 3: too few words' 'journal 1\nseat 0 mailbox: made 0\nseat 0 mail\n'
refuses 'the journal was changed: entry 0 is not lawful' 'journal 1\nseat 0 send 0 5: done\n'
mkdir "$work/folder"
if bounded "$program" file "$work/folder" < /dev/null | grep -qx 'the first line is none of a journal'; then pass; else fail 'a folder'; fi

# Bytes are kept too. A message that is too long for a line is not sent.
long=$(awk 'BEGIN { while (n++ < 2097088) printf "x" }')
rm "$work/played.journal"
plays 'bytes' - "seat 0 mailbox: made 0\nseat 0 send 0 =a%%20b: done\nseat 0 send 0 =$long: done\nclose\n" \
    '0 entries, 0 cut\nstored 0: Made(Name(0))\nstored 1: Done\nunmade: too long for a line\nclosed\n' \
    'journal 2\nseat 0 mailbox: made 0\nseat 0 send 0 =a%%20b: done\n' bytes

plays 'a lane, and a message that is too long for it' - "lane =b\nlane =$long\nclose\n" \
    '2 entries, 0 cut\nDrained(1)\nTooLong\nclosed\n' \
    'journal 2\nseat 0 mailbox: made 0\nseat 0 send 0 =a%%20b: done\nlane 0 send 0 =b: done\n' bytes
plays 'a feed' 'journal 1\nseat 0 channel: made 0\n' 'feed 5\nclose\n' '1 entries, 0 cut\nSome((Some(5), 1))\nclosed\n' \
    'journal 1\nseat 0 channel: made 0\nfeed 0 port 0: made 1\nlane 0 multicast 0 5: done\nfeed 0 recv 1: 5\n'

plays 'two threads' 'journal 1\nseat 0 mailbox: made 0\nseat 0 mailbox: made 1\n' 'share 100\nclose\n' \
    '2 entries, 0 cut\nshared Some([200, 200])\nclosed\n' -
plays 'all their calls' - 'close\n' '402 entries, 0 cut\nclosed\n' -

# sends: lines that make a mailbox, and send numbers to the first one, without end.
sends() { awk 'BEGIN { print "seat 0 mailbox: made 0"; for (;;) print "seat 0 send 0 " n++ ": done" }' 2> /dev/null; }

# entries FILE: how many entries an opening of the file finds.
entries() { echo close | bounded "$program" file "$1" | sed -n 's/ entries, .*//p'; }

# is_kept LAST FOUND: the file has all calls that returned, and at most one more.
is_kept() { [ -n "$2" ] && [ "$2" -ge $(($1 + 1)) ] && [ "$2" -le $(($1 + 2)) ]; }

# kills SECONDS: kills the program after as many seconds. The file goes on from the kill before.
kills() {
    sends | "$program" file "$work/killed.journal" > "$work/told" &
    pid=$!
    sleep "$1"
    kill -9 "$pid"
    wait "$pid" 2> /dev/null
    now=$(sed -n 's/^stored \([0-9]*\): .*/\1/p' "$work/told" | tail -n 1)
    last=${now:-$last} # it may be killed before its first call
    found=$(entries "$work/killed.journal")
    if is_kept "$last" "$found"; then pass; else fail "after $1 s: $last was stored, and $found were found"; fi
    last=$((found - 1))
}

last=-1
for seconds in 0.3 0.5 0.2 0.7; do
    kills "$seconds"
done

# The file may not be as long as the program wants it.
(trap '' XFSZ && ulimit -f 1000 && { sends | head -n 2; echo close; } | bounded "$program" file "$work/short.journal") > "$work/told"
for line in 'unstored: ' 'unmade: ' 'not closed: '; do
    if grep -q "^$line" "$work/told"; then pass; else fail "no line $line in: $(cat "$work/told")"; fi
done
if { sends | head -n 3; echo close; } | bounded "$program" file "$work/short.journal" | tail -n 2 | tr '\n' ' ' |
    grep -qx 'stored 2: Done closed '; then
    pass
else
    fail 'what goes on after writes that failed'
fi

# The program has one file at a time.
sends | "$program" file "$work/busy.journal" > "$work/told" &
pid=$!
until grep -q '^stored ' "$work/told" || ! kill -0 "$pid"; do
    sleep 0.1
done
if echo close | bounded "$program" file "$work/busy.journal" | grep -qx 'another handle has the file'; then pass; else fail 'a file that is open'; fi
kill -9 "$pid"
wait "$pid" 2> /dev/null
count
