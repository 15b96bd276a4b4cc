#!/bin/sh
# `cml compact` from outside: `sh tests/cml/compact.sh CML`. Short journals that were worked out by hand. Then many fronts of examples
# and random journals: a front's short journal leaves the objects that the front leaves, and is followed by the rest, with the same
# replies; a short journal's is itself; and a rest that is wrong is refused at the same entry, with the same answer. Last, journals
# that aren't whole or lawful, and long ones. The last line is `N passed, M failed`.
LC_ALL=C
export LC_ALL
top=$(cd "$(dirname "$0")/../.." && pwd) || exit 1
. "$top/tests/lib/cases.sh"
program=$(absolute "$1")
cd "$top" || exit 1

# short CASE SHORT LINES: the short journal of a journal; the lines of both are parted by ` / `.
short() {
    script "$3" > "$work/in"
    run compact < "$work/in"
    expect "$1" 0 "$(script "$2")" none
}

# short_sealed CASE SHORT LINES: the same of sealed pieces.
short_sealed() {
    seal "$3" > "$work/in"
    run compact < "$work/in"
    expect "$1" 0 "$(seal "$2")" none
}

by_hand() {
    short 'nothing' 'journal 1 / end 0' 'journal 1 / end 0'
    short 'a mailbox' 'journal 1 / seat 1 mailbox: made 0 / seat 1 send 0 7: done / end 2' \
        'journal 1 / seat 0 mailbox: made 0 / seat 1 send 0 5: done / seat 1 send 0 7: done / seat 0 recv 0: 5 / end 4'
    short 'all is received' 'journal 1 / seat 3 mailbox: made 0 / end 1' \
        'journal 1 / seat 0 mailbox: made 0 / seat 3 send 0 5: done / seat 0 poll 0: 5 / seat 0 poll 0: none / end 4'
    short 'a channel without a port' 'journal 1 / seat 0 channel: made 0 / end 1' \
        'journal 1 / seat 0 channel: made 0 / seat 0 multicast 0 5: done / end 2'
    short 'ports at several places' "$(printf '%s' 'journal 1 / seat 2 channel: made 0 / seat 2 port 0: made 1 / seat 2 port 0: made 2
 / seat 2 multicast 0 6: done / seat 2 multicast 0 7: done / seat 2 port 0: made 3 / seat 2 recv 1: 6 / end 7' | tr -d '\n')" "$(printf '%s' 'journal 1 / seat 0 channel: made 0 / seat 0 port 0: made 1 / seat 0 port 0: made 2
 / seat 1 multicast 0 5: done / seat 1 multicast 0 6: done / seat 1 multicast 0 7: done / seat 2 recv 1: 5 / seat 2 recv 1: 6
 / seat 2 recv 2: 5 / seat 0 port 0: made 3 / end 10' | tr -d '\n')"
    short 'a port that is closed' \
        'journal 1 / seat 0 channel: made 0 / seat 0 port 0: made 1 / seat 0 port 0: made 2 / seat 0 close 1: done / end 4' \
        "$(printf '%s' 'journal 1 / seat 0 channel: made 0 / seat 0 port 0: made 1 / seat 0 port 0: made 2 / seat 0 multicast 0 5: done
 / seat 0 close 1: done / seat 0 recv 2: 5 / seat 0 close 1: closed / end 7' | tr -d '\n')"
    short 'variables' "$(printf '%s' 'journal 2 / seat 0 ivar: made 0 / seat 0 ivar: made 1 / seat 0 mvar: made 2 / seat 0 mvar: made 3
 / seat 0 put 1 =x: done / seat 0 put 3 =%20: done / end 6' | tr -d '\n')" \
        "$(printf '%s' 'journal 2 / seat 0 ivar: made 0 / seat 0 ivar: made 1 / seat 0 mvar =a: made 2 / seat 0 mvar =b: made 3
 / seat 0 put 1 =x: done / seat 0 take 2: =a / seat 0 swap 3 =%20: =b / end 7' | tr -d '\n')"
    short 'lanes and feeds' "$(printf '%s' 'journal 1 / seat 0 channel: made 0 / seat 0 port 0: made 1 / seat 0 mailbox: made 2
 / seat 0 multicast 0 5: done / seat 0 send 2 6: done / end 5' | tr -d '\n')" \
        "$(printf '%s' 'journal 1 / seat 0 channel: made 0 / feed 9 port 0: made 1 / seat 0 mailbox: made 2 / lane 4 multicast 0 4: done
 / lane 4 multicast 0 5: done / feed 9 recv 1: 4 / lane 8 send 2 6: done / end 7' | tr -d '\n')"
    short 'several pieces' 'journal 1 / seat 1 mailbox: made 0 / seat 1 send 0 5: done / end 2' \
        'journal 1 / seat 0 mailbox: made 0 / end 1 / journal 1 / from 1 / end 1 / journal 1 / from 1 / seat 1 send 0 5: done / end 2'
    late='journal 1 / seat 0 channel: made 0 / seat 0 port 0: made 1 / seat 0 multicast 0 5: done / seat 0 port 0: made 2'
    late="$late / seat 0 multicast 0 6: done / seat 0 port 0: made 3 / seat 0 multicast 0 7: done"
    short 'ports that were made late' "$late / end 7" "$late / end 7"
    short 'ports that are closed lie between them' \
        "$(printf '%s' 'journal 1 / seat 0 channel: made 0 / seat 0 port 0: made 1 / seat 0 multicast 0 5: done / seat 0 multicast 0 6: done
 / seat 0 multicast 0 7: done / seat 0 port 0: made 2 / seat 0 port 0: made 3 / seat 0 port 0: made 4 / seat 0 close 2: done
 / seat 0 close 4: done / end 10' | tr -d '\n')" \
        "$late / seat 0 close 2: done / seat 0 recv 3: 7 / seat 0 port 0: made 4 / seat 0 close 4: done / end 11"
    short 'a copy of a port that reads late, whose short journal is longer' \
        "$(printf '%s' 'journal 1 / seat 0 channel: made 0 / seat 0 port 0: made 1 / seat 0 port 0: made 2 / seat 0 port 0: made 3
 / seat 0 multicast 0 5: done / seat 0 multicast 0 6: done / seat 0 recv 2: 5 / seat 0 recv 2: 6 / end 8' | tr -d '\n')" \
        "$(printf '%s' 'journal 1 / seat 0 channel: made 0 / seat 0 port 0: made 1 / seat 0 multicast 0 5: done
 / seat 0 multicast 0 6: done / seat 0 port 0: made 2 / seat 0 copy 1: made 3 / end 6' | tr -d '\n')"
    short_sealed 'sealed pieces' 'journal 3 / seat 1 mailbox: made 0 / seat 1 send 0 5: done / end 2 SUM' \
        'journal 3 / seat 0 mailbox: made 0 / end 1 SUM / journal 3 BEFORE / from 1 / seat 1 send 0 5: done / end 2 SUM'
    short_sealed 'sealed bytes' 'journal 4 / seat 0 mvar: made 0 / seat 0 put 0 =%20: done / end 2 SUM' \
        'journal 4 / seat 0 mvar =%20: made 0 / end 1 SUM'
    short 'no seat' 'journal 1 / seat 0 mailbox: made 0 / end 1' 'journal 1 / feed 3 mailbox: made 0 / end 1'
    short 'the seat with the highest number' "journal 1 / seat 18446744073709551614 mailbox: made 0 / end 1" \
        'journal 1 / seat 18446744073709551615 mailbox: made 0 / end 1'
}

# What a journal leaves, of the lines of its objects.
leaves() {
    sed '1d; s/sent [0-9]* got [0-9]* waits/waits/; s/^\(channel [0-9]*:\).*/\1/; s/start [0-9]* got [0-9]* //' "$1"
}

# of_front FILE K TO: the first K entries of a journal in one piece, as a journal.
of_front() {
    awk -v most="$2" 'FNR == 1; /^(seat|lane|feed) / && seen < most { print; seen++ } END { print "end " seen + 0 }' "$1" > "$3"
}

# followed FILE K SHORT TO: a short journal, and after it all but the first K entries.
followed() {
    awk -v after="$2" '
        FNR == NR { print; if (/^end /) first = $2; next }
        FNR == 1 { print; if (first != 0) print "from " first }
        /^(seat|lane|feed) / && ++seen > after { print; first++ }
        END { print "end " first }
    ' "$3" "$1" > "$4"
}

# verdict FILE TO: the verdict on a journal with the lines of its objects; the position of an unlawful entry is left out.
verdict() {
    bounded "$program" check --state < "$1" > "$2.all" 2>&1
    { sed -n '1s/^lawful [0-9]*$/lawful/p; s/^unlawful at [0-9]*: /unlawful: /p; /^answer/p' "$2.all"; leaves "$2.all" | grep -v '^answer'; } > "$2"
}

# is_alike FILE K: whether the short journal of the first K entries leaves what they leave, is its own short journal, and is followed
# alike by the rest, and by the rest twice.
is_alike() {
    of_front "$1" "$2" "$work/front"
    bounded "$program" compact < "$work/front" > "$work/short" 2> "$work/err" || return
    bounded "$program" compact < "$work/short" | cmp -s - "$work/short" || return
    verdict "$work/front" "$work/left"
    verdict "$work/short" "$work/left.short"
    cmp -s "$work/left" "$work/left.short" || return
    followed "$1" "$2" "$work/front" "$work/long"
    followed "$1" "$2" "$work/short" "$work/again"
    verdict "$work/long" "$work/end"
    verdict "$work/again" "$work/end.short"
    grep -q '^lawful' "$work/end" && cmp -s "$work/end" "$work/end.short" || return
    followed "$1" "$2" "$work/long" "$work/twice"
    followed "$1" "$2" "$work/again" "$work/twice.short"
    verdict "$work/twice" "$work/end"
    verdict "$work/twice.short" "$work/end.short"
    cmp -s "$work/end" "$work/end.short"
}

# each_front FILE STEP: every STEP-th front of a journal in one piece.
each_front() {
    entries=$(grep -c '^\(seat\|lane\|feed\) ' "$1")
    k=0
    while [ "$k" -le "$entries" ]; do
        if is_alike "$1" "$k"; then pass; else fail "the first $k entries of $1"; fi
        k=$((k + $2))
    done
}

fronts() {
    for journal in examples/scripts/*.journal; do
        each_front "$journal" 3
    done
    for version in 1 2; do
        awk -v part=journal -v version="$version" -f tests/models/calls.awk -f tests/models/each_call.awk > "$work/each$version"
        each_front "$work/each$version" 29
    done
    for seed in 1 2 3; do
        awk -v seed=$seed -v count=60 -f tests/models/calls.awk -f tests/models/journal_judge.awk -f tests/models/some_journals.awk > "$work/random$seed"
        each_front "$work/random$seed" 2
    done
}

# ends CASE STATUS OUT ERR LINES: how the program ends of a journal that has no short one.
ends() {
    script "$5" > "$work/in"
    run compact < "$work/in"
    expect "$@"
}

endings() {
    ends 'an unlawful journal' 7 "$(printf 'unlawful at 1: seat 0 recv 0: 5\nanswer: waits')" none \
        'journal 1 / seat 0 mailbox: made 0 / seat 0 recv 0: 5 / end 2'
    ends 'a fault' 2 none "$(printf 'journal: line 2: unknown word\nexpected: an entry, or `end 0`\nfound: `seat 0 letter: made 0`')" \
        'journal 1 / seat 0 letter: made 0 / end 1'
    ends 'a journal without an end' 2 none 'journal: open after line 2' 'journal 1 / seat 0 mailbox: made 0'
    ends 'a journal after a cut' 2 none 'journal: begins after a cut' 'journal 1 / from 1 / end 1'
    run compact < /dev/null
    expect 'no input' 2 none 'journal: torn after line 0'
    run compact --state < /dev/null
    expect 'an option of another subcommand' 3 none some
    run compact what < /dev/null
    expect 'other words' 3 none some
    run compact < .
    expect 'a folder for standard input' 4 none 'cml: read failed'
    script 'journal 1 / end 0' > "$work/in"
    bounded "$program" compact < "$work/in" > /dev/full 2> "$work/err"
    status=$?
    : > "$work/out"
    expect 'a full device' 4 none 'cml: write failed'
    # Its own line has room for the message. That of the send has not: its seat's number is longer.
    {
        printf 'journal 2\nseat 18446744073709551614 mailbox: made 0\nlane 0 send 0 ='
        head -c $((4194304 - 21)) /dev/zero | tr '\0' a
        printf ': done\nend 2\n'
    } > "$work/in"
    run check < "$work/in"
    expect 'a line that is as long as a line may be' 0 'lawful 2' none
    run compact < "$work/in"
    expect 'a line that would be too long' 2 none 'cml: the line of entry 1 of the short journal is too long'
}

# 100,001 entries of which 1,000 messages are kept; 100,000 that are all kept; and 2,000 ports that were made one after another.
long() {
    awk 'BEGIN {
        print "journal 1\nseat 0 mailbox: made 0"
        for (i = 0; i < 50500; i++) print "seat 1 send 0 " i ": done"
        for (i = 0; i < 49500; i++) print "seat 0 recv 0: " i
        print "end 100001"
    }' > "$work/in"
    run compact < "$work/in"
    tail -n 1 "$work/out" > "$work/last" && mv "$work/last" "$work/out"
    expect 'a long journal' 0 'end 1001' none
    awk 'BEGIN {
        print "journal 1\nseat 0 channel: made 0\nseat 0 port 0: made 1"
        for (i = 0; i < 100000; i++) print "seat 1 multicast 0 " i ": done"
        print "end 100002"
    }' > "$work/in"
    run compact < "$work/in"
    tail -n 1 "$work/out" > "$work/last" && mv "$work/last" "$work/out"
    expect 'a journal all of which is kept' 0 'end 100002' none
    awk 'BEGIN {
        print "journal 1\nseat 0 channel: made 0"
        for (i = 1; i <= 2000; i++) print "seat 0 port 0: made " i "\nseat 0 multicast 0 " i ": done"
        print "end 4001"
    }' > "$work/in"
    run compact < "$work/in"
    expect 'ports made one after another' 0 "$(cat "$work/in")" none
}

by_hand
fronts
endings
long
count
