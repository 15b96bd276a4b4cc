#!/bin/sh
# For developers who change `cml check`. What it costs to check a journal: `sh tools/journal_speed.sh CML`, or
# `sh tools/journal_speed.sh CML ENTRIES` for another number of entries than 10,000,001. `cml check` has 64 MB. It prints the verdict,
# and how many nanoseconds of a processor an entry took. It is no test: what is printed depends on the machine. What it costs to write
# a journal, to check it and to go on from it by the library is printed by the example `journals` of bindings/rust/seryugo.
LC_ALL=C
export LC_ALL
cml=$(cd "$(dirname "$1")" && pwd)/$(basename "$1")
entries=${2:-10000001}
work=$(mktemp -d) || exit 1
trap 'rm -rf "$work"' EXIT
trap 'exit 1' HUP INT TERM

# One mailbox, to which 1,000 messages are sent before they are received, and so on.
awk -v entries="$entries" 'BEGIN {
    print "journal 1\nseat 0 mailbox: made 0"
    for (at = 1; at < entries; at++) {
        round = int((at - 1) / 2000)
        place = (at - 1) % 2000
        if (place < 1000) print "seat 1 send 0 " round * 1000 + place ": done"
        else print "seat 2 recv 0: " round * 1000 + place - 1000
    }
    print "end " entries
}' > "$work/journal"
(ulimit -v 65536 && "$cml" check < "$work/journal" && times > "$work/times") || exit 1
awk -v entries="$entries" '
    function seconds(text,    part) { sub(/s$/, "", text); split(text, part, "m"); return part[1] * 60 + part[2] }
    NR == 2 { printf "%.0f ns an entry\n", (seconds($1) + seconds($2)) * 1e9 / entries }
' "$work/times"
