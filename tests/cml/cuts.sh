#!/bin/sh
# sh tests/cml/cuts.sh PROGRAM: a cut of the journal changes no reply, and nothing that readers tell of objects.
#
# The built program performs the tables of calls with a cut after each line, once with the entries dropped (`cut`) and
# once with them taken (`take`). While a lane or a feed is open, these make no cut. By `cut_open` and `take_open` it is made
# then too. The output must be the table, except what it says of the journal itself:
#
#   journal full           after a cut that call is answered: from there on the case's lines are not compared, and on a
#                          board none of them tells it
#   journal, took          a board has no entry left, and by the open ways nothing has. By `cut` and `take` `journal` and an
#                          open `took` are not compared on a floor or a hall, since no table tells what was kept by an open
#                          lane or feed
#   confirm                no answer is in the journal any more
#   cut_at                 not compared
#   noted, check, pieces   by `cut` and `cut_open` not compared, since the entries are gone. By the others those that were
#                          handed over are looked into too. The cuts of the table itself find nothing left to drop, but
#                          for a `cut_open` of the table by `take`: after that they are not compared
#
# By `take` and `take_open` each case ends with a line `pieces`: all that was handed over, fed to a checker piece by piece, is
# lawful.
# The table of how many messages live is left out, since each cut drops some, or keeps some longer.
#
# Then tables of random calls (tests/models/some_calls.awk) are performed with the cuts that are strewn in, without them, and with
# a cut after each line: the outcomes of all other lines must be the same.
# The last line is `N passed, M failed`.
top=$(cd "$(dirname "$0")/../.." && pwd) || exit 1
. "$top/tests/lib/cases.sh"
program=$(absolute "$1")
cd "$top/tests/tables" || exit 1

# compare WAY TABLE: what the program writes by this way, held against the table case by case.
compare() {
    "$program" "$1" < "$2" | awk -v way="$1" -v table="$2" '
        # Notes what the next line is to be; nothing where it is not compared.
        function is_to_be(line) { want[++lines] = line; case_of[lines] = name }
        function expected(line) {
            if (line ~ /: .*journal full/) is_full = 1
            if (line ~ /^cut_open: /) is_dropped = way != "take_open"
            if (is_full || line ~ /^cut_at: /) return ""
            if (line ~ /^journal: /) return is_board || is_open ? "journal: 0" : ""
            if (line ~ /^take: took /) return "take: took 0"
            if (line ~ /^take_open: /) return is_open ? "take_open: took 0" : ""
            if (line ~ /^confirm: /) return "confirm: no"
            if (is_dropped && line ~ /^(noted [0-9]+|check|pieces): /) return ""
            if (line ~ /^noted [0-9]+: cut away$/) return ""
            if (line ~ /^(check|pieces): /) sub(/: .*/, ": lawful", line)
            return line
        }
        function end() {
            if (wrong != "") { failed++; print "failed: " table ", " way ", " name wrong }
            else if (name != "") passed++
            wrong = ""
        }
        BEGIN {
            is_board = table ~ /^board/
            is_open = way ~ /_open$/
            is_taken = way ~ /^take/
            while ((getline line < table) > 0) {
                if (line ~ /^== /) {
                    if (is_taken) is_to_be(is_dropped ? "" : "pieces: lawful")
                    name = substr(line, 4)
                    is_full = 0
                    is_dropped = !is_taken
                }
                is_to_be(expected(line))
            }
            if (is_taken) is_to_be(is_dropped ? "" : "pieces: lawful")
            name = ""
        }
        {
            if (case_of[NR] != name) { end(); name = case_of[NR] }
            is_wrong = want[NR] != "" && $0 != want[NR] || is_board && /: .*journal full/
            if (NR > lines || is_wrong) wrong = wrong "\n    " $0 "\n    where there is to be\n    " want[NR]
        }
        END {
            if (NR < lines) wrong = wrong "\n    nothing more, where there is to be\n    " want[NR + 1]
            end()
            print passed + 0, failed + 0
        }
    '
}

# same NAME ONE OTHER: tells whether two runs wrote the same.
same() {
    if difference=$(diff "$2" "$3"); then
        echo "1 0"
    else
        echo "failed: $1"
        echo "$difference" | head -n 10
        echo "0 1"
    fi
}

# random SEED: a table of random calls, performed in each way.
random() {
    awk -v seed="$1" -f ../models/calls.awk -f ../models/some_calls.awk > "$work/strewn"
    grep -v -x 'cut\|take\|cut_open\|take_open' "$work/strewn" > "$work/plain"
    "$program" < "$work/strewn" > "$work/told"
    grep -v '^\(cut\|take\|cut_open\|take_open\): ' "$work/told" > "$work/with"
    "$program" < "$work/plain" > "$work/without"
    same "random calls $1: with cuts strewn in, and without" "$work/with" "$work/without"
    # The comparison says something only where cuts were made, and refused.
    for word in 'cut: done' 'cut: busy' 'cut_open: done' 'take: took [1-9]' 'take: busy' 'take_open: took [1-9]' \
        'pieces: lawful' 'waits' 'stalled' 'got [1-9]'; do
        grep -q "$word" "$work/told" || { echo "failed: random calls $1: no line tells $word"; echo "0 1"; }
    done
    # What a line tells where a call isn't as it is to be.
    awk -v seed="$1" '
        /, (not|was|another|counted) / { print "failed: random calls " seed ": " $0; print "0 1" }
    ' "$work/told"
    grep -v '^pieces: ' "$work/without" > "$work/looks"
    for way in cut take cut_open take_open; do
        "$program" "$way" < "$work/plain" > "$work/told"
        grep -v '^pieces: ' "$work/told" > "$work/with"
        same "random calls $1: with each line's $way, and without" "$work/with" "$work/looks"
    done
    # What the last way handed over.
    grep '^pieces: ' "$work/told" | sort -u > "$work/with"
    echo "pieces: lawful" > "$work/lawful"
    same "random calls $1: what was handed over" "$work/with" "$work/lawful"
}

{
    for way in cut take cut_open take_open; do
        for table in board/*.rows floors/*.rows halls/*.rows; do
            case $table in
                */living.rows) ;;
                *) compare "$way" "$table" ;;
            esac
        done
    done
    for seed in 1 2 3 4 5; do
        random "$seed"
    done
} > "$work/compared"
add_counts "$work/compared"
count
