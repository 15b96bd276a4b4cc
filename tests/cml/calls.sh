#!/bin/sh
# The tables of calls on a board, a floor and a hall, performed by the built program: `sh tests/cml/calls.sh PROGRAM`. The
# program writes each line again with its outcome, so its output must be the table. A case begins with a line
# `== its name`. Then the tables are performed with texts for messages, the digits of their numbers: each outcome must be
# the same. Left out are the tables on a message whose share always fails and on how many messages live.
# The last line is `N passed, M failed`.
top=$(cd "$(dirname "$0")/../.." && pwd) || exit 1
. "$top/tests/lib/cases.sh"
program=$(absolute "$1")
cd "$top/tests/tables" || exit 1

# compare TABLE WORDS..: compares the program's output with these words and the table, case by case. The program writes a
# text in quotes.
compare() {
    table=$1
    shift
    "$program" "$@" < "$table" | tr -d '"' | awk -v table="$table" -v words="$*" '
        function end() {
            if (name == "") return
            if (wrong == "") passed++
            else { failed++; print "failed: " table ", " name (words == "" ? "" : ", " words) wrong }
            name = wrong = ""
        }
        {
            told = (getline want < table) > 0 ? want : "nothing"
            if (told ~ /^== /) { end(); name = substr(told, 4) }
            if ($0 != told) wrong = wrong "\n    " $0 "\n    where the table has\n    " told
        }
        END {
            if ((getline want < table) > 0) wrong = wrong "\n    nothing more, where the table has\n    " want
            end()
            print passed + 0, failed + 0
        }
    '
}

for table in board/*.rows floors/*.rows halls/*.rows; do
    compare "$table"
    case $table in
        */fussy.rows | */living.rows) ;;
        *) compare "$table" texts ;;
    esac
done > "$work/compared"
add_counts "$work/compared"
count
