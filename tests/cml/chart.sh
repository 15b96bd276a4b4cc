#!/bin/sh
# The built program that draws charts, from outside: `sh tests/cml/chart.sh PROGRAM`. Each example's report gives with its script
# the chart beside it, and some give the SVG beside them, byte for byte; then rows that are chosen, wrong words, texts that are no
# reports, or none of the script, scripts with faults, the next steps of threads, a long report and one of too many bytes, texts
# with bytes that XML has a meaning for, journals beside the report that a plain program tells them by, and streams that fail. If
# python3 is there, a real XML reader reads each SVG. The last line is `N passed, M failed`.
LC_ALL=C
export LC_ALL
top=$(cd "$(dirname "$0")/../.." && pwd) || exit 1
. "$top/tests/lib/cases.sh"
program=$(absolute "$1")
cd "$top" || exit 1

# left_out SHOWN ALL BEFORE: what a chart says if it shows this many of all rows, after those that come before them.
left_out() { echo "$1 of $2 rows, after row $3"; }

# well_formed CASE: the last run's output is XML, and its texts, one a line, are in $work/texts; without python3 nothing is tried.
well_formed() {
    command -v python3 > /dev/null 2>&1 || return 0
    if python3 -c '
import sys, xml.etree.ElementTree as tree
root = tree.parse(sys.argv[1]).getroot()
columns = {line.get("x1") for line in root.iter("{http://www.w3.org/2000/svg}line") if line.get("class") == "life"}
for line in root.iter("{http://www.w3.org/2000/svg}line"):
    assert line.get("x1") in columns and line.get("x2") in columns, "an arrow ends beside the lines"
for text in root.iter("{http://www.w3.org/2000/svg}text"):
    print(text.text or "")
' "$work/out" > "$work/texts" 2> "$work/err"; then
        pass
    else
        fail "$1: no XML: $(tail -n 1 "$work/err")"
    fi
}

examples() {
    for report in examples/scripts/*.report; do
        name=${report%.report}
        run --text --script "$name.cml" < "$report"
        if [ "$status" = 0 ] && cmp -s "$work/out" "$name.chart"; then pass; else fail "$name.chart"; fi
        run --script "$name.cml" < "$report"
        expect "$name as SVG" 0 some none
        if [ -f "$name.svg" ]; then
            if cmp -s "$work/out" "$name.svg"; then pass; else fail "$name.svg"; fi
        fi
        well_formed "$name"
    done
}

# fault CASE LINES FAULT: these lines are no report.
fault() {
    script "$2" > "$work/in"
    run < "$work/in"
    expect "$1" 2 none "report: $3"
}

faults() {
    run < /dev/null
    expect "an empty file" 2 none "report: line 1: no end line"
    head -c 100 examples/scripts/philosophers.report > "$work/in"
    run < "$work/in"
    expect "a report that is cut within a line" 2 none "report: line 5: no line end"
    head -n 7 examples/scripts/philosophers.report > "$work/in"
    run < "$work/in"
    expect "a report that is cut between lines" 2 none "report: line 8: no end line"
    sed 5d examples/scripts/philosophers.report > "$work/in"
    run < "$work/in"
    expect "a report that lacks a line" 2 none "report: line 47: no line of a report"
    printf 'A\tsend m 5: done\n' > "$work/in"
    run < "$work/in"
    expect "a tab" 2 none "report: line 1: bad bytes"
    fault "a script" "cml 1 / mailbox m" "line 1: no line of a report"
    fault "no reply" "A send m 5: / end: done 1" "line 1: no line of a report"
    fault "a reply of another step" "A send m 5: none / mailbox m: sent 1 got 0 waits 1 / end: done 1" "line 1: no line of a report"
    fault "a lane that receives" "lane 0 recv m: 5 / mailbox m: sent 0 got 1 waits 0 / end: done 1" "line 1: no line of a report"
    fault "a message that is no number" "A recv m: five / mailbox m: sent 1 got 1 waits 0 / end: done 1" "line 1: no line of a report"
    fault "two spaces" "A send m  5: done / mailbox m: sent 1 got 0 waits 1 / end: done 1" "line 1: no line of a report"
    fault "an object's line with too few numbers" "mailbox m: sent 1 got 1 / end: done 0" "line 1: no line of a report"
    fault "another count" "A send m 5: done / mailbox m: sent 1 got 0 waits 1 / end: done 2" "line 3: no line of a report"
    fault "an act after an object" "mailbox m: sent 1 got 0 waits 1 / A send m 5: done / end: done 1" "line 2: out of place"
    fault "a line after the end" "end: done 0 / end: done 0" "line 2: out of place"
    fault "an object that the second part lacks" "A send m 5: done / A send n 5: done / mailbox m: sent 1 got 0 waits 1 / end: done 2" "line 2: unknown name"
    fault "a thread in an object's place" "A send m 5: done / A send A 5: done / mailbox m: sent 1 got 0 waits 1 / end: done 2" "line 2: unknown name"
    fault "two objects of one name" "mailbox m: sent 0 got 0 waits 0 / ivar m: empty / end: done 0" "line 2: name taken"
    fault "an object with a thread's name" "m send m 5: done / mailbox m: sent 1 got 0 waits 1 / end: done 1" "line 2: name taken"
}

# stands CASE SCRIPT REPORT LINES: with the script the report's chart has these lines of the threads' next steps.
stands() {
    script "$2" > "$work/script"
    script "$3" > "$work/in"
    run --text --script "$work/script" < "$work/in"
    grep -E '^[A-Za-z]+ (waits|next): ' "$work/out" > "$work/stands"
    script "$4" | sed '/^$/d' > "$work/want"
    if [ "$status" = 0 ] && cmp -s "$work/stands" "$work/want"; then pass; else fail "$1: $(cat "$work/stands" "$work/err")"; fi
    run --script "$work/script" < "$work/in"
    expect "$1 as SVG" 0 some none
    well_formed "$1"
}

# strange CASE SCRIPT REPORT FAULT: the report is none of the script.
strange() {
    script "$2" > "$work/script"
    script "$3" > "$work/in"
    run --script "$work/script" < "$work/in"
    expect "$1" 2 none "report: $4"
}

# A script with a lane and a feed, in which B waits at its end, and what its reports have in common.
ringed='cml 1 / mailbox m / channel c / thread A / thread B / lane A m 2 / feed B f c 1 / A send m 1 / A multicast c 2 / A send m 3 / B poll f / B recv m / B recv m / B recv m'
ringed_rest='lane 0 send m 3: done / B recv m: 1 / B recv m: 3 / mailbox m: sent 2 got 2 waits 0 / channel c: sent 1 kept 0 first 1 / feed f: start 0 got 1 owed 0 taken 1'

scripts() {
    pair='cml 1 / mailbox m / mailbox n / thread A / thread B / A send m 5 / A recv n / B recv m / B recv m / B send n 6'
    rest='mailbox m: sent 1 got 1 waits 0 / mailbox n: sent 0 got 0 waits 0'
    stands "a stall" "$pair" "A send m 5: done / B recv m: 5 / $rest / end: stalled 2 left 3" "A waits: recv n / B waits: recv m"
    stands "a thread with no row" "$pair" "A send m 5: done / mailbox m: sent 1 got 0 waits 1 / mailbox n: sent 0 got 0 waits 0 / end: full 1 left 4" "A next: recv n / B next: recv m"
    stands "a thread that is done" "cml 1 / mailbox m / thread A / thread B / A send m 5 / B recv m / B recv m" "A send m 5: done / B recv m: 5 / mailbox m: sent 1 got 1 waits 0 / end: stalled 2 left 1" "B waits: recv m"
    stands "threads that are all done" "cml 2 / mailbox m / thread A / A send m five / A recv m" "A send m five: done / A recv m: =five / mailbox m: sent 1 got 1 waits 0 / end: done 2" ""
    stands "steps by a lane and a feed" "$ringed" "lane 0 send m 1: done / A multicast c 2: done / feed 0 recv f: 2 / $ringed_rest / end: stalled 6 left 1" "B waits: recv m"
    stands "a port that a step makes" "cml 1 / channel c / thread A / A port c p / A copy p q / A recv p" "A port c p: made / A copy p q: made / channel c: sent 0 kept 0 first 0 / port p: start 0 got 0 owed 0 / port q: start 0 got 0 owed 0 / end: stalled 2 left 1" "A waits: recv p"
    script "$pair" > "$work/script"
    script "A send m 5: done / B recv m: 5 / $rest / end: stalled 2 left 3" > "$work/in"
    run --text --to 1 --script "$work/script" < "$work/in"
    if [ "$status" = 0 ] && [ "$(grep -c ' waits: ' "$work/out")" = 2 ]; then pass; else fail "a stall with some rows"; fi
    strange "a step that is not the next" "$pair" "A recv n: 5 / $rest / end: stalled 1 left 4" "line 1: not of this script"
    strange "another message" "$pair" "A send m 6: done / $rest / end: stalled 1 left 4" "line 1: not of this script"
    strange "a step too many" "$pair" "A send m 5: done / A recv n: 6 / A send m 5: done / $rest / end: done 3" "line 3: not of this script"
    strange "a thread that is not there" "$pair" "A send m 5: done / C recv m: 5 / $rest / end: stalled 2 left 3" "line 2: not of this script"
    strange "an object that is not there" "$pair" "A send m 5: done / $rest / mailbox o: sent 0 got 0 waits 0 / end: stalled 1 left 4" "line 4: not of this script"
    strange "an object that is left out" "$pair" "A send m 5: done / mailbox m: sent 1 got 0 waits 1 / end: stalled 1 left 4" "line 3: not of this script"
    strange "objects in another order" "$pair" "mailbox n: sent 0 got 0 waits 0 / mailbox m: sent 0 got 0 waits 0 / end: stalled 0 left 5" "line 1: not of this script"
    strange "an object of another kind" "$pair" "mailbox m: sent 0 got 0 waits 0 / ivar n: empty / end: stalled 0 left 5" "line 2: not of this script"
    strange "a row of a step that goes by a lane" "$ringed" "A send m 1: done / $ringed_rest / end: stalled 4 left 1" "line 1: not of this script"
    strange "a lane to another object" "$ringed" "lane 0 multicast c 2: done / $ringed_rest / end: stalled 4 left 1" "line 1: not of this script"
    strange "a feed of another number" "$ringed" "feed 1 recv f: 2 / $ringed_rest / end: stalled 4 left 1" "line 1: not of this script"
    strange "a lane in a script that has none" "$pair" "lane 0 send m 5: done / $rest / end: stalled 1 left 4" "line 1: not of this script"
    run --script examples/scripts/swap.cml < examples/scripts/stalled.report
    expect "a report of another example" 2 none "report: line 1: not of this script"
    script "cml 1 / mailbox m / mailbox m" > "$work/script"
    run --script "$work/script" < examples/scripts/stalled.report
    expect "a script with a fault" 2 none "script: line 3: name taken"
    : > "$work/script"
    run --script "$work/script" < examples/scripts/stalled.report
    expect "an empty script" 2 none "script: line 1: bad header"
    run --script "$work/nothing" < examples/scripts/stalled.report
    expect "a script that is not there" 4 none "cml_chart: script read failed"
    run --script . < examples/scripts/stalled.report
    expect "a folder for a script" 4 none "cml_chart: script read failed"
    run --script examples/scripts/stalled.cml < /dev/null
    expect "an empty file with a script" 2 none "report: line 1: no end line"
    run --script
    expect "no name of a script" 3 none some
}

# marked CASE MESSAGE COUNT: in the last chart the row that multicasts this message has this many marks.
marked() {
    if [ "$(grep " multicast $2\$" "$work/out" | tr -cd '*' | wc -c)" -eq "$3" ]; then pass; else fail "$1"; fi
}

marks() {
    made="A port c p: made / A port d q: made / A copy p r: made / A multicast c 5: done / B multicast d 6: done / A close p: done / lane 0 multicast c 7: done / A copy p s: closed / A multicast c 8: done / A send c 9: done"
    script "$made / channel c: sent 3 kept 1 first 2 / channel d: sent 1 kept 0 first 1 / port p: start 0 got 0 closed / port q: start 0 got 1 owed 0 / port r: start 0 got 1 owed 2 / port s: not made / end: done 10" > "$work/in"
    run --text < "$work/in"
    marked "a port and its copy" 5 2
    marked "a port of another channel" 6 1
    marked "a port that was closed" 7 1
    marked "a copy of a closed port" 8 1
    if ! grep ' send 9$' "$work/out" | grep -q '\*'; then pass; else fail "a row that doesn't multicast"; fi
    run --text --from 7 < "$work/in"
    marked "a port that was closed before the first row that is drawn" 7 1
    run < "$work/in"
    if [ "$(grep -c "^<line class='told'" "$work/out")" -eq 5 ]; then pass; else fail "marks as SVG"; fi
    well_formed "marks as SVG"
    script "cml 1 / channel c / port c p / thread A / feed A f c 1 / A multicast c 5" > "$work/script"
    script "A multicast c 5: done / channel c: sent 1 kept 1 first 0 / port p: start 0 got 0 owed 1 / feed f: start 0 got 0 owed 1 taken 0 / end: done 1" > "$work/in"
    run --text --script "$work/script" < "$work/in"
    marked "a declared port and a feed" 5 2
    run --text < "$work/in"
    marked "declared ports without their script" 5 0
}

words() {
    run --frob < /dev/null
    expect "an unknown word" 3 none some
    run --from 0 < /dev/null
    expect "a first row of zero" 3 none some
    run --to x < /dev/null
    expect "no number" 3 none some
    run --text --text < /dev/null
    expect "a word that is said twice" 3 none some
    run --help < /dev/null
    expect "help" 0 some none
    run --text --from 2 --to 3 < examples/scripts/hello_mailbox.report
    { sed -n '1,2p;4,5p' examples/scripts/hello_mailbox.chart; left_out 2 5 1; sed -n '8,$p' examples/scripts/hello_mailbox.chart; } > "$work/want"
    if cmp -s "$work/out" "$work/want"; then pass; else fail "from the second row to the third"; fi
    run --text --from 7 < examples/scripts/hello_mailbox.report
    expect "rows that are not there" 0 some none
}

# A report of this many steps.
long_report() {
    awk -v n="$1" 'BEGIN {
        for (i = 1; i <= n; i++) print "thread" i % 64 " send letters " i ": done"
        print "mailbox letters: sent " n " got 0 waits " n
        print "end: done " n
    }'
}

sizes() {
    long_report 60000 > "$work/in"
    run --text < "$work/in"
    if [ "$status" = 0 ] && [ "$(grep -c ' send ' "$work/out")" = 500 ] && grep -qx "$(left_out 500 60000 0)" "$work/out"; then
        pass
    else
        fail "500 rows of a long report"
    fi
    run --text --to 60000 < "$work/in"
    if [ "$status" = 0 ] && [ "$(grep -c ' send ' "$work/out")" = 60000 ]; then pass; else fail "a long report"; fi
    run --from 59000 --to 60000 < "$work/in"
    expect "the end of a long report" 0 some none
    well_formed "the end of a long report"
    head -c 33554433 /dev/zero | tr '\0' a > "$work/in"
    run < "$work/in"
    expect "a byte too many" 2 none "report: too long"
}

# What XML has a meaning for, in messages of version 2.
texts() {
    script "A send m <b>&amp;\"': done / A recv m: =<b>&amp;\"' / mailbox m: sent 1 got 1 waits 0 / mvar v: full =]]> / end: done 2" > "$work/in"
    run < "$work/in"
    expect "bytes that XML has a meaning for" 0 some none
    well_formed "bytes that XML has a meaning for"
    if command -v python3 > /dev/null 2>&1; then
        if grep -qxF "send <b>&amp;\"'" "$work/texts" && grep -qxF " full =]]>" "$work/texts"; then pass; else fail "texts that are told exactly"; fi
    fi
    run --text < "$work/in"
    if grep -qF "send <b>&amp;\"'" "$work/out"; then pass; else fail "texts as they stand"; fi
}

# drawn_as_told CASE FILE: of the journal in a file the program draws what it draws of the report that the model tells it by.
drawn_as_told() {
    awk -v journal="$2" -f tests/models/calls.awk -f tests/models/journal_judge.awk -f tests/models/journal_report.awk > "$work/told"
    run --text --to 100000 < "$work/told"
    expect "$1, as the model tells it" 0 some none
    mv "$work/out" "$work/want"
    run --text --to 100000 < "$2"
    if [ "$status" = 0 ] && cmp -s "$work/out" "$work/want"; then pass; else fail "$1: $(cat "$work/err")"; fi
}

# no_journal CASE LINES STATUS ERR: these lines begin as a journal does, and are none that is drawn.
no_journal() {
    script "$2" > "$work/in"
    run < "$work/in"
    expect "$1" "$3" none "$4"
}

journals() {
    for journal in examples/scripts/*.journal; do
        drawn_as_told "$journal" "$journal"
    done
    for seed in 1 2 3 4 5 6 7 8 9 10 11 12 13 14 15 16 17 18 19 20; do
        awk -v seed=$seed -v count=60 -f tests/models/calls.awk -f tests/models/journal_judge.awk -f tests/models/some_journals.awk > "$work/journal"
        drawn_as_told "random journal $seed" "$work/journal"
    done
    { printf 'journal 2\nseat 0 mailbox: made 0\nseat 0 send 0 ='; head -c 100000 /dev/zero | tr '\0' a; printf ': done\nseat 1 recv 0: ='
        head -c 100000 /dev/zero | tr '\0' a; printf '\nseat 1 send 0 =: done\nend 4\n'; } > "$work/journal"
    drawn_as_told "a long message, and an empty one" "$work/journal"
    ringed_journal='journal 1 / seat 0 mailbox: made 0 / seat 0 channel: made 1 / feed 0 port 1: made 2 / lane 0 send 0 5: done / lane 1 multicast 1 6: done / feed 0 recv 2: 6 / seat 3 recv 0: 5 / end 7'
    script "$ringed_journal" > "$work/journal"
    drawn_as_told "lanes and a feed" "$work/journal"
    if head -n 1 "$work/out" | grep -q '^seat3 *lane 0 *lane 1 *feed 0 *mailbox0 *channel1 *port2 '; then pass; else fail "columns of lanes and a feed"; fi
    run < "$work/journal"
    expect "a journal as SVG" 0 some none
    well_formed "a journal as SVG"
    script "journal 3 / seat 0 mailbox: made 0" > "$work/journal"
    sum=$(sha256sum < "$work/journal")
    echo "end 1 ${sum%% *}" >> "$work/journal"
    drawn_as_told "a sealed journal" "$work/journal"
    sed 's/seat 0/seat 1/' "$work/journal" > "$work/in"
    run < "$work/in"
    expect "a sealed journal that was changed" 2 none "journal: line 3: wrong sum"
    no_journal "an unlawful journal" "journal 1 / seat 0 mailbox: made 0 / seat 0 send 0 5: done / seat 0 recv 0: 6 / end 3" 7 "journal: not lawful at 2"
    no_journal "a call that would wait" "journal 1 / seat 0 mailbox: made 0 / seat 0 recv 0: 6 / end 2" 7 "journal: not lawful at 1"
    no_journal "an object that is not there" "journal 1 / seat 0 send 0 5: done / end 1" 7 "journal: not lawful at 0"
    no_journal "a journal with a fault" "journal 1 / seat 0 mailbox: made 0 / seat 0 sent 0 5: done / end 2" 2 "journal: line 3: unknown word"
    no_journal "a journal without an end" "journal 2 / seat 0 mailbox: made 0" 2 "journal: open after line 2"
    no_journal "a journal that begins after a cut" "journal 1 / from 5 / end 5" 2 "journal: line 2: gap"
    no_journal "a journal of another version" "journal 5 / end 0" 2 "report: line 1: no line of a report"
    script "journal 1 / end 0" > "$work/in"
    run < "$work/in"
    expect "a journal of nothing" 0 some none
    run --script examples/scripts/swap.cml < examples/scripts/swap.journal
    expect "a journal with a script" 2 none "report: line 1: not of this script"
}

streams() {
    run < .
    expect "a folder for input" 4 none "cml_chart: read failed"
    if [ -w /dev/full ]; then
        bounded "$program" < examples/scripts/swap.report > /dev/full 2> "$work/err"
        status=$?
        : > "$work/out"
        expect "no room for output" 4 none "cml_chart: write failed"
    fi
    long_report 60000 > "$work/in"
    { bounded "$program" --text --to 60000 < "$work/in" 2> "$work/err"; echo $? > "$work/status"; } | head -n 1 > "$work/out"
    case $(cat "$work/status") in
        4 | 141) pass ;;
        *) fail "a pipe that is closed: status $(cat "$work/status")" ;;
    esac
}

examples
faults
scripts
marks
words
sizes
texts
journals
streams
count
