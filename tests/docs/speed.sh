#!/bin/sh
# What writes the page of figures: `sh tests/docs/speed.sh`. It times nothing. The page and the chart of a few invented figures are as
# they should be, and `tools/speed.sh` names what it lacks in one line. The last line is `N passed, M failed`.
top=$(cd "$(dirname "$0")/../.." && pwd) || exit 1
. "$top/tests/lib/cases.sh"
cd "$top" || exit 1
tables=tests/tables/speed
PYTHONDONTWRITEBYTECODE=1
export PYTHONDONTWRITEBYTECODE

writes_the_page() { python3 tools/speed/page.py "$tables/figures.txt" "$work/page"; }

# The tables of the page with figures, and the lines of the machine, without the words. kept.sh has one table of its own.
has_the_tables() {
    awk '/^## / { on = $0 != "## The workloads" && $0 != "## Kept in a file" } on && /^(\| |- [a-z]+: |Not measured)/' "$work/page/SPEED.md" |
        diff "$tables/tables.txt" -
}

# All figures, with the least and the most.
has_every_figure() { diff "$tables/every.tsv" "$work/page/speed.tsv"; }

# No brace of the page is left unfilled.
is_filled() { ! grep -n '[{}]' "$work/page/SPEED.md"; }

# A bar for each figure of a workload that has a program by hand.
has_the_bars() {
    python3 -c '
import sys, xml.dom.minidom
bars = xml.dom.minidom.parse(sys.argv[1]).getElementsByTagName("rect")
print("\n".join(bar.getAttribute("class") + " " + bar.getAttribute("width") for bar in bars))' "$work/page/speed.svg" |
        diff "$tables/bars.txt" -
}

# names WHAT WORD..: with these words the script measures nothing, and one line names what is missing.
names() {
    what=$1
    shift
    ! SERYUGO_PREFIX=/nowhere sh tools/speed.sh --into "$work/none" "$@" > "$work/told" 2>&1 && [ ! -e "$work/none" ] &&
        [ "$(wc -l < "$work/told")" -eq 1 ] && grep -qFe "$what" "$work/told"
}

if has python3 'the page of figures'; then
    check 'a page is written' writes_the_page
    check 'its tables' has_the_tables
    check 'all figures' has_every_figure
    check 'nothing of it is left out' is_filled
    check 'its chart' has_the_bars
fi
check 'no library' names 'bindings/install.sh PREFIX'
check 'no cml_bench' names '--bench PROGRAM' --bench /nowhere
check 'no cml' names '--cml PROGRAM' --cml /nowhere
check 'no earlier library' names 'the earlier library' --before /nowhere
check 'an unknown word' names 'not understood' --unknown word
check 'no rounds' names 'number of rounds' --rounds none
count
