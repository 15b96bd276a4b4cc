#!/bin/sh
# tests/stress/refused.sh GUIDE ROWS CML CHART: runs the built programs once for each allocation that they make, and lets that
# one fail. All except the guide run once more with all later ones failing too. Each run must end, whatever fails.
#
# The guide prints of each example what it prints with memory, or that there was no memory, or the result for another thread: a
# stall, or the same result without that thread's last entries. The tables of calls of tests/tables/board, tests/tables/floors and
# tests/tables/halls, what `cml` does with scripts and journals, and `cml_chart` with reports, are looked at by
# tests/lib/refuse_each.sh.
#
# It needs a C compiler for what refuses (`cc`, or CC); where there is none it tells that it was left out.
# The last line is `N passed, M failed`.
top=$(cd "$(dirname "$0")/../.." && pwd) || exit 1
. "$top/tests/lib/cases.sh"
guide=$(absolute "$1")
rows=$(absolute "$2")
cml=$(absolute "$3")
chart=$(absolute "$4")
cd "$top" || exit 1
expected=$(pwd)/crates/cml_guide/stdout
cc=${CC:-cc}
command -v "$cc" > /dev/null || leave_out 'refused memory' "$cc"
"$cc" -O1 -shared -fPIC -o "$work/refuse.so" tests/lib/refuse.c -ldl || exit 1

# other_than EXPECTED PRINTED: the first line that isn't what is printed with memory, nor tells what was refused or what that
# came to. A thread that was refused when all others needed of it was done leaves the same result with fewer entries.
other_than() {
    awk '
        function entries(line) { return match(line, /total: [0-9]+/) ? substr(line, RSTART + 7, RLENGTH - 7) + 0 : 0 }
        function result(line) { sub(/Count \{[^}]*\}/, "", line); return line }
        FNR == NR { wanted[$0] = 1; most[result($0)] = entries($0); next }
        $0 in wanted || /NoMemory|AllocError|Stalled/ { next }
        result($0) in most && entries($0) > 0 && entries($0) < most[result($0)] { next }
        { print; exit }
    ' "$1" "$2"
}

# The guide's examples, with each request refused.
guide_refused() {
    met=0
    number=1
    while [ "$number" -le 10000 ]; do
        rm -f "$work/told"
        bounded env TOLD="$work/told" REFUSE="$number" LD_PRELOAD="$work/refuse.so" "$guide" > "$work/printed" 2> "$work/errors"
        status=$?
        [ -e "$work/told" ] || break
        other=$(other_than "$expected" "$work/printed")
        if [ "$status" -ne 124 ] && [ -z "$other" ]; then
            pass
        else
            fail "the guide with request $number refused: status $status, $other"
        fi
        grep -q 'NoMemory\|AllocError' "$work/printed" && met=$((met + 1))
        number=$((number + 1))
    done
    echo "the guide: an example met the refusal in $met of $((number - 1)) runs"
    [ "$met" -gt 0 ] || fail 'no example of the guide met a refusal'
}

# A journal whose end is wrong.
printf '%s\n' 'journal 3' 'seat 0 mailbox: made 0' 'seat 0 send 0 5: done' 'end 1 x' > "$work/faulty.journal"

# Each step of the table of calls, with each reply that it may have.
awk -v part=script -f tests/models/calls.awk -f tests/models/each_call.awk | sed 's/: .*//' > "$work/each_call.cml"

# Each sweep's words, a line each. A few tables are performed with texts too. A text takes memory when it is
# made. The numbers of the other sweeps take memory for each share.
sweeps() {
    for table in board/mailboxes board/variables floors/feeds floors/lanes; do
        echo "texts once tests/tables/$table.rows $rows texts"
    done
    for how in once rest; do
        for table in tests/tables/board/*.rows tests/tables/floors/*.rows tests/tables/halls/*.rows; do
            echo "table $how $table $rows"
        done
        for script in examples/scripts/*.cml tests/tables/all_lines.cml "$work/each_call.cml"; do
            grep -q '^\(lane\|feed\) ' "$script" || echo "replay $how $script $cml replay"
            echo "run $how $script $cml run"
            echo "threads $how $script $cml run"
        done
        for name in chat_room three_philosophers ticker; do
            echo "chart $how examples/scripts/$name.report $chart --script examples/scripts/$name.cml"
        done
        echo "chart $how examples/scripts/hello_mailbox.report $chart --text"
        for name in greeting hello_mailbox; do
            echo "written $how examples/scripts/$name.cml $cml replay --journal"
            echo "explored $how examples/scripts/$name.cml $cml explore"
        done
        for name in letters requests; do
            echo "journal $how examples/scripts/$name.journal $cml check"
            echo "compact $how examples/scripts/$name.journal $cml compact"
        done
        echo "faulty $how $work/faulty.journal $cml check"
    done
}

# The sweeps side by side. Each has to meet as many refusals as tests/tables/refused.least says, and else one: or it tries less
# than it did. A table of a board meets exactly as many: or a call allocates more often than it did.
all_refused() {
    sweeps | xargs -P "$(nproc 2> /dev/null || echo 2)" -L 1 sh tests/lib/refuse_each.sh "$work" > "$work/told"
    awk '
        FNR == NR { least[$1 " " $2 " " $3] = $4; next }
        !/ met$/ { print; next }
        {
            passed += $(NF - 5)
            failed += $(NF - 3)
            met[$1] += $(NF - 1)
            runs[$1] += $(NF - 5) + $(NF - 3)
            name = $1 " " $2 " " substr($3, 1, length($3) - 1)
            seen[name] = 1
            wanted = name in least ? least[name] : 1
            is_other = name ~ /^table once .*board/ ? $(NF - 1) != wanted : $(NF - 1) < wanted
            if (is_other) { failed++; print "failed: refusals met, where there were " wanted ": " $0 }
        }
        END {
            for (name in least) if (!(name in seen)) { failed++; print "failed: not run: " name }
            for (kind in runs) print kind ": " runs[kind] " runs met " met[kind] " refusals"
            print passed + 0, failed + 0
        }
    ' tests/tables/refused.least "$work/told" > "$work/sums"
    add_counts "$work/sums"
}

# requests TABLE: how many requests the program makes to perform the table.
requests() {
    number=0
    rm -f "$work/told"
    until [ "$number" -gt 0 ] && [ ! -e "$work/told" ]; do
        rm -f "$work/told"
        number=$((number + 1))
        bounded env TOLD="$work/told" REFUSE="$number" LD_PRELOAD="$work/refuse.so" "$rows" < "$1" > "$work/printed" 2>&1
    done
    echo "$number"
}

# alike NUMBER OTHER CALLS: whether these calls make as many requests if a message is the one number in place of the other.
alike() {
    for number in "$1" "$2"; do
        script "== a swap / board: limit 100 / $3" | sed "s/MESSAGE/$number/" > "$work/swap.$number"
    done
    [ "$(requests "$work/swap.$1")" -eq "$(requests "$work/swap.$2")" ]
}

# To copy a message takes a request, but no request for 13, whose copy always fails.
waits_alike() { alike 12 13 'mvar: made 0 / swap 0 MESSAGE: waits'; }
swaps_otherwise() { ! alike 12 13 'mvar 5: made 0 / swap 0 MESSAGE: 5'; }

guide_refused
all_refused
check 'a swap that waits copies no message' waits_alike
check 'a swap that is answered copies one' swaps_otherwise
count
