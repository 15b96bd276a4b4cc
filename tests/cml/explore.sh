#!/bin/sh
# `cml explore` from outside: `sh tests/cml/explore.sh CML`. The endings of examples and of random small scripts are those that the
# second program tests/models/endings.py finds. Each ending's journal is lawful. What replays and runs report is among the endings.
# Then the sample in docs/EXPLORE.md, the limit, the journal alone, bad scripts, failed reads and writes, and memory. With the word
# `few` it tries fewer scripts and runs, and leaves out what takes longest. What needs `python3` is left out where there is none.
# The last line is `N passed, M failed`.
LC_ALL=C
export LC_ALL
top=$(cd "$(dirname "$0")/../.." && pwd) || exit 1
. "$top/tests/lib/cases.sh"
program=$(absolute "$1")
few=$2
cd "$top" || exit 1
. tests/lib/tables.sh

# What is explored of the examples. Of the others the states are more than the second program finds in seconds, or there are rings.
small_examples() {
    for example in examples/scripts/*.cml; do
        case $example in
            */crowd.cml | */philosophers.cml | */philosophers_without_stall.cml) ;;
            *) grep -q '^\(lane\|feed\) ' "$example" || echo "$example" ;;
        esac
    done
}

# endings_in FILE: the endings that an exploration wrote, each as one line, as the second program writes them; and how many states.
# SCRIPT tells on which line each thread waits.
endings_in() {
    awk '
        function finish() { if (kind != "") print kind waits objects; kind = "" }
        FNR == NR { if (!/^#/ && $0 != "" && FNR > 1) { count[$1]++; line_of[$1, count[$1]] = FNR } ; next }
        /^ending [0-9]+: / { finish(); kind = $3; waits = objects = ""; split("", made); in_journal = 0; next }
        /^journal [0-9]+$/ { in_journal = 1; next }
        in_journal && /^end [0-9]+$/ { in_journal = 0; next }
        in_journal { next }
        /^[A-Za-z][A-Za-z0-9_]* waits: / { waiting[$1]; order[++last] = $1; next }
        /^end: / || (/^(mailbox|channel|port|ivar|mvar) / && /: (sent|start|full|empty|not made)/) {
            if (objects == "" && last > 0) {
                for (i = 1; i <= last; i++) waits = waits " / " order[i] " " line_of[order[i], made[order[i]] + 1]
                last = 0
            }
            objects = objects " / " $0
            next
        }
        /^(not )?all: endings / { finish(); all = $0; next }
        { made[$1]++ }
        END { finish() }
    ' "$1" "$2" | sort
    sed -n 's/^all: endings [0-9]* states /states /p' "$2"
}

# agrees CASE SCRIPT: the endings and the number of states are those of the second program.
agrees() {
    bounded python3 tests/models/endings.py 20000 < "$2" > "$work/wanted"
    if grep -q '^too many$' "$work/wanted"; then
        too_many=$((too_many + 1))
        return
    fi
    bounded "$program" explore < "$2" > "$work/explored" 2> "$work/err"
    endings_in "$2" "$work/explored" > "$work/got"
    if cmp -s "$work/wanted" "$work/got" && [ ! -s "$work/err" ]; then
        pass
    else
        fail "$1: its endings are others; errors $(head -c 300 "$work/err")"
        diff "$work/wanted" "$work/got" | head -10
    fi
}

# journals_agree CASE SCRIPT: each journal of the last exploration is lawful.
journals_agree() {
    endings=$(grep -c '^ending [0-9]*: ' "$work/explored")
    number=1
    while [ "$number" -le "$endings" ]; do
        # shellcheck disable=SC2016
        awk -v number="$number" '/^ending [0-9]+: / { now = $2 + 0 } now == number && /^journal [0-9]+$/ { inside = 1 }
            inside { print } inside && /^end [0-9]+$/ { inside = 0 }' "$work/explored" > "$work/journal"
        if "$program" check < "$work/journal" | grep -q '^lawful '; then
            pass
        else
            fail "$1: the journal of ending $number is not lawful"
        fi
        number=$((number + 1))
    done
    alone "$1" "$2"
}

# alone CASE SCRIPT: if it is asked for, the journal of the first ending that isn't done is written alone, or that of the first
# ending.
alone() {
    awk '/^ending [0-9]+: / { wanted = $2 == "1:" || ($3 != "done" && !bad); if ($3 != "done") bad = 1; if (wanted) text = "" }
        wanted && /^journal [0-9]+$/ { inside = 1 }
        inside { text = text $0 "\n" }
        inside && /^end [0-9]+$/ { inside = 0 }
        END { printf "%s", text }' "$work/explored" > "$work/journal"
    run explore --journal < "$2"
    if cmp -s "$work/journal" "$work/out" && [ ! -s "$work/err" ]; then
        pass
    else
        fail "$1: a journal alone: status $status, errors $(head -c 300 "$work/err")"
    fi
}

with_second_program() {
    has python3 'the second program' || return
    too_many=0
    for example in $(small_examples); do
        agrees "$example" "$example"
        journals_agree "$example" "$example"
    done
    [ "$too_many" -eq 0 ] || fail "$too_many examples have too many states"
    random
}

# Random scripts, small enough for the second program.
random() {
    [ -n "$few" ] && count=60 || count=300
    awk -v scripts="$count" -v one_in=0 -f tests/models/calls.awk -f tests/models/some_scripts.awk > "$work/texts"
    number=0
    compared=0
    while IFS= read -r bytes; do
        number=$((number + 1))
        # The first number is a limit of a replay.
        echo "${bytes#* }" | awk '{ for (i = 1; i <= NF; i++) printf "%c", $i }' > "$work/script.cml"
        "$program" replay < "$work/script.cml" > "$work/replayed" 2> /dev/null || [ -s "$work/replayed" ] || continue
        compared=$((compared + 1))
        agrees "random script $number" "$work/script.cml"
        [ $((compared % 10)) -ne 0 ] || journals_agree "random script $number" "$work/script.cml"
    done < "$work/texts"
    echo "random scripts: $compared compared, $too_many with too many states"
    [ "$compared" -gt $((count / 4)) ] && pass || fail "only $compared random scripts have no fault"
}

# after_steps FILE: a report without the lines of the steps.
after_steps() { awk '/^end: / || (/^(mailbox|channel|port|ivar|mvar) / && (/: (sent|start|full|empty|not made)/))' "$1"; }

# is_among REPORT: whether what a report says after its steps is what an ending of the last exploration says.
is_among() {
    after_steps "$1" > "$work/wanted"
    awk -v wanted="$(cat "$work/wanted")" '
        /^ending [0-9]+: / { text = ""; next }
        /^journal [0-9]+$/ { if (text == wanted) found = 1; text = "" ; next }
        /^end: / || (/^(mailbox|channel|port|ivar|mvar) / && /: (sent|start|full|empty|not made)/) { text = text (text == "" ? "" : "\n") $0 }
        END { exit !found }
    ' "$work/explored"
}

# What one replay and many runs report is among the endings.
runs_are_among() {
    [ -n "$few" ] && most=5 || most=20
    for example in $(small_examples); do
        bounded "$program" explore < "$example" > "$work/explored" 2> /dev/null
        "$program" replay < "$example" > "$work/report"
        if is_among "$work/report"; then pass; else fail "$example: its replay is no ending"; fi
        number=0
        while [ "$number" -lt "$most" ]; do
            bounded "$program" run < "$example" > "$work/report"
            if is_among "$work/report"; then pass; else fail "$example: a run is no ending"; fi
            number=$((number + 1))
        done
    done
}

# ends CASE STATUS OUT ERR LINES WORD..: how an exploration of a script with these words ends.
ends() {
    name=$1 wanted=$2 out=$3 err=$4
    script "$5" > "$work/in"
    shift 5
    run explore "$@" < "$work/in"
    expect "$name" "$wanted" "$out" "$err"
}

two='cml 1 / mailbox m / thread A / thread B / A send m 1 / B poll m'

by_hand() {
    ends 'no threads' 0 "$(printf 'ending 1: done\nmailbox m: sent 0 got 0 waits 0\nend: done 0\njournal 1\nseat 0 mailbox: made 0\nend 1\nall: endings 1 states 1')" \
        none 'cml 1 / mailbox m'
    ends 'nothing' 0 "$(printf 'ending 1: done\nend: done 0\njournal 1\nend 0\nall: endings 1 states 1')" none 'cml 1'
    ends 'a thread that waits' 1 "$(printf 'ending 1: stalled\nA waits: recv m\nmailbox m: sent 0 got 0 waits 0\nend: stalled 0 left 1
journal 1\nseat 0 mailbox: made 0\nend 1\nall: endings 1 states 1')" none 'cml 1 / mailbox m / thread A / A recv m'
    ends 'two orders' 0 "$(printf 'ending 1: done\nA send m 1: done\nB poll m: 1\nmailbox m: sent 1 got 1 waits 0\nend: done 2
journal 1\nseat 0 mailbox: made 0\nseat 1 send 0 1: done\nseat 2 poll 0: 1\nend 3
ending 2: done\nB poll m: none\nA send m 1: done\nmailbox m: sent 1 got 0 waits 1\nend: done 2
journal 1\nseat 0 mailbox: made 0\nseat 2 poll 0: none\nseat 1 send 0 1: done\nend 3
all: endings 2 states 5')" none "$two"
    ends 'texts' 0 "$(printf 'ending 1: done\nA send m =: done\nA recv m: ==\nmailbox m: sent 1 got 1 waits 0\nend: done 2
journal 2\nseat 0 mailbox: made 0\nseat 1 send 0 ==: done\nseat 1 recv 0: ==\nend 3\nall: endings 1 states 3')" none \
        'cml 2 / mailbox m / thread A / A send m = / A recv m'
}

limits() {
    ends 'as many states as the limit' 0 some none "$two" --states 5
    ends 'a state too many' 8 some 'cml: more than 4 states' "$two" --states 4
    if [ "$(tail -n 1 "$work/out")" = 'not all: endings 1 states 4' ] && [ "$(grep -c '^ending ' "$work/out")" = 1 ]; then
        pass
    else
        fail "a state too many: $(tail -n 1 "$work/out")"
    fi
    ends 'one state' 8 'not all: endings 0 states 1' 'cml: more than 1 states' "$two" --states 1
    ends 'one state, which is all' 0 some none 'cml 1 / thread A' --states 1
    ends 'the journal of the first, since all are done' 0 \
        "$(printf 'journal 1\nseat 0 mailbox: made 0\nseat 1 send 0 1: done\nseat 2 poll 0: 1\nend 3')" none "$two" --journal
    ends 'whether all are done is not found' 8 none 'cml: more than 3 states' "$two" --journal --states 3
    ends 'an ending that stalls' 1 "$(printf 'journal 1\nseat 0 mailbox: made 0\nend 1')" none \
        'cml 1 / mailbox m / thread A / A recv m' --states 1 --journal
    ends 'the second ending, which stalls' 1 \
        "$(printf 'journal 1\nseat 0 mailbox: made 0\nseat 1 send 0 1: done\nseat 2 poll 0: 1\nend 3')" none \
        'cml 1 / mailbox m / thread A / thread B / A send m 1 / A recv m / B poll m' --states=30 --journal
}

faults() {
    ends 'a fault' 2 none 'script: line 2: unknown line' 'cml 1 / letters m'
    ends 'a lane' 2 none 'script: line 4: needs run' 'cml 1 / mailbox m / thread A / lane A m 2 / A send m 1'
    ends 'a feed' 2 none 'script: line 4: needs run' 'cml 1 / channel c / thread A / feed A f c 1 / A poll f'
    run explore < /dev/null
    expect 'no input' 2 none 'script: line 1: bad header'
    head -c 1048577 /dev/zero | tr '\0' '\n' > "$work/in"
    run explore < "$work/in"
    expect 'an input that is too long' 2 none 'script: too long'
    run explore < .
    expect 'a folder for standard input' 4 none 'cml: read failed'
    script "$two" > "$work/in"
    for words in '' '--journal'; do
        # shellcheck disable=SC2086
        bounded "$program" explore $words < "$work/in" > /dev/full 2> "$work/err"
        status=$?
        : > "$work/out"
        expect "a full device, $words" 4 none 'cml: write failed'
    done
    bounded "$program" explore < "$work/in" 2> "$work/err" | :
    pass
}

# The sample in docs/EXPLORE.md is what the program writes.
sample() {
    awk '/^```text$/ { text = ""; inside = 1; next } /^```$/ { if (text ~ /^ending 1: /) printf "%s", text; inside = 0 } inside { text = text $0 "\n" }' \
        docs/EXPLORE.md > "$work/wanted"
    run explore < examples/scripts/three_philosophers.cml
    if [ "$status" = 1 ] && [ -s "$work/wanted" ] && cmp -s "$work/wanted" "$work/out" && [ ! -s "$work/err" ]; then
        pass
    else
        fail "docs/EXPLORE.md: the sample is another one; status $status"
        diff "$work/wanted" "$work/out" | head -10
    fi
}

# A journal that is full: one thread that polls 65,536 times, whose objects take one entry.
full() {
    awk 'BEGIN { print "cml 1\nmailbox m\nthread A"; for (i = 0; i < 65536; i++) print "A poll m" }' > "$work/in"
    run explore < "$work/in"
    sed -n '1p;2p' "$work/out" > "$work/front"
    tail -n 1 "$work/out" >> "$work/front"
    mv "$work/front" "$work/out"
    expect 'a full journal' 6 "$(printf 'ending 1: full\nA next: poll m\nall: endings 1 states 65536')" none
}

# Three threads with 32 steps each have 33 * 33 * 33 states, 35,937. They take less than 64 MB, where the shell can limit memory.
memory() {
    awk 'BEGIN { print "cml 1\nmailbox m\nthread A\nthread B\nthread C"
        for (i = 0; i < 32; i++) print "A poll m\nB poll m\nC poll m" }' > "$work/in"
    # shellcheck disable=SC3045
    (ulimit -v 65536 2> /dev/null; bounded "$program" explore --states 30000 < "$work/in" > "$work/out" 2> "$work/err")
    status=$?
    tail -n 1 "$work/out" > "$work/last" && mv "$work/last" "$work/out"
    expect '30,000 states in 64 MB' 8 'not all: endings 1 states 30000' 'cml: more than 30000 states'
}

by_hand
sample
limits
faults
with_second_program
runs_are_among
[ -n "$few" ] || full
[ -n "$few" ] || memory
count
