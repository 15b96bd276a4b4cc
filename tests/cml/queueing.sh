#!/bin/sh
# The simulator from outside: `sh tests/cml/queueing.sh QUEUEING CML CHART`, or with `few` after these, which simulates fewer
# customers. QUEUEING, CML and CHART are the programs cml_queueing, cml and cml_chart. The mean wait of three loads has to be within
# 2 percent of what the formula of Erlang C gives, which awk computes here. Then the memory that a long run takes, the journal,
# which `cml check` has to find lawful, its customers in their order, the report and its chart, wrong words, and streams that fail.
# The last line is `N passed, M failed`.
LC_ALL=C
export LC_ALL
top=$(cd "$(dirname "$0")/../.." && pwd) || exit 1
. "$top/tests/lib/cases.sh"
program=$(absolute "$1")
cml=$(absolute "$2")
chart=$(absolute "$3")
few=$4
cd "$top" || exit 1

# figure NAME: this figure of the last run.
figure() { sed -n "s/^$1: //p" "$work/out"; }

# near CASE VALUE WANTED PERCENT: the value differs from what is wanted by at most this many percent.
near() {
    if awk -v value="$2" -v wanted="$3" -v percent="$4" 'BEGIN {
        off = (value - wanted) / wanted * 100
        exit value == "" || off > percent || off < -percent
    }'; then pass; else fail "$1: $2, and not within $4 percent of $3"; fi
}

# The mean wait in an M/M/c queue, in mean service times. The formula of Erlang B, which goes up from no server, gives that of
# Erlang C, the share of customers who wait.
erlang() {
    awk -v servers="$1" -v load="$2" 'BEGIN {
        offered = servers * load
        lost = 1
        for (k = 1; k <= servers; k++) lost = offered * lost / (k + offered * lost)
        waits = lost / (1 - load * (1 - lost))
        printf "%.9f\n", waits / (servers * (1 - load))
    }'
}

# simulated SERVERS LOAD RUNS CUSTOMERS PERCENT: over this many runs, with the seeds 1, 2 and so on, the mean wait is near the
# formula's, and the utilisation near the load.
simulated() {
    case="$1 servers at load $2"
    : > "$work/runs"
    seed=0
    while [ "$seed" -lt "$3" ]; do
        seed=$((seed + 1))
        run --servers "$1" --load "$2" --seed "$seed" --customers "$4"
        expect "$case and seed $seed" 0 some none
        if [ "$(figure served)" = "$4" ]; then pass; else fail "$case: served $(figure served) of $4"; fi
        echo "$(figure 'mean wait') $(figure utilisation)" >> "$work/runs"
    done
    near "the mean wait of $case" "$(mean_of 1)" "$(erlang "$1" "$2")" "$5"
    near "the utilisation of $case" "$(mean_of 2)" "$2" "$5"
}

# mean_of COLUMN: the mean of a column over the runs.
mean_of() { awk -v column="$1" '{ sum += $column } END { printf "%.9f\n", sum / NR }' "$work/runs"; }

# The standard error of the mean wait in one run of 1,000,000 customers is 0.6, 1.3 and 2.3 percent here (docs/QUEUEING.md). So over
# these runs 2 percent is three standard errors each.
loads() {
    if [ "$few" = few ]; then
        simulated 1 0.5 1 50000 10
        return
    fi
    simulated 1 0.5 1 1000000 2
    simulated 4 0.7 4 1000000 2
    simulated 16 0.8 12 1000000 2
}

# The same in rates: 2.8 arrivals and one service in a unit of time are a load of 0.7 on four servers.
rates() {
    run --servers 4 --load 0.7 --customers 5000
    cp "$work/out" "$work/by_load"
    run --servers 4 --arrivals 2.8 --service 1 --customers 5000
    same 'rates in place of a load' "$work/out" "$work/by_load"
    run --servers 4 --arrivals 8.4 --service 3.000000 --customers 5000
    same 'another unit of time' "$work/out" "$work/by_load"
}

# same CASE ONE OTHER
same() { if cmp -s "$2" "$3"; then pass; else fail "$1: $(cmp "$2" "$3" 2>&1)"; fi; }

# A run in 64 MB. Its journal alone would take more.
memory() {
    customers=2000000
    [ "$few" = few ] && customers=20000
    (ulimit -v 65536 && run --load 0.9 --customers "$customers" && echo "$status" > "$work/status")
    status=$(cat "$work/status")
    expect "$customers customers in 64 MB" 0 some none
}

# journal_of FILE WORD..: the journal of a run.
journal_of() {
    file=$1
    shift
    bounded "$program" --journal "$@" > "$file" 2> "$work/err" || fail "a journal of $*: $(cat "$work/err")"
}

journals() {
    some='--servers 3 --load 0.9 --customers 40000'
    # shellcheck disable=SC2086
    {
        journal_of "$work/one" $some --seed 7
        journal_of "$work/again" $some --seed 7
        journal_of "$work/other" $some --seed 8
        run $some --seed 7
    }
    calls=$(figure calls)
    same 'the journal of the same seed' "$work/one" "$work/again"
    if cmp -s "$work/one" "$work/other"; then fail 'another seed gives the same journal'; else pass; fi
    if [ "$(grep -c '^journal 1$' "$work/one")" -gt 1 ]; then pass; else fail 'a long journal in one piece'; fi
    for journal in one other; do
        "$cml" check < "$work/$journal" > "$work/out" 2> "$work/err"
        status=$?
        expect "the journal $journal" 0 some none
    done
    "$cml" check < "$work/one" > "$work/out"
    if [ "$(cat "$work/out")" = "lawful $calls" ]; then pass; else fail "$calls calls, but $(cat "$work/out")"; fi
    in_order "$work/one" 40000
}

# in_order FILE CUSTOMERS: by the journal's lines the customers 0, 1 and so on come into the line, and are received from it, each
# once.
in_order() {
    if awk -v customers="$2" '
        /^seat 0 send 0 / { if ($5 != came ":") exit 1; came++ }
        /^seat [0-9]+ recv 0: / { if ($5 != served "" || served >= came) exit 1; served++ }
        BEGIN { came = served = 0 }
        END { if (came != customers || served != customers) exit 1 }
    ' "$1"; then pass; else fail 'customers who are not received in their order'; fi
}

# charted CASE WORD..: the report of these words has a chart with a row for each of its calls.
charted() {
    case=$1
    shift
    run --report "$@"
    expect "$case" 0 some none
    cp "$work/out" "$work/report"
    rows=$(sed -n 's/^end: [a-z]* \([0-9]*\).*/\1/p' "$work/report")
    "$chart" --text < "$work/report" > "$work/out" 2> "$work/err"
    status=$?
    expect "the chart of $case" 0 some none
    if [ "$(grep -c '\(send\|recv\|poll\)' "$work/out")" = "$rows" ]; then pass; else fail "$case: not $rows rows"; fi
    if [ "$(tail -n 1 "$work/out")" = "$(tail -n 1 "$work/report")" ]; then pass; else fail "$case: another end"; fi
}

# An event is a customer's arrival or the end of a service. So many customers have twice as many events, and 100 are reported.
reports() {
    charted 'the first events' --servers 2 --load 0.8 --customers 500
    if tail -n 1 "$work/report" | grep -qx 'end: held [0-9]* left 900'; then pass; else fail "$(tail -n 1 "$work/report")"; fi
    came=$(grep -c '^door send line ' "$work/report")
    served=$(grep -c '^server[12] recv line: ' "$work/report")
    line="mailbox line: sent $came got $served waits $((came - served))"
    if grep -qx "$line" "$work/report"; then pass; else fail "no line $line"; fi
    charted 'all events' --load 0.5 --customers 50
    if tail -n 1 "$work/report" | grep -qx 'end: done [0-9]*'; then pass; else fail "$(tail -n 1 "$work/report")"; fi
    charted 'no event' --servers 3 --load 0.5 --customers 0
}

# refused CASE ERROR WORD..: these words are refused with this error, or with some error.
refused() {
    case=$1
    error=$2
    shift 2
    run "$@"
    expect "$case" 3 none "$error"
}

words() {
    overload='cml_queueing: the load is 1 or more, so the line would grow without end'
    decimal='is no decimal above 0 with at most six places'
    refused 'no load' 'cml_queueing: give --load, or --arrivals and --service'
    refused 'a load of 1' "$overload" --load 1
    refused 'a load above 1' "$overload" --load 1.000001
    refused 'rates of a load of 1' "$overload" --servers 3 --arrivals 1.5 --service 0.5
    refused 'a load of 0' "cml_queueing: --load $decimal" --load 0.0
    refused 'a load that is no number' "cml_queueing: --load $decimal" --load high
    refused 'a load with too many places' "cml_queueing: --load $decimal" --load 0.0000001
    refused 'a load without a number after its point' "cml_queueing: --load $decimal" --load 0.
    refused 'a load beyond 64 bits' "cml_queueing: --load $decimal" --load 18446744073710
    refused 'arrivals that are no number' "cml_queueing: --arrivals $decimal" --arrivals x --service 1
    refused 'a service that is no number' "cml_queueing: --service $decimal" --arrivals 1 --service 1e3
    refused 'too many customers for the clock' 'cml_queueing: too many customers for so few arrivals: simulated time would end' \
        --load 0.01 --customers 1000000000
    refused 'no servers' some --load 0.5 --servers 0
    refused 'too many servers' some --load 0.5 --servers 1025
    refused 'too many customers' some --load 0.5 --customers 1000000001
    refused 'customers that are no number' some --load 0.5 --customers many
    refused 'a seed that is no number' some --load 0.5 --seed 1.5
    refused 'arrivals without a service' some --arrivals 1
    refused 'a load and rates' some --load 0.5 --arrivals 1 --service 2
    refused 'a journal and a report' some --load 0.5 --journal --report
    refused 'an unknown word' some --load 0.5 fast
    run --help
    expect 'help' 0 some none
}

nothing() {
    run --load 0.5 --customers 0
    expect 'no customer' 0 "$(printf 'served: 0\nmean wait: 0.000000\nutilisation: 0.000000\nlargest queue: 0\ncalls: 3')" none
    run --load 0.5 --customers 0 --journal
    expect 'the journal of no customer' 0 \
        "$(printf 'journal 1\nseat 0 mailbox: made 0\nseat 0 mailbox: made 1\nseat 1 send 1 1: done\nend 3')" none
    run --load 0.5 --customers 1
    expect 'one customer' 0 some none
    if [ "$(figure 'mean wait')" = 0.000000 ]; then pass; else fail 'the first customer waits'; fi
}

streams() {
    if [ -w /dev/full ]; then
        for form in '' --journal --report; do
            # shellcheck disable=SC2086
            bounded "$program" --load 0.5 --customers 1000 $form > /dev/full 2> "$work/err"
            status=$?
            : > "$work/out"
            expect "no room for output${form:+ of $form}" 4 none 'cml_queueing: write failed'
        done
    fi
    { bounded "$program" --load 0.5 --customers 100000 --journal 2> "$work/err"; echo $? > "$work/status"; } | head -n 1 > "$work/out"
    case $(cat "$work/status") in
        4 | 141) pass ;;
        *) fail "a pipe that is closed: status $(cat "$work/status")" ;;
    esac
}

loads
rates
memory
journals
reports
words
nothing
streams
count
