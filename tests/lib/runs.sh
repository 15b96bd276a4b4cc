# The cases of `cml run`, for tests/cml/program.sh. Its threads come in another order each time, so no report is known
# beforehand: tests/models/interleaved.awk makes the report that the threads' order gives, and the two are to be the same.

# The examples whose end depends on the order: in some orders all steps are performed, in others it stalls.
either_end='chat_room late_reader philosophers three_philosophers'

# in_some_order LIMIT SCRIPT REPORT..: whether each of these reports is one that some order of the threads gives; where
# `short` is set, one in which the pump of that message of feeds stopped there.
in_some_order() {
    awk -v short="${short:-0}" -f tests/models/calls.awk -f tests/models/plain.awk -f tests/models/rings.awk -f tests/models/interleaved.awk "$@" > "$work/want"
    shift 2
    cat "$@" > "$work/got"
    [ -s "$work/want" ] && cmp -s "$work/want" "$work/got"
}

# ran CASE LIMIT SCRIPT [STATUS]: by `run` it ends with the status that its last line means, which is this one.
ran() {
    run run --limit "$2" < "$3"
    if in_some_order "$2" "$3" "$work/out" && [ "$status" = "$(meant_by "$work/out")" ] && [ ! -s "$work/err" ] &&
        [ "$status" = "${4:-$status}" ]; then
        pass
    else
        fail "$1, by run: status $status, wanted ${4:-any}, errors $(head -c 300 "$work/err")"
        diff "$work/want" "$work/got" | head -20
    fi
}

# order_tables: what is taken for a report, and what is not.
order_tables() {
    each_block possible tests/tables/orders/possible.txt tests/tables/orders/possible_rings.txt
    each_block impossible tests/tables/orders/impossible.txt tests/tables/orders/impossible_rings.txt
}

possible() {
    if in_some_order "$2" "$3" "$4"; then
        pass
    else
        fail "$1: not taken for what an order gives"
        diff "$work/want" "$work/got"
    fi
}

impossible() {
    if in_some_order "$2" "$3" "$4"; then
        fail "$1: taken for what an order gives"
    else
        pass
    fi
}

# lawful_run SCRIPT: the journal that `run` writes of it is lawful, and ends after its last line.
lawful_run() {
    run run --journal < "$1"
    cp "$work/out" "$work/journal"
    run check < "$work/journal"
    expect "$1, the journal of a run" 0 "lawful $(($(wc -l < "$work/journal") - 2))" none
}

# The examples in any order of their threads; and the reports beside those that only `run` takes are of some order.
run_examples() {
    for example in examples/scripts/*.cml; do
        lawful_run "$example"
        if has_rings "$example"; then
            possible "the report beside $example" 65536 "$example" "${example%.cml}.report"
        fi
        case " $either_end " in
            *" $(basename "$example" .cml) "*) ran "$example" 65536 "$example" ;;
            *) ran "$example" 65536 "$example" "$(meant_by "${example%.cml}.report")" ;;
        esac
    done
}

# The example with the most threads.
busiest() { grep -c '^thread ' examples/scripts/*.cml | sort -t : -k 2 -n | tail -n 1 | sed 's|:.*||'; }

# many_runs SCRIPT COUNT: this many runs of it, looked at together.
many_runs() {
    mkdir "$work/many"
    number=0
    others=0
    while [ "$number" -lt "$2" ]; do
        number=$((number + 1))
        run run < "$1"
        mv "$work/out" "$work/many/$number"
        [ "$status" -ne 124 ] || break
        [ "$status" = "$(meant_by "$work/many/$number")" ] || others=$((others + 1))
    done
    if in_some_order 65536 "$1" "$work"/many/* && [ "$others" -eq 0 ]; then
        pass
        echo "$1: $2 runs, $(cksum "$work"/many/* | cut -d ' ' -f 1 | sort -u | wc -l) different reports," \
            "$(grep -c '^end: stalled' "$work/got") stalled"
    else
        fail "$1: a report that no order gives, or another status than it means ($others times)"
        diff "$work/want" "$work/got" | head -20
    fi
    rm -r "$work/many"
}

# crowd ROUNDS VERB VERB [VERSION]: 64 threads on one mailbox, each in turn with the one word and the other.
crowd() {
    awk -v rounds="$1" -v first="$2" -v second="$3" -v version="${4:-1}" '
        function step(thread, verb, number) { print thread " " verb " m" (verb == "send" ? " " message(number) : "") }
        function message(number) { return version == 2 ? "=" number ":" : number }
        BEGIN {
            print "cml " version "\nmailbox m"
            for (i = 1; i <= 64; i++) print "thread A" i
            for (k = 0; k < rounds; k++) for (i = 1; i <= 64; i++) {
                step("A" i, first, 64 * k + i)
                step("A" i, second, k)
            }
        }
    ' > "$work/in"
}

# ends_as CASE TEXT: the last two lines of the last run.
ends_as() {
    if [ "$(tail -n 2 "$work/out")" = "$2" ]; then
        pass
    else
        fail "$1: it ends with $(tail -n 2 "$work/out")"
    fi
}

crowds() {
    name='64 threads of 1,000 steps'
    crowd 500 send recv
    ran "$name" 64001 "$work/in" 0
    ends_as "$name" "$(printf 'mailbox m: sent 32000 got 32000 waits 0\nend: done 64000')"
    name='64 threads of 200 steps, which send words'
    crowd 100 send recv 2
    ran "$name" 65536 "$work/in" 0
    ends_as "$name" "$(printf 'mailbox m: sent 6400 got 6400 waits 0\nend: done 12800')"
    name='64 threads that meet the limit at once'
    crowd 500 send send
    ran "$name" 1000 "$work/in" 6
    ends_as "$name" "$(printf 'mailbox m: sent 999 got 0 waits 999\nend: full 999 left 63001')"
    name='64 threads that wait at the end'
    { threads 64 | sed '1s|$|\nmailbox m|'; few_for_many; } > "$work/in"
    ran "$name" 65536 "$work/in" 1
    ends_as "$name" "$(printf 'mailbox m: sent 100 got 100 waits 0\nend: stalled 200 left 89')"
    threads 64 > "$work/in"
    ran '64 threads without a step' 65536 "$work/in" 0
}

# Steps of 64 threads, of which one sends 100 messages, and the others want three each.
few_for_many() {
    awk 'BEGIN {
        for (k = 0; k < 3; k++) for (i = 2; i <= 64; i++) print "A" i " recv m"
        for (k = 0; k < 100; k++) print "A1 send m " k
    }'
}

# always CASE STATUS REPORT SCRIPT: so the script ends in each of twenty runs. The lines of both are parted by ` / `.
always() {
    script "$4" > "$work/in"
    for round in 1 2 3 4 5 6 7 8 9 10 11 12 13 14 15 16 17 18 19 20; do
        run run < "$work/in"
        expect "$1, round $round" "$2" "$(script "$3")" none
    done
}

# Where each order gives the same report.
run_orders() {
    always 'a port that is closed while a thread waits for it, or before' 0 \
        'B close p: done / A recv p: closed / channel c: sent 0 kept 0 first 0 / port p: start 0 got 0 closed / end: done 2' \
        'cml 1 / channel c / port c p / thread A / thread B / A recv p / B close p'
    always 'a word that another thread waits for' 0 \
        'A send m =x: done / B recv m: ==x / mailbox m: sent 1 got 1 waits 0 / end: done 2' \
        'cml 2 / mailbox m / thread A / thread B / A send m =x / B recv m'
    always 'a thread that waits alone' 1 'mailbox m: sent 0 got 0 waits 0 / end: stalled 0 left 1' \
        'cml 1 / mailbox m / thread B / B recv m'
}

run_faults() {
    : > "$work/in"
    run run < "$work/in"
    expect 'nothing, by run' 2 none 'script: line 1: bad header'
    script 'cml 1 / mailbox m / thread A / A send m 5 / A jump m' > "$work/in"
    run run < "$work/in"
    expect 'a fault after a good step, by run' 2 none 'script: line 5: unknown step'
    note 1048577 > "$work/in"
    run run < "$work/in"
    expect 'a byte too many, by run' 2 none 'script: too long'
}

# However little memory there is, all steps are performed or none is reported; also if some threads cannot be started.
little_memory() {
    crowd 10 send recv
    for kilobytes in 16000 32000 64000 128000 256000 512000; do
        (ulimit -v "$kilobytes" && run run < "$work/in"; echo "$status" > "$work/status")
        status=$(cat "$work/status")
        if [ "$status" = 0 ] && in_some_order 65536 "$work/in" "$work/out"; then
            pass
        else
            expect "$kilobytes kilobytes for 64 threads" 5 none 'cml: no memory'
        fi
    done
}

# Scripts of all lines, each under its limit. One with a fault has its fault for a report.
some_runs() {
    : > "$work/statuses"
    : > "$work/bad"
    awk -v scripts=400 -v one_in=2 -f tests/models/calls.awk -f tests/models/some_scripts.awk | octal | while read -r limit text; do
        # shellcheck disable=SC2059
        printf "$text" > "$work/in"
        run run --limit "$limit" < "$work/in"
        echo "$status" >> "$work/statuses"
        cat "$work/out" "$work/err" > "$work/told"
        if ! in_some_order "$limit" "$work/in" "$work/told" || [ "$status" != "$(meant_by "$work/told")" ]; then
            { echo "limit $limit, status $status"; cat "$work/in"; diff "$work/want" "$work/got"; } >> "$work/bad"
        fi
        [ "$status" -ne 124 ] || break
    done
    if [ "$(wc -l < "$work/statuses")" -eq 400 ] && [ ! -s "$work/bad" ]; then
        pass
        echo "scripts of all lines, by run: $(grep -c 0 "$work/statuses") done, $(grep -c 1 "$work/statuses") stalled," \
            "$(grep -c 6 "$work/statuses") full, $(grep -c 2 "$work/statuses") with a fault"
    else
        fail 'scripts of all lines, by run: a report that no order gives, or another status than it means'
        head -n 60 "$work/bad"
    fi
}

runs() {
    order_tables
    run_examples
    many_runs "$(busiest)" 200
    many_runs examples/scripts/philosophers.cml 200
    many_runs examples/scripts/philosophers_without_stall.cml 200
    many_runs tests/tables/lanes_and_feeds.cml 1000
    crowds
    run_orders
    run_faults
    little_memory
    some_runs
}
