#!/bin/sh
# For tests/stress/refused.sh: sh tests/lib/refuse_each.sh WORK KIND HOW INPUT PROGRAM WORDS..
# runs the program on the input with each request that it makes refused in turn, that one alone (`once`) or with all later ones
# (`rest`). The last run is refused nothing. It looks at each run as its KIND wants it:
#
#   table    calls on a board, a floor or a hall: each line has the outcome that it has with memory, and says where a call was
#            refused, made again and answered; a run that ran out of memory itself ends there with status 1
#   texts    the same where the messages are texts, each written in quotes
#   replay   a script by `cml replay`: its report, or status 5, nothing written and `cml: no memory`
#   written  a script by `cml replay --journal`: its journal, or the same
#   explored a script by `cml explore`: its endings, or the same
#   run      a script by `cml run`: a report of some order of its threads, or the same
#   threads  the same where threads are refused, and not memory: with no report
#   chart    a report by `cml_chart`: its chart, or status 5, nothing written and `cml_chart: no memory`
#   journal  a journal by `cml check`: its verdict, or status 5, nothing written and `cml: no memory`
#   faulty   a journal with a fault by `cml check`: what is said of the fault and status 2, or the same
#   compact  a journal by `cml compact`: its short journal, or the same
#
# The last line is `KIND HOW INPUT: N passed, M failed, K met`: so often a call, or the whole program, told of a refusal.
. tests/lib/bounded.sh
work=$1
kind=$2
how=$3
input=$4
shift 4
room=$(mktemp -d "$work/each.XXXXXX") || exit 1
case $kind in threads) variable=REFUSE_THREAD ;; *) variable=REFUSE ;; esac
case $kind in
    chart) lack='cml_chart: no memory' ;;
    *) lack='cml: no memory' ;;
esac
case $how in rest) rest=REFUSE_REST=1 ;; *) rest=REFUSED=once ;; esac

# refused NUMBER PROGRAM WORDS..: whether a request was refused. Only the program itself meets the refusal.
refused() {
    number=$1
    shift
    bounded env "$variable=$number" "$rest" TOLD="$room/told" LD_PRELOAD="$work/refuse.so" "$@" \
        < "$input" > "$room/out.$number" 2> "$room/err.$number"
    echo "$number $?" >> "$room/statuses"
    [ -e "$room/told" ] && rm "$room/told"
}

# The program runs once. Where it makes a request, a child goes on without it.
refuse_in_children() {
    bounded env REFUSE_EACH="$room" "$rest" LD_PRELOAD="$work/refuse.so" "$@" < "$input" > "$room/out" 2> "$room/err"
    status=$?
    last=$(($(wc -l < "$room/statuses") + 1))
}

# It was refused nothing itself: that is the last run.
end_with_it() {
    echo "$last $status" >> "$room/statuses"
    mv "$room/out" "$room/out.$last"
    mv "$room/err" "$room/err.$last"
}

# It runs once for each request that it makes from here on.
refuse_the_rest() {
    while refused "$last" "$@" && [ "$last" -lt 100000 ]; do
        last=$((last + 1))
    done
}

# What a table's lines came to in each run.
judge_table() {
    awk -v kind="$kind" -v how="$how" -v room="$room" '
        FNR == NR { want[++lines] = $0; next }
        # After a note that begins with "spared" no call of the case may meet a refusal.
        function tells(line, wanted) {
            if (wanted ~ /^# spared/) spared = 1
            if (wanted ~ /^==/) spared = 0
            if (line == wanted ", once memory was refused") return spared ? 0 : ++met
            return line == wanted
        }
        function told(line, wanted) {
            sub(/: .*/, ": no memory", wanted)
            return index(line, wanted) == 1 && ++met
        }
        {
            seen = spared = 0
            wrong = ""
            file = room "/out." $1
            while ((getline line < file) > 0 && wrong == "") {
                wanted = want[++seen]
                if (kind == "texts") gsub(/"/, "", line)
                # Where nothing more is to be had, what is refused is refused again.
                if (!tells(line, wanted) && !(how == "rest" && told(line, wanted)))
                    wrong = line ", where the table has " wanted
            }
            close(file)
            if (wrong == "" && $2 != (seen == lines ? 0 : 1)) wrong = "status " $2 " after line " seen
            if (wrong == "") passed++
            else { failed++; print "failed: " ARGV[1] ", " kind ", " how " " $1 ": " wrong }
        }
        END { print kind " " how " " ARGV[1] ": " passed + 0 " passed, " failed + 0 " failed, " met + 0 " met" }
    ' "$input" "$room/statuses"
}

# in_order_or_short REPORT: whether some order of the threads gives it, also where one pump was refused memory after its
# first message: it answers how many it moved, and the rest is owed.
in_order_or_short() {
    for short in $(seq 0 "$(grep -c '^feed [0-9]* recv ' "$1")"); do
        in_some_order 65536 "$input" "$1" && return 0
    done
    return 1
}

# report_stands REPORT: it is that of a run without refusals, or by `run` such a one. Where a thread wasn't started there is
# none: so only the last run, in which all were, has one. A chart or a verdict is that of a run without refusals too, with status 0.
report_stands() {
    case $kind in
        chart | journal | compact | written | explored) cmp -s "$room/report" "$1" && [ "$status" = 0 ]; return ;;
        replay) cmp -s "$room/report" "$1" ;;
        run) in_order_or_short "$1" ;;
        threads) [ "$number" -eq "$last" ] && in_some_order 65536 "$input" "$1" ;;
    esac && [ "$status" = "$(meant_by "$1")" ]
}

# What a script or a report came to in each run.
judge_script() {
    passed=0
    failed=0
    met=0
    while read -r number status; do
        told=
        read -r told < "$room/err.$number"
        if [ "$status" = 5 ] && [ "$told" = "$lack" ] && [ ! -s "$room/out.$number" ]; then
            passed=$((passed + 1))
            met=$((met + 1))
        elif [ -z "$told" ] && report_stands "$room/out.$number"; then
            passed=$((passed + 1))
        elif [ "$kind $status" = 'faulty 2' ] && cmp -s "$room/report" "$room/err.$number" && [ ! -s "$room/out.$number" ]; then
            passed=$((passed + 1))
        else
            failed=$((failed + 1))
            echo "failed: $input, $kind, $how $number: status $status, $told"
        fi
    done < "$room/statuses"
    echo "$kind $how $input: $passed passed, $failed failed, $met met"
}

case $kind in
    replay | chart | journal | compact | written | explored) "$@" < "$input" > "$room/report" ;;
    faulty) "$@" < "$input" 2> "$room/report" ;;
esac
last=1
: > "$room/statuses"
[ "$kind" = threads ] || refuse_in_children "$@"
# From its first thread on, no child can be forked.
case $kind in
    run | threads) refuse_the_rest "$@" ;;
    *) end_with_it ;;
esac
case $kind in
    table | texts) judge_table ;;
    *)
        work=$room
        . tests/lib/tables.sh
        . tests/lib/runs.sh
        judge_script
        ;;
esac
rm -r "$room"
