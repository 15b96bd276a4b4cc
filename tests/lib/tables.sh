# The tables of tests/tables/faults and tests/tables/reports, on each case of which tests/cml/program.sh runs the built program, and
# those of tests/tables/orders, which tests/lib/runs.sh has for what it compares with. To add a case, write it into the table of its
# theme, or begin a table: nothing else is to be touched. Take what is expected from docs/FORMATS.md and not from the program.
#
# A table of faults has a line for each case: its name, the script with its lines parted by ` / `, and its fault without
# `script: `, or `none` where it has none.
#
#     no such step | cml 1 / thread A / A jump | line 3: unknown step
#
# After a line like `before: cml 1 / thread A` the script of a case is these lines and then the case's own. A name may be
# left out: then the case's lines are the name too. Empty lines, and those that begin with `#`, say nothing.
#
#     A jump | line 3: unknown step
#
# A table of reports has a block for each case: a line with its name; another if the journal is to have a limit; the
# script; `==`; and the report, at once followed by the next block. Lines before the first block say nothing.
#
#     == a journal of one entry
#     == limit 1
#     cml 1
#     mailbox m
#     ==
#     mailbox m: sent 0 got 0 waits 0
#     end: done 0

# fault_tables TABLE..
fault_tables() {
    for table; do
        before=
        while IFS= read -r row; do
            case $row in
                '' | '#'*) ;;
                'before: '*) before="${row#before: } / " ;;
                *' | '*) fault_row "$table" "$row" ;;
                *) fail "$table: no case: $row" ;;
            esac
        done < "$table" || fail "$table: not read"
    done
}

# fault_row TABLE ROW
fault_row() {
    named=${2% | *}
    script "$before${named#* | }" > "$work/in"
    told "$1, ${named%% | *}" "${2##* | }"
}

# told CASE FAULT: what the program tells of the script in $work/in: its fault and nothing else, or `none`.
told() {
    run replay < "$work/in"
    printf 'script: %s\n' "$2" > "$work/want"
    if [ "$2" = none ] && [ "$status" -le 1 ] && [ -s "$work/out" ] && [ ! -s "$work/err" ]; then
        pass
    elif [ "$2" != none ] && [ "$status" = 2 ] && [ ! -s "$work/out" ] && cmp -s "$work/want" "$work/err"; then
        pass
    else
        fail "$1: status $status, wanted $2, told $(head -c 300 "$work/err")"
    fi
}

# report_tables: each report is what `replay` writes, except for scripts with lanes or feeds, which it refuses. `run` writes
# it too if no thread could go before another.
report_tables() { each_block report_block tests/tables/reports/*.txt; }

# report_block CASE LIMIT SCRIPT REPORT
report_block() {
    if has_rings "$3"; then
        needs_run "$1, by replay" "$3"
    else
        reported "$1" "$3" "$4" replay --limit "$2"
    fi
    if [ "$(grep -c '^thread ' "$3")" -le 1 ]; then
        reported "$1, by run" "$3" "$4" run --limit "$2"
    else
        ran "$1" "$2" "$3"
    fi
}

# has_rings SCRIPT: whether a line of it says a lane or a feed.
has_rings() { grep -q '^\(lane\|feed\) ' "$1"; }

# needs_run CASE SCRIPT: `replay` refuses it for its first lane or feed.
needs_run() {
    cp "$2" "$work/in"
    told "$1" "line $(grep -n '^\(lane\|feed\) ' "$2" | head -n 1 | cut -d : -f 1): needs run"
}

# each_block ACT TABLE..: calls the function with each block's name, its limit, and the files of its script and report.
each_block() {
    act=$1
    shift
    for table; do
        number=0
        blocks=$(part_blocks "$table")
        [ "$blocks" -gt 0 ] || fail "$table: no case"
        while [ "$number" -lt "$blocks" ]; do
            number=$((number + 1))
            "$act" "$table, $(cat "$work/$number.name")" "$(cat "$work/$number.limit")" \
                "$work/$number.script" "$work/$number.report"
        done
    done
}

# part_blocks TABLE: writes each block's parts to files of $work, and prints how many blocks there are.
part_blocks() {
    awk -v folder="$work" '
        function begin(part) { close(file); file = folder "/" blocks "." part; printf "" > file }
        function hold(part, text) { begin(part); print text > file }
        /^== limit / { hold("limit", $3); begin("script"); next }
        /^== / {
            blocks++
            begin("report"); hold("limit", 65536); hold("name", substr($0, 4)); begin("script")
            next
        }
        /^==$/ { begin("report"); next }
        blocks { print > file }
        END { print blocks + 0 }
    ' "$1"
}

# reported CASE SCRIPT REPORT WORDS..: with these words the program writes just this report of the script, and ends with
# the status that the report means.
reported() {
    name=$1
    text=$2
    report=$3
    shift 3
    run "$@" < "$text"
    if [ "$status" = "$(meant_by "$report")" ] && cmp -s "$report" "$work/out" && [ ! -s "$work/err" ]; then
        pass
    else
        fail "$name: status $status, errors $(head -c 300 "$work/err")"
        diff "$report" "$work/out"
    fi
}

# meant_by REPORT: the exit status that its last line means.
meant_by() {
    case $(tail -n 1 "$1") in
        'end: done '*) echo 0 ;;
        'end: stalled '*) echo 1 ;;
        'end: full '*) echo 6 ;;
        'script: '*) echo 2 ;;
        *) echo 'none that its last line tells' ;;
    esac
}
