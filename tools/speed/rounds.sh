# A round of tools/speed.sh. Each program is run once, and its lines are added to `figures`: the setting, the build, the workload,
# the way and nanoseconds, with tabs between.

# What does the work in a setting runs after these words.
with=

# note BUILD FACTOR: adds lines that have a workload, a way and a number, two spaces apart at least.
note() {
    awk -F '  +' -v OFS='\t' -v setting="$setting" -v build="$1" -v factor="$2" '{ print setting, build, $1, $2, $3 * factor }' \
        >> "$figures"
}

# ran COMMAND..: the command ends well, and what it prints is in `told`.
ran() {
    # shellcheck disable=SC2086
    $with "$@" > "$work/told"
}

# has BUILD NAME: whether the build has this program. Of an earlier build some may be missing.
has() { [ -e "$work/$1/$2" ]; }

# by_bench BUILD COUNT NAME..: workloads of cml_bench, each this often. An earlier build may lack some.
by_bench() {
    has "$1" cml_bench || return 0
    build=$1
    count=$(($2 / share))
    shift 2
    for name; do
        if ! ran "$work/$build/cml_bench" "$count" "$name"; then
            [ "$build" = before ] && continue
            return 1
        fi
        sed 's/ seryugo_/  /; s/\(.*\) /\1  /' "$work/told" | note "$build" 1
    done
}

# Few enough of each that its journal takes no more than 300 MB.
all_bench() {
    by_bench "$1" 4000000 soak1 soak2 || return
    by_bench "$1" 2000000 pairs1 pipe2 fanin4 fanin4_lanes || return
    by_bench "$1" 400000 cast8 pairs1_text cast8_text pairs1_bytes8 pairs1_bytes64 cast8_bytes64 || return
    by_bench "$1" 100000 pairs1_bytes1000 var2 token8 token63 server32 server128
}

some_bench() {
    by_bench "$1" 500000 pairs1 pipe2 fanin4 fanin4_lanes || return
    by_bench "$1" 50000 var2 token8 token63 server32 server128
}

# Beside threads that compute a hop may take milliseconds.
few_bench() {
    by_bench "$1" 100000 pairs1 pipe2 fanin4 fanin4_lanes || return
    by_bench "$1" 1000 var2 token8 token63 server32 server128
}

# by_rust BUILD MESSAGES WORD..: the workloads of the crate in Rust whose names have one of these words, or all for an empty word.
by_rust() {
    has "$1" speed || return 0
    build=$1
    messages=$(($2 / share))
    shift 2
    for word; do
        for program in speed peers; do
            has "$build" "$program" || continue
            ran "$work/$build/$program" "$messages" "$word" 1 || return
            note "$build" 1 < "$work/told"
        done
    done
}

all_rust() { by_rust "$1" 200000 ''; }

some_rust() { by_rust "$1" 100000 'one thread' pipe2 fanin4 token8 token63 server32 server128; }

few_rust() { by_rust "$1" 20000 'one thread' pipe2 fanin4 && by_rust "$1" 10000 token8 token63 server32 server128; }

# A script of a megabyte, and the check of a journal.
by_cml() {
    has "$1" cml || return 0
    for command in replay run; do
        start=$(date +%s%N)
        "$work/$1/cml" $command < "$work/script" > "$work/report" || return
        end=$(date +%s%N)
        echo "a script of 1 MB  cml $command  $((end - start))" | note "$1" 1
    done
    sh tools/journal_speed.sh "$work/$1/cml" $((1000000 / share + 1)) > "$work/told" || return
    sed -n 's/^\([0-9]*\) ns an entry/an entry of a journal  cml check  \1/p' "$work/told" | note "$1" 1
}

# From C, from Python, and the journals of the crate in Rust.
by_others() {
    has "$1" speed_in_c || return 0
    ran "$work/$1/speed_in_c" $((200000 / share)) '' 1 || return
    note "$1" 1 < "$work/told"
    ran "$work/$1/journals" $((1000000 / share)) || return
    sed 's/^\(to [a-z]*\) *\([0-9]*\) .*/an entry of a journal  in Rust, \1  \2/' "$work/told" | note "$1" 1
    ran env SERYUGO_PREFIX="$(cat "$work/$1/prefix")" PYTHONPATH="$(cat "$work/$1/python")" PYTHONDONTWRITEBYTECODE=1 \
        python3 bindings/python/examples/speed.py 9 || return
    note "$1" 1000 < "$work/told"
}

# by_count BUILD: instructions, which are the same in each round.
by_count() {
    has "$1" speed_in_c || return 0
    count_in_c "$work/$1/speed_in_c" > "$work/told" && count_in_rust "$work/$1/speed" >> "$work/told" || return
    ! has_peers || count_instructions "$work/$1/peers" 'one thread' crossbeam >> "$work/told" || return
    note "$1" 1 < "$work/told"
}

# by_turns PART..: each part is done with both builds. In every second round the earlier one comes first.
by_turns() {
    for part; do
        if [ $((round % 2)) -eq 1 ]; then
            "$part" now && "$part" before
        else
            "$part" before && "$part" now
        fi || return
    done
}

# Has eight threads compute. They end if the script does, even if it is killed.
compute() {
    for _ in 1 2 3 4 5 6 7 8; do
        while kill -0 $$ 2> /dev/null; do
            count=0
            while [ $count -lt 1000000 ]; do count=$((count + 1)); done
        done &
        busy="$busy $!"
    done
}

one_round() {
    setting='nothing beside it'
    by_turns all_bench by_cml all_rust by_others || return
    setting='one processor'
    if command -v taskset > /dev/null; then
        with="taskset -c $(taskset -cp $$ | sed 's/.*: //; s/[,-].*//')"
        by_turns some_bench some_rust || return
        with=
    fi
    setting='eight busy threads'
    compute
    by_turns few_bench few_rust
    ended=$?
    quiet
    return $ended
}

# A script of about a megabyte: 64 threads that send to 1,000 mailboxes. Each receives where it has sent, so none waits for ever.
make_script() {
    awk -v share="$share" 'BEGIN {
        print "cml 1"
        for (at = 0; at < 1000; at++) print "mailbox m" at
        for (at = 0; at < 64; at++) print "thread t" at
        for (step = 0; step < 29000 / share; step++) {
            thread = "t" step * 7 % 64
            mailbox = "m" step * 13 % 1000
            print thread " send " mailbox " " 1000000 + step
            print thread " recv " mailbox
        }
    }'
}
