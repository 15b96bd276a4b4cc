#!/bin/sh
# A process that keeps its journal, killed at random moments: `sh tests/programs/keep_journal.sh ROOMS CHECK WORD..`, with the
# archive of cml_c, and the command that checks a journal. KILLS says how often, or it is 10. The program is
# examples/programs/keep_journal, in Rust. Each run goes on from the file that the runs before left. After each kill the file has
# each call that a line of the program has told, and each message once, in order; and the check accepts it. After twenty kills a
# new file begins. A second process beside one that runs is refused. Then a journal is rerun, also in a debugger. The last line is
# `N passed, M failed`.
LC_ALL=C
export LC_ALL
top=$(cd "$(dirname "$0")/../.." && pwd) || exit 1
. "$top/tests/lib/cases.sh"
rooms=$(absolute "$1")
checker=$(absolute "$2")
shift 2
cd "$top" || exit 1
command -v cargo > /dev/null || leave_out 'the program that keeps its journal' cargo
folder=$work/kept
journal=$folder/journal
mkdir "$folder"
: > "$work/returned"
started=
trap '[ -z "$started" ] || kill -9 "$started"; exit 1' HUP INT TERM

# build: the program, from a copy, so that nothing is left beside its sources. What bindings/install.sh installs has the file's code.
build() {
    mkdir -p "$work/examples/programs"
    cp -r bindings "$work/bindings"
    cp -r examples/programs/keep_journal "$work/examples/programs"
    install_rooms "$rooms" "$work/prefix" > "$work/installed" || return
    env SERYUGO_PREFIX="$work/prefix" CARGO_TARGET_DIR="$work/target" \
        cargo build --release --quiet --offline --manifest-path "$work/examples/programs/keep_journal/Cargo.toml" || return
    program=$work/target/release/keep_journal
}

# text: the journal's text, up to the first byte 0 and the last line end.
text() { { cat "$journal"; printf '\0'; } | tr '\0\n' '\n\0' | head -n 1 | tr '\0\n' '\n\0' | sed '$d'; }

# await COMMAND: waits until the command ends well, or the run that was started has ended.
await() {
    polls=0
    while ! "$1" && [ $polls -lt $((longest * 100)) ] && kill -0 "$started" 2> /dev/null; do
        sleep 0.01
        polls=$((polls + 1))
    done
}

is_started() { :; }
goes_on() { [ -s "$work/said" ]; }
has_told() { grep -q '^got' "$work/said"; }

# stopped: kills the run that was started. What it told is kept, but a line that the kill cut short.
stopped() {
    kill -9 "$started"
    wait "$started" 2> /dev/null
    status=$?
    started=
    sed '$d' "$work/said" | grep -v '^goes' > "$work/calls"
    tail -c 1 "$work/said" | grep -q . || tail -n 1 "$work/said" | grep -v '^goes' >> "$work/calls"
    cat "$work/calls" >> "$work/returned"
}

# each_once: the text's entries are those of mailboxes whose n-th message is n, each sent once, and received once at the most. Of
# each mailbox at least so many were sent and received as the runs have told.
each_once() {
    awk '
        FILENAME == ARGV[1] && $1 == "sent" { if (told[$2] <= $3) told[$2] = $3 + 1; next }
        FILENAME == ARGV[1] { if (taken[$2] <= $3) taken[$2] = $3 + 1; next }
        $3 == "send" { if ($5 != sent[$4]++ ":") { print "sent twice or never: " $0; exit } }
        $3 == "recv" { if ($5 != got[$4]++ "") { print "received twice or never: " $0; exit } }
        END {
            for (mailbox in told) if (sent[mailbox] < told[mailbox]) print "a send to " mailbox " is lost"
            for (mailbox in taken) if (got[mailbox ":"] < taken[mailbox]) print "a receive from " mailbox " is lost"
        }
    ' "$work/returned" "$work/text" > "$work/lost"
    [ ! -s "$work/lost" ]
}

# is_accepted WORD..: the command that checks a journal takes the text, which has no end yet.
is_accepted() {
    bounded "$checker" "$@" < "$work/text" > "$work/verdict" 2>&1
    [ $? -eq 2 ] && grep -q '^journal: open after line [0-9]*$' "$work/verdict"
}

# begin: from here on the runs have a new file. A long journal takes long to check.
begin() {
    returned=$((returned + $(wc -l < "$work/returned")))
    rm -f "$journal"
    : > "$work/returned"
}

# killed WHEN WORD..: one run, which is killed some time after this holds.
killed() {
    when=$1
    shift
    : > "$work/said"
    "$program" --tell "$folder" > "$work/said" 2> "$work/errors" &
    started=$!
    await "$when"
    sleep "0.$(printf %03d "$(any 100)")"
    stopped
    [ -s "$journal" ] || return 0
    text > "$work/text"
    if [ $status -eq 137 ] && [ ! -s "$work/errors" ] && each_once && is_accepted "$@"; then
        pass
    else
        fail "a kill: status $status, $(cat "$work/errors" "$work/lost" "$work/verdict")"
    fi
}

# refuses_a_second: while a process has the journal, another one changes nothing, and says so.
refuses_a_second() {
    : > "$work/said"
    "$program" --tell "$folder" > "$work/said" 2> "$work/errors" &
    started=$!
    await goes_on
    run "$folder" 0
    stopped
    [ "$status" -eq 137 ] && [ ! -s "$work/out" ] &&
        [ "$(cat "$work/err")" = "keep_journal: $journal: another switchboard has the journal's file" ]
}

# ends MESSAGES: one run that ends by itself.
ends() {
    run --tell "$folder" "$1"
    [ $status -eq 0 ] && [ ! -s "$work/err" ] && grep -v '^goes' "$work/out" >> "$work/returned"
    text > "$work/text"
    each_once
}

# made_again WORD..: a command says that each entry of the other folder's journal was made again.
made_again() {
    bounded "$@" > "$work/said" 2> "$work/errors" && grep -qx "$entries of $entries entries were made again" "$work/said"
}

# Threads go in the order of the journal that one run wrote. With fewer messages they don't, and the program says where.
reruns() {
    mkdir "$work/other" && "$program" "$work/other" 1000 > "$work/said" || return
    entries=$(grep -c : "$work/other/journal")
    made_again "$program" --rerun "$work/other" 1000 && ! bounded "$program" --rerun "$work/other" 999 > "$work/said" 2> "$work/errors" &&
        grep -q "^the run isn't the journal's at position [0-9]*: expected .seat [0-9]* send" "$work/said"
}

# A debugger stops the rerun at the 501st receive, and goes on.
reruns_in_a_debugger() {
    made_again gdb -batch -ex 'break seryugo_recv' -ex 'ignore 1 500' -ex run -ex 'info threads' -ex delete -ex continue \
        --args "$program" --rerun "$work/other" 1000 && grep -q 'hit Breakpoint 1' "$work/said" &&
        [ "$(grep -c '^[* ] *[0-9][0-9]* *Thread ' "$work/said")" -gt 1 ]
}

check 'the program is built' build
if [ "$failed" -gt 0 ]; then
    count
    exit
fi
kills=0
returned=0
while [ $kills -lt "${KILLS:-10}" ]; do
    case $((kills % 5)) in
        0) killed is_started "$@" ;;
        1) killed goes_on "$@" ;;
        *) killed has_told "$@" ;;
    esac
    kills=$((kills + 1))
    [ $((kills % 20)) -ne 0 ] || begin
done
check 'a second process is refused' refuses_a_second
check 'a run that ends' ends 100
check 'a run of no messages' ends 0
begin
echo "killed $kills times; $returned calls had returned"
check 'calls were told' [ "$returned" -gt 500 ]
check 'the last journal is accepted' is_accepted "$@"
check 'a journal is rerun' reruns
if has gdb 'a rerun in a debugger'; then check 'a rerun in a debugger' reruns_in_a_debugger; fi
count
