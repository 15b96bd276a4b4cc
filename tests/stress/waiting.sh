#!/bin/sh
# No thread sleeps though what it waits for is there: `sh tests/stress/waiting.sh BENCH CML`, the built cml_bench and cml. In each run
# threads wait for each other, so that one whose wake-up is lost keeps all others waiting too. Then the run uses no more
# processor time: it is killed, and has failed. How long a run takes says nothing, since on a busy machine each wake-up takes
# long. A wake-up may be lost once in a million calls, so there are many, also on two processors, where a thread is more often
# stopped at a bad moment.
# The last line is `N passed, M failed`.
top=$(cd "$(dirname "$0")/../.." && pwd) || exit 1
. "$top/tests/lib/cases.sh"
bench=$(absolute "$1")
cml=$(absolute "$2")

# watch PROCESS: kills the process once it has used no processor time for a minute, and after an hour. The minute isn't a limit
# for the run: one that goes on uses some, also on a busy machine.
watch() {
    used=none
    for _ in $(seq 60); do
        sleep 60
        now=$(awk '{ print $14 + $15 }' "/proc/$1/stat") || return
        [ "$now" != "$used" ] || break
        used=$now
    done
    kill -9 "$1"
}

# ends COMMAND..: it ends well, and goes on until then.
ends() {
    "$@" > "$work/told" 2>&1 &
    process=$!
    watch $process > /dev/null 2>&1 &
    watcher=$!
    wait $process
    status=$?
    kill $watcher
    if [ $status -eq 0 ]; then pass; else fail "$*: status $status, $(tail -n 3 "$work/told")"; fi
}

# everywhere COMMAND..: the same, on all processors and on two.
everywhere() {
    ends "$@"
    if taskset -c 0,1 true 2> /dev/null; then
        ends taskset -c 0,1 "$@"
    fi
}

# make_script NAME THREADS ROUNDS HEAD STEPS: a script with these declarations, threads A0, A1 and so on, and the steps that an awk
# program writes for each thread and round. `say` writes a step of a thread.
make_script() {
    awk -v threads="$2" -v rounds="$3" "
        function say(thread, step) { print \"A\" thread \" \" step }
        BEGIN {
            print \"cml 1\"
            $4
            for (i = 0; i < threads; i++) print \"thread A\" i
            for (k = 0; k < rounds; k++) for (i = 0; i < threads; i++) { $5 }
        }
    " > "$work/$1.cml"
}

# A token goes round sixteen threads, which the first has sent to itself.
make_script token 16 1500 \
    'for (i = 0; i < threads; i++) print "mailbox m" i' \
    'if (k + i == 0) say(0, "send m0 1"); say(i, "recv m" i); say(i, "send m" (i + 1) % threads " 1")'
# Eight threads take two of four variables each, those with lower numbers first, and put them back.
make_script locks 8 1000 \
    'for (i = 0; i < 4; i++) print "mvar v" i " 1"' \
    'a = (i + k) % 3; say(i, "take v" a); say(i, "take v" a + 1); say(i, "put v" a " 1"); say(i, "put v" a + 1 " 1")'
# One multicasts to the eight others, and after each message waits until the last of them says that it came.
make_script ports 9 1500 \
    'print "channel c\nmailbox m"; for (i = 1; i < threads; i++) print "port c p" i' \
    'if (i > 0) say(i, "recv p" i); else say(0, "multicast c " k); if (i == threads - 1) say(i, "send m 1"); if (i == 0) say(0, "recv m")'
# Four receive what four others send.
make_script crowd 8 4000 \
    'print "mailbox m"' \
    'say(i, i < 4 ? "recv m" : "send m " k)'

for _ in 1 2 3; do
    everywhere "$bench" 300000 var2
    everywhere "$bench" 1000000 fanin4
    everywhere "$bench" 300000 token8
    everywhere "$bench" 300000 token63
    everywhere "$bench" 300000 server32
    for name in token locks ports crowd; do
        everywhere sh -c "exec '$cml' run < '$work/$name.cml'"
    done
done
count
