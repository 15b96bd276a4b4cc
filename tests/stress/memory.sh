#!/bin/sh
# A log or a board that is read as it is written takes no more memory the longer it is used: `sh tests/stress/memory.sh PROGRAM`. The
# built cml_bench passes ten million messages through each log, with eight cursors that keep up, in less memory than half of
# the messages would take; and through a board whose journal is cut, which has two entries for each. A board whose journal
# grows must not fit there: else the limit limits nothing. Each thread needs more address space, so a switchboard's limit
# is higher: with a lower one the C library tries in vain to make a heap for the thread at each request. There two million
# messages, each with two entries, must not fit uncut either.
# The last line is `N passed, M failed`.
top=$(cd "$(dirname "$0")/../.." && pwd) || exit 1
. "$top/tests/lib/cases.sh"
program=$(absolute "$1")

# within CASE KILOBYTES STATUS WORD..: the program's status with these words, in this much address space.
within() {
    name=$1
    kilobytes=$2
    wanted=$3
    shift 3
    told=$( (ulimit -v $kilobytes && bounded "$program" "$@") 2>&1)
    status=$?
    if [ $status -eq "$wanted" ]; then pass; else fail "$name: status $status, $told"; fi
}

within 'ten million messages through each log' 40000 0 10000000 log8
within 'a journal that is cut' 40000 0 10000000 soak1
within 'journals that grow' 40000 1 1000000
within 'a journal that a thread takes' 200000 0 2000000 soak2
within 'a journal that is cut while lanes and feeds are open' 200000 0 2000000 soak_lanes
within 'journals that grow beside threads' 200000 1 2000000
count
