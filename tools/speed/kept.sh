#!/bin/sh
# Kept messages a second, beside SQLite and Redis: `sh tools/speed/kept.sh PREFIX [SECONDS [ROUNDS]]`. PREFIX has the installed
# library. It measures all ways by turns on the disk of $TMPDIR, and prints the medians as a table. Then it prints how long
# callers wait while a long file becomes short. It wants redis-server, libhiredis-dev and libsqlite3-dev.
set -e
cd "$(dirname "$0")/../.."
prefix=$1
seconds=${2:-3}
rounds=${3:-5}
port=7391
ways='memory file sealed sqlite sqlite_batched redis redis_pipelined disk file_synced fdatasync sqlite_full sqlite_batched_full redis_always redis_pipelined_always'
work=$(mktemp -d "${TMPDIR:-/tmp}/kept.XXXXXX")
trap 'redis-cli -p $port shutdown nosave 2> /dev/null || true; rm -rf "$work"' EXIT
cc -std=gnu11 -O2 -Wall -Wextra -Werror -I "$prefix/include" tools/speed/kept.c "$prefix/lib/libseryugo.a" -lhiredis -lsqlite3 -pthread \
    -o "$work/kept"
cc -std=gnu11 -O2 -Wall -Wextra -Werror -I "$prefix/include" tools/speed/state.c "$prefix/lib/libseryugo.a" -pthread -o "$work/state"

# serve WHEN: starts an empty Redis that syncs its file then.
serve() {
    redis-server --port $port --bind 127.0.0.1 --appendonly yes --appendfsync "$1" --save '' --dir "$work" --daemonize yes > /dev/null
    until redis-cli -p $port ping > /dev/null 2>&1; do sleep 0.1; done
}

# measure WAY THREADS
measure() {
    rm -rf "$work"/base* "$work/appendonlydir"
    case $1 in
        redis*)
            case $1 in *always) serve always ;; *) serve everysec ;; esac
            "$work/kept" "$1" "$2" "$seconds" $port
            redis-cli -p $port shutdown nosave > /dev/null
            ;;
        *) "$work/kept" "$1" "$2" "$seconds" "$work/base" ;;
    esac
}

# median FILE
median() { sort -n "$1" | awk '{ all[NR] = $1 } END { print all[int((NR + 1) / 2)] }'; }

for _ in $(seq "$rounds"); do
    for threads in 1 8 64; do
        for way in $ways; do
            measure "$way" "$threads" >> "$work/$way.$threads.told"
        done
    done
done
echo '| Kept messages a second | 1 thread | 8 threads | 64 threads |'
echo '| --- | ---: | ---: | ---: |'
for way in $ways; do
    echo "| \`$way\` | $(median "$work/$way.1.told") | $(median "$work/$way.8.told") | $(median "$work/$way.64.told") |"
done
echo
"$work/state" "$work/state.journal"
