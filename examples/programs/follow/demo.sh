#!/bin/sh
# A leader is killed, and the next one has all that was put: `sh examples/programs/follow/demo.sh`, with the library where pkg-config finds
# it. Redis and two servers run on ports from 7100 on, or from the number that is named.
set -e
cd "$(dirname "$0")"
port=${1:-7100}
make -s
work=$(mktemp -d)
pids=
trap 'kill -9 $pids 2> /dev/null; rm -rf "$work"' EXIT
trap 'exit 1' HUP INT TERM

redis-server --port "$port" --bind 127.0.0.1 --dir "$work" --save '' --appendonly yes --appendfsync always > "$work/redis" &
pids="$pids $!"
until [ "$(redis-cli -p "$port" ping 2>&1)" = PONG ]; do
    kill -0 $! || { cat "$work/redis"; exit 1; }
    sleep 0.1
done
for place in 1 2; do
    out/follow serve "$port" letters $((port + place)) > "$work/said.$place" &
    eval "server_$place=$!"
    pids="$pids $!"
done

# client LINE..: the lines as requests of client 1, and the answers.
client() {
    printf '%s\n' "$@" | out/follow client 1 $((port + 1)) $((port + 2)) > "$work/answers"
    printf '%s\n' "$@" | paste -d ':' - "$work/answers" | sed 's/:/: /'
}

client 'put greetings hello' 'put greetings good day' 'count greetings'
leader=1
grep -q '^leads' "$work/said.1" || leader=2
kill -9 "$(eval "echo \$server_$leader")"
echo "killed the leader, at port $((port + leader))"
client 'get greetings' 'get greetings' 'get greetings'
echo "the one at port $((port + 3 - leader)) $(grep '^leads' "$work/said.$((3 - leader))")"
