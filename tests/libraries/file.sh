#!/bin/sh
# A journal in a file, from C: `sh tests/libraries/file.sh PREFIX [KILLS [FAULTS [CRASHES]]]`, where PREFIX is a folder that
# bindings/install.sh has installed into. It runs the programs of tests/c for it, KILLS kills (else 30) of a long file and as many of
# one that stays short, and the first FAULTS calls of each kind (else 1) failing. With FAULTS 0 it leaves these out. The power is
# lost CRASHES times (else 200).
set -e
cd "$(dirname "$0")/../.."
prefix=$1
kills=${2:-30}
faults=${3:-1}
crashes=${4:-200}
work=$(mktemp -d "${TMPDIR:-/tmp}/file.XXXXXX")
trap 'rm -rf "$work"' EXIT
# Another user opens files here, too.
chmod 755 "$work"
export SERYUGO_TRY="$work"

for program in tests/c/file.c tests/c/file_traps.c tests/c/shortened.c tests/c/seals.c tests/c/kills.c tests/c/exchanges.c \
    tests/c/exchange_faults.c tests/c/exchange_syncs.c tests/c/disk_waits.c tests/c/crashes.c examples/c/durable.c; do
    "${CC:-cc}" -std=gnu11 -O2 -Wall -Wextra -Werror -I "$prefix/include" "$program" "$prefix/lib/libseryugo.a" -pthread \
        -ldl -o "$work/$(basename "$program" .c)"
done
"${CC:-cc}" -std=gnu11 -O2 -shared -fPIC tests/c/faults.c -ldl -o "$work/faults.so"
"${CC:-cc}" -std=gnu11 -O2 -shared -fPIC tests/lib/refuse.c -ldl -o "$work/refuse.so"
# A fault has the words of `cml check`: those of the crate, in the same order.
sed -n '/^pub enum What/,/^}/s/.*#\[error("\(.*\)")\]/\1/p' crates/cml_journal/src/fault.rt > "$work/faults"
sed -n '/^const char \*seryugo_fault_text/,/^}/s/^ *"\(.*\)",$/\1/p' lib/open.c | cmp - "$work/faults"
mkdir -m 777 "$work/files" "$work/traps" "$work/short" "$work/exchanged" "$work/disk" "$work/sealed"
"$work/file" "$work/files"
"$work/file_traps" "$work/traps"
"$work/shortened" "$work/short"
"$work/seals" "$work/sealed"
"$work/disk_waits" "$work/disk"
"$work/crashes" "$work/disk" "$crashes"
[ "$("$work/durable" "$work/letters.journal" && "$work/durable" "$work/letters.journal")" = 'letter 0
letter 3' ]
sh tests/c/full_disk.sh "$work/kills"
sh tests/c/kills.sh "$work/kills" "$kills"
"$work/exchanges" "$work/exchanged" "$kills"
"$work/exchange_syncs" "$work/exchanged"
[ "$faults" -eq 0 ] || "$work/exchange_faults" "$work/exchanged" "$faults"
[ "$faults" -eq 0 ] || sh tests/c/faults.sh "$work/kills" "$work/faults.so" "$faults"
[ "$faults" -eq 0 ] || sh tests/c/shortened.sh "$work/shortened" "$work/faults.so" "$work/refuse.so" "$((faults + 2))"
