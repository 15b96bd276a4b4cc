#!/bin/sh
# How many instructions a message takes through the library: `sh tests/libraries/instructions.sh ARCHIVE`, with the proved archive.
# None takes more than 1.05 times what docs/speed.tsv says. valgrind counts them, so no clock and no other program changes what this
# finds. The last line is `N passed, M failed`.
[ $# -eq 1 ] || { echo "usage: sh tests/libraries/instructions.sh ARCHIVE"; exit 2; }
top=$(cd "$(dirname "$0")/../.." && pwd) || exit 1
. "$top/tests/lib/cases.sh"
rooms=$(absolute "$1")
cd "$top" || exit 1
. tools/speed/instructions.sh

for program in valgrind cc cargo; do
    has $program 'how many instructions a message takes' || leave_out 'instructions' $program
done

# of_page WORKLOAD WAY: how many the page has.
of_page() { awk -F '\t' -v workload="$1" -v way="$2" '$1 == "instructions" && $2 == workload && $3 == way && $4 == "now" { print $5 }' docs/speed.tsv; }

# is_as_said WORKLOAD WAY COUNT: so many instructions are at most 1.05 times those of the page.
is_as_said() {
    said=$(of_page "$1" "$2")
    echo "$1, $2: $3 instructions, $said on the page"
    [ -n "$said" ] && [ $(($3 * 100)) -le $((said * 105)) ]
}

in_c() {
    cc -O2 -I "$work/prefix/include" tools/speed/speed.c "$work/prefix/lib/libseryugo.a" -o "$work/speed_in_c" &&
        count_in_c "$work/speed_in_c"
}

in_rust() {
    cp -r bindings/rust/seryugo "$work/crate" || return
    env SERYUGO_PREFIX="$work/prefix" CARGO_TARGET_DIR="$work/target" \
        cargo build --release --quiet --offline --manifest-path "$work/crate/Cargo.toml" --example speed || return
    count_in_rust "$work/target/release/examples/speed"
}

check 'the library is installed' install_rooms "$rooms" "$work/prefix"
check 'from C' in_c
cp "$work/told" "$work/counts"
check 'from Rust' in_rust
cat "$work/told" >> "$work/counts"
while IFS='|' read -r workload way count; do
    check "$workload, $way" is_as_said "$workload" "$way" "$count"
done << END
$(sed -n 's/^\(.*[^ ]\)  \(.*[^ ]\)  \([0-9]*\)$/\1|\2|\3/p' "$work/counts" | grep -v '|by hand\||mpsc')
END
count
