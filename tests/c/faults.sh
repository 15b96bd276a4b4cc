#!/bin/sh
# Calls of the system fail, do a part, or are interrupted: `sh tests/c/faults.sh PROGRAM FAULTS.so N`, where PROGRAM is built of
# kills.c and FAULTS.so of faults.c. The K-th call of each kind is met, for K up to N, alone or with all later ones: on a new
# file, and on one with a torn end. What the program printed is in the file, each once; what was there before is there still; and
# the next run goes on. A file that is no journal stays as it is, byte for byte.
set -e
program=$1
faults=$2
most=$3
here=$(cd "$(dirname "$0")" && pwd)
work=$(mktemp -d "${SERYUGO_TRY:-.}/faults.XXXXXX")
trap 'rm -rf "$work"' EXIT

# text FILE: its text, up to the first byte 0 and the last line end.
text() { { cat "$1"; printf '\0'; } | tr '\0\n' '\n\0' | head -n 1 | tr '\0\n' '\n\0' | sed '$d'; }

fail() {
    echo "tests/c/faults.sh: $fault, $base, $way: $1" >&2
    cat "$work/error" >&2
    exit 1
}

# told RUN FAULT: runs the program, and adds what it prints.
told() {
    status=0
    FAULT=$2 LD_PRELOAD=$faults "$program" "$work/x.journal" "$1" "$each" $way 4096 > "$work/now" 2> "$work/error" || status=$?
    cat "$work/now" >> "$work/all"
    [ "$status" -lt 128 ] || fail "ended with $status"
}

# kept: all of it is in the file, and what was there before.
kept() {
    [ -f "$work/x.journal" ] || { [ ! -s "$work/all" ] || fail 'there is no file'; return 0; }
    text "$work/x.journal" > "$work/text"
    awk -f "$here/kept.awk" "$work/all" "$work/text" > "$work/verdict" || { cat "$work/verdict" >&2; fail 'calls are lost'; }
    [ "$base" = new ] || cmp -n "$(wc -c < "$work/base.text")" "$work/base.text" "$work/text" > "$work/verdict" \
        || fail 'what was there is lost'
}

# prepare: a journal of a run that ended, with half a line and zeros behind it.
prepare() {
    rm -f "$work"/x.journal*
    : > "$work/all"
    told 1 ''
    cp "$work/all" "$work/base.told"
    text "$work/x.journal" > "$work/base.text"
    { cat "$work/base.text"; printf 'seat 9 send 0 1'; head -c 5000 /dev/zero; } > "$work/base"
}

# one: one fault, a look, and a run without it.
one() {
    rm -f "$work"/x.journal*
    : > "$work/all"
    if [ "$base" = torn ]; then
        cp "$work/base" "$work/x.journal"
        cp "$work/base.told" "$work/all"
    fi
    told 2 "$fault"
    grep -q 'fault met' "$work/error" && met=$((met + 1))
    [ "$status" -eq 0 ] || refused=$((refused + 1))
    kept
    told 3 ''
    [ "$status" -eq 0 ] || fail "the next run ended with $status"
    kept
    cases=$((cases + 1))
    # What isn't a journal.
    printf '{"precious": 1}' > "$work/y.journal"
    FAULT=$fault LD_PRELOAD=$faults "$program" "$work/y.journal" 1 1 $way > "$work/now" 2> "$work/error" \
        && fail 'a file that is no journal was opened'
    [ "$(cat "$work/y.journal")" = '{"precious": 1}' ] || fail 'a file that is no journal was changed'
}

each=25
cases=0
met=0
refused=0
fault=
base=new
for way in numbers 'bytes writes' writes bytes; do
    base=new
    prepare
    for base in new torn; do
        for call in pwrite fsync fdatasync ftruncate posix_fallocate rename open; do
            for kind in fail full short eintr; do
                case $call-$kind in
                    *-short) [ "$call" = pwrite ] || [ "$call" = rename ] || continue ;;
                esac
                at=1
                while [ "$at" -le "$most" ]; do
                    for all in '' :all; do
                        [ "$kind$all" != eintr:all ] || continue
                        fault=$call:$at:$kind$all
                        one
                    done
                    # There is no such call any more.
                    [ "$met" -ne "${before:-0}" ] || at=$most
                    before=$met
                    at=$((at + 1))
                done
            done
        done
    done
done
# A close whose sync or cut fails says why. The first cut is made as the file is opened.
for call in fdatasync:1 ftruncate:2; do
    rm -f "$work"/x.journal*
    FAULT=$call:fail:all LD_PRELOAD=$faults "$program" "$work/x.journal" 1 0 > "$work/now" 2> "$work/error" \
        && fail 'the close went well'
    grep -q '^close: .*: Input/output error$' "$work/error" || fail "the close doesn't say why $call failed"
done
echo "$cases cases, of which $met met their fault and $refused were refused by name: nothing is lost, and what is no journal stays"
