#!/bin/sh
# A file is exchanged for a short one, while calls of the system fail, do a part, are interrupted, or the program is killed before
# them: `sh tests/c/shortened.sh PROGRAM FAULTS.so REFUSE.so N`, where PROGRAM is built of shortened.c and the others of faults.c
# and tests/lib/refuse.c. The K-th call of each kind is met, for K up to N, alone or with all later ones, and so is each request
# for memory. After it the name leads to the old file, gone on with or not, or to the new one. The next run exchanges it, has what
# was there, and leaves nothing beside.
set -e
program=$1
faults=$2
refuse=$3
most=$4
work=$(mktemp -d "${SERYUGO_TRY:-.}/shortened.XXXXXX")
trap 'rm -rf "$work"' EXIT

fail() {
    echo "tests/c/shortened.sh: $base, $fault: $1" >&2
    cat "$work/error" "$work/left" >&2
    ls -l "$work" >&2
    exit 1
}

# opened WORD..: opens the file with these variables, and writes what it leaves.
opened() {
    status=0
    env "$@" "$program" "$work/x.journal" "$messages" "$from" > "$work/left" 2> "$work/error" || status=$?
}

# text FILE: its text, up to the first byte 0 and the last line end.
text() { { cat "$1"; printf '\0'; } | tr '\0\n' '\n\0' | head -n 1 | tr '\0\n' '\n\0' | sed '$d'; }

# is_one: the file is the old one, also with a new piece's beginning, or the new one.
is_one() {
    text "$work/x.journal" > "$work/text"
    cmp -s "$work/text" "$work/short" || cmp -s -n "$(wc -c < "$work/$base")" "$work/text" "$work/$base"
}

# one WORD..: opens the file so, looks at it, and opens it as it is.
one() {
    cp "$work/$base" "$work/x.journal"
    [ -z "$leftover" ] || head -c 100 "$work/short" > "$work/x.journal.new"
    opened "$@"
    cases=$((cases + 1))
    grep -q 'fault met' "$work/error" && met=$((met + 1))
    case $status in
        0) [ "$(cat "$work/left")" = "$(cat "$work/expected")" ] || fail 'it leaves something else' ;;
        137) killed=$((killed + 1)) ;;
        *) refused=$((refused + 1)) ;;
    esac
    is_one || fail 'the file is neither the old nor the new one'
    case $fault in
        *:kill* | unlinkat:*) ;;
        *) [ -n "$leftover" ] || [ ! -e "$work/x.journal.new" ] || fail 'the new file is left beside' ;;
    esac
    ! grep -q 'opened long' "$work/error" || long=$((long + 1))
    opened -u FAULT
    [ "$status" -eq 0 ] || fail "the next run ended with $status"
    [ "$(cat "$work/left")" = "$(cat "$work/expected")" ] || fail 'the next run leaves something else'
    text "$work/x.journal" > "$work/text"
    cmp -s "$work/text" "$work/short" || fail 'the next run has not exchanged the file'
    [ ! -e "$work/x.journal.new" ] || fail 'a file is left beside'
    rm -f "$work/x.journal"
}

# prepare: finds out what the base becomes, and what that leaves.
prepare() {
    fault=
    messages=$([ "$base" = sealed ] && echo bytes || echo numbers)
    from=$([ "$base" = plain ] && echo 5000 || echo 0)
    cp "$work/$base" "$work/x.journal"
    opened -u FAULT
    [ "$status" -eq 0 ] && grep -q 'opened short' "$work/error" || fail "ended with $status"
    cp "$work/left" "$work/expected"
    cp "$work/x.journal" "$work/short"
    [ "$(wc -l < "$work/short")" -eq 7 ] || fail 'it is not short'
    rm "$work/x.journal"
}

# calls CALL..: meets each of these calls.
calls() {
    for call; do
        for kind in kill fail full short eintr; do
            case $call-$kind in
                pwrite-* | *-kill | *-fail | fsync-* | flock-eintr | open-eintr | posix_fallocate-full) ;;
                *) continue ;;
            esac
            at=1
            while [ "$at" -le "$most" ]; do
                for all in '' :all; do
                    [ "$kind$all" != eintr:all ] && [ "$kind$all" != kill:all ] || continue
                    fault=$call:$at:$kind$all
                    one FAULT="$fault" LD_PRELOAD="$faults"
                done
                # There is no such call any more.
                [ "$met" -ne "${before:-0}" ] || at=$most
                before=$met
                at=$((at + 1))
            done
        done
    done
}

# memory: refuses each request for memory.
memory() {
    request=1
    while rm -f "$work/met"; do
        fault="request $request"
        one REFUSE="$request" TOLD="$work/met" LD_PRELOAD="$refuse"
        one REFUSE="$request" REFUSE_REST=1 LD_PRELOAD="$refuse"
        [ -e "$work/met" ] || break
        request=$((request + 1))
    done
}

# journal COUNT HEADER EQUALS: a journal without its end, of so many messages. Two of them wait.
journal() {
    awk -v count="$1" -v header="$2" -v equals="$3" 'BEGIN {
        print header "\nseat 0 mailbox: made 0\nseat 1 channel: made 1\nseat 1 port 1: made 2\nseat 0 multicast 1 " equals "9: done"
        for (at = 0; at < count; at++) print "seat 0 send 0 " equals at ": done"
        for (at = 0; at < count - 2; at++) print "seat 0 recv 0: " equals at
    }'
}

leftover=
cases=0
met=0
killed=0
refused=0
long=0
journal 300 'journal 1' '' > "$work/plain"
{ journal 300 'journal 1' ''; echo 'end 602'; } > "$work/ended"
{ journal 300 'journal 4' =; echo "end 602 $(journal 300 'journal 4' = | sha256sum | cut -d ' ' -f 1)"; } > "$work/sealed"
{ journal 4 'journal 1' ''; echo 'end 10'; } > "$work/little"
for base in plain ended sealed; do
    prepare
    calls open flock fchmod pwrite fsync pread renameat unlinkat ftruncate posix_fallocate
done
# The last one again, beside what a program left that was killed.
leftover=yes
calls open flock ftruncate pread
leftover=
base=little
prepare
memory
echo "$cases cases of an exchange, $met with a failing call and $request with a request for memory: $killed were killed, $refused"
echo "refused by name, and $long went on with the old file"
