#!/bin/sh
# `cml check` from outside: `sh tests/cml/journals.sh CML`, or `sh tests/cml/journals.sh CML few`, which leaves out the long journal
# and most changed ones. Lawful journals of all calls, in both versions and in several pieces; unlawful ones; the lines of the
# objects; each fault of the format; a journal of many entries in little memory; other words, a terminal, and streams that are cut
# anywhere or fail. Then what is nearly a journal: each byte made others, each prefix, and each line and each piece left out,
# doubled or exchanged with the next. Of these the program has to say just what the plain program journal_judge.awk says. The last
# line is `N passed, M failed`.
LC_ALL=C
export LC_ALL
top=$(cd "$(dirname "$0")/../.." && pwd) || exit 1
. "$top/tests/lib/cases.sh"
program=$(absolute "$1")
few=$2
cd "$top" || exit 1

# told CASE STATUS OUT ERR LINES: what the program says of a journal of these lines, which are parted by ` / `. The judge has to
# say so too.
told() {
    script "$5" > "$work/in"
    run check < "$work/in"
    expect "$1" "$2" "$3" "$4"
    cases=$((cases + 1))
    cp "$work/in" "$work/cases/told.$cases"
}

# unended CASE WORDS TEXT: a text, with the escapes of printf, that has no fault and no end.
unended() {
    printf "$3" > "$work/in"
    run check < "$work/in"
    expect "$1" 2 none "journal: $2"
    case $3 in
        *'\000'*) ;; # the judge reads no such text
        *)
            cases=$((cases + 1))
            cp "$work/in" "$work/cases/told.$cases"
            ;;
    esac
}

# unlike CASE VERDICT ANSWER LINES: a journal that isn't lawful, and the right answer to the call.
unlike() { told "$1" 7 "$(printf '%s\nanswer: %s' "$2" "$3")" none "$4"; }

# left CASE STATE LINES: a lawful journal, and the lines of its objects; the lines of both are parted by ` / `.
left() {
    script "$3" > "$work/in"
    run check --state < "$work/in"
    expect "$1" 0 "$(script "$2")" none
}

# told_sealed CASE STATUS OUT ERR LINES: the same of sealed pieces. `SUM` in OUT becomes the last sum.
told_sealed() {
    seal "$5" > "$work/in"
    run check < "$work/in"
    last=$(sed -n '$s/.* //p' "$work/in")
    expect "$1" "$2" "$(echo "$3" | sed "s/SUM/$last/")" "$4"
    cases=$((cases + 1))
    cp "$work/in" "$work/cases/told.$cases"
}

mkdir "$work/cases"
cases=0

# Calls of all kinds, by a seat, a lane and a feed.
all='journal 1 / seat 0 mailbox: made 0 / seat 0 channel: made 1 / seat 0 ivar: made 2 / seat 0 mvar: made 3 / seat 0 mvar 9: made 4
 / seat 1 send 0 5: done / lane 0 send 0 18446744073709551615: done / seat 2 recv 0: 5 / seat 2 poll 0: 18446744073709551615
 / seat 2 poll 0: none / seat 1 port 1: made 5 / feed 0 port 1: made 6 / seat 1 multicast 1 7: done / lane 3 multicast 1 8: done
 / seat 1 copy 5: made 7 / seat 1 recv 5: 7 / feed 0 recv 6: 7 / seat 1 poll 7: 7 / seat 1 close 5: done / seat 1 close 5: closed
 / seat 1 recv 5: closed / seat 1 poll 5: closed / seat 1 copy 5: closed / seat 1 getpoll 2: none / seat 1 put 2 1: done
 / seat 1 put 2 6: put / seat 1 get 2: 1 / seat 1 getpoll 2: 1 / seat 1 takepoll 3: none / seat 1 put 3 4: done / seat 1 swap 3 0: 4
 / seat 1 take 3: 0 / seat 1 takepoll 4: 9 / end 33'
all=$(printf '%s' "$all" | tr -d '\n')
letters='journal 1 / seat 0 mailbox: made 0 / seat 1 send 0 5: done / seat 0 recv 0: 5 / end 3'

# Calls with messages of bytes, in four pieces, of which one has no entry.
pieces='journal 2 / seat 0 mailbox: made 0 / seat 0 channel: made 1 / seat 0 ivar: made 2 / seat 0 mvar =x%20y: made 3
 / seat 1 send 0 =%00%FF: done / lane 0 send 0 =: done / seat 1 port 1: made 4 / end 7 / journal 2 / from 7 / end 7 / journal 2 / from 7
 / feed 2 port 1: made 5 / lane 1 multicast 1 =done: done / seat 2 recv 0: =%00%FF / seat 1 copy 4: made 6 / seat 1 poll 6: =done
 / seat 1 poll 6: none / seat 2 poll 0: = / seat 2 close 4: done / end 15 / journal 2 / from 15 / seat 2 recv 4: closed
 / feed 2 recv 5: =done / seat 1 put 2 =%25: done / seat 1 get 2: =%25 / seat 1 swap 3 =b: =x%20y / seat 1 put 3 =c: put
 / seat 1 take 3: =b / seat 1 getpoll 3: none / end 23'
pieces=$(printf '%s' "$pieces" | tr -d '\n')
# Three sealed pieces.
chain='journal 3 / seat 0 mailbox: made 0 / end 1 SUM / journal 3 BEFORE / from 1 / seat 1 send 0 5: done / end 2 SUM
 / journal 3 BEFORE / from 2 / seat 0 recv 0: 5 / end 3 SUM'
chain=$(printf '%s' "$chain" | tr -d '\n')
cut='journal 1 / from 10 / seat 0 recv 2: 5 / end 11'
# What may be on a journal's first line, and on the first of its entries.
any_header='`journal 1`, `journal 2`, `journal 3` or `journal 4`'
entry_or_end='an entry, or `end 0`'

# each_call VERSION: a journal of each call of the table on each kind of object that takes it, with each reply.
each_call() { awk -v part=journal -v version="$1" -f tests/models/calls.awk -f tests/models/each_call.awk; }

lawful() {
    told 'all kinds of calls' 0 'lawful 33' none "$all"
    for version in 1 2; do
        each_call "$version" > "$work/in"
        run check < "$work/in"
        expect "each call with each reply, in version $version" 0 "lawful $(($(wc -l < "$work/in") - 2))" none
        cp "$work/in" "$work/cases/each$version"
    done
    told 'no entry' 0 'lawful 0' none 'journal 1 / end 0'
    told 'two pieces' 0 'lawful 3' none \
        'journal 1 / seat 0 mailbox: made 0 / end 1 / journal 1 / from 1 / seat 1 send 0 5: done / seat 0 recv 0: 5 / end 3'
    told 'a piece of nothing' 0 'lawful 1' none 'journal 1 / seat 0 mailbox: made 0 / end 1 / journal 1 / from 1 / end 1'
    told 'messages of bytes' 0 'lawful 4' none \
        'journal 2 / seat 0 mailbox: made 0 / seat 1 send 0 =a%20b%25%00%FF: done / seat 1 recv 0: =a%20b%25%00%FF / seat 1 mvar =: made 1 / end 4'
    told 'bytes that are a reply' 0 'lawful 3' none \
        'journal 2 / seat 0 mailbox: made 0 / seat 1 send 0 =none: done / seat 1 poll 0: =none / end 3'
    for journal in examples/scripts/*.journal; do
        run check < "$journal"
        expect "$journal" 0 some none
    done
}

unlawful() {
    unlike 'another message' 'unlawful at 2: seat 0 recv 0: 6' 5 "$(echo "$letters" | sed 's/recv 0: 5/recv 0: 6/')"
    unlike 'a message that was never sent' 'unlawful at 1: seat 0 recv 0: 5' waits \
        'journal 1 / seat 0 mailbox: made 0 / seat 0 recv 0: 5 / end 2'
    unlike 'no object' 'unlawful at 0: lane 4 send 0 5: done' 'no such object' 'journal 1 / lane 4 send 0 5: done / end 1'
    unlike 'another kind of object' 'unlawful at 1: seat 0 take 0: 5' 'wrong kind' \
        'journal 1 / seat 0 mailbox: made 0 / seat 0 take 0: 5 / end 2'
    unlike 'the number of another object' 'unlawful at 0: seat 0 mailbox: made 1' 'made 0' 'journal 1 / seat 0 mailbox: made 1 / end 1'
    unlike 'a poll that finds what is there' 'unlawful at 2: seat 0 poll 0: none' 5 "$(echo "$letters" | sed 's/recv 0: 5/poll 0: none/')"
    unlike 'a poll that finds nothing' 'unlawful at 1: seat 0 poll 0: 5' none 'journal 1 / seat 0 mailbox: made 0 / seat 0 poll 0: 5 / end 2'
    unlike 'a variable that is empty' 'unlawful at 1: seat 0 put 0 1: put' 'done' 'journal 1 / seat 0 ivar: made 0 / seat 0 put 0 1: put / end 2'
    unlike 'a variable that is full' 'unlawful at 2: seat 0 put 0 2: done' put \
        'journal 1 / seat 0 ivar: made 0 / seat 0 put 0 1: done / seat 0 put 0 2: done / end 3'
    unlike 'a port that is closed' 'unlawful at 3: seat 0 poll 1: none' closed \
        'journal 1 / seat 0 channel: made 0 / seat 0 port 0: made 1 / seat 0 close 1: done / seat 0 poll 1: none / end 4'
    unlike 'bytes out of order' 'unlawful at 3: seat 1 recv 0: =b' =a%20 \
        'journal 2 / seat 0 mailbox: made 0 / seat 1 send 0 =a%20: done / seat 1 send 0 =b: done / seat 1 recv 0: =b / end 4'
    unlike 'what is after is not read' 'unlawful at 0: seat 0 mailbox: made 7' 'made 0' 'journal 1 / seat 0 mailbox: made 7 / what / end 9'
}

# The lines of the objects, as a report has them.
states() {
    left 'no object' 'lawful 0' 'journal 1 / end 0'
    left 'objects of all kinds' "$(printf '%s' 'lawful 33 / mailbox 0: sent 2 got 2 waits 0 / channel 1: sent 2 kept 2 first 0 / ivar 2: full 1
 / mvar 3: empty / mvar 4: empty / port 5: start 0 got 1 closed / port 6: start 0 got 1 owed 1 / port 7: start 0 got 1 owed 1' | tr -d '\n')" "$all"
    left 'bytes' 'lawful 3 / mailbox 0: sent 1 got 0 waits 1 / mvar 1: full =%20' \
        'journal 2 / seat 0 mailbox: made 0 / seat 0 mvar =%20: made 1 / seat 0 send 0 =x: done / end 3'
    run check --state < /dev/null
    expect 'the state of nothing' 2 none 'journal: torn after line 0'
    for journal in examples/scripts/*.journal; do
        report=${journal%.journal}.report
        [ -f "$report" ] || continue
        run check --state < "$journal"
        same_state "$journal" "$report"
    done
}

# same_state JOURNAL REPORT: the objects' lines are those of the report, except the names. A feed has a port's line and what was
# taken of it.
same_state() {
    sed -n 's/^\(mailbox\|channel\|port\|ivar\|mvar\|feed\) [^ :]*:/\1:/p' "$2" | sed 's/^feed:\(.*\) taken [0-9]*$/port:\1/' | grep -v ': not made$' | sort > "$work/wanted"
    sed -n '1d; s/^\([a-z]*\) [0-9]*:/\1:/p' "$work/out" | sort > "$work/found"
    if [ "$status" = 0 ] && cmp -s "$work/wanted" "$work/found"; then
        pass
    else
        fail "the state of $1: $(diff "$work/wanted" "$work/found" | head -n 3)"
    fi
}

# Pieces with sums.
sealed() {
    lawful="lawful %s
sum SUM"
    # shellcheck disable=SC2059
    verdict() { printf "$lawful" "$1"; }
    told_sealed 'no entry, with a sum' 0 "$(verdict 0)" none 'journal 3 / end 0 SUM'
    told_sealed 'a sealed piece' 0 "$(verdict 2)" none \
        'journal 3 / seat 0 mailbox: made 0 / seat 1 send 0 5: done / end 2 SUM'
    told_sealed 'sealed pieces' 0 "$(verdict 3)" none "$chain"
    told_sealed 'sealed bytes' 0 "$(verdict 2)" none \
        "journal 4 / seat 0 mailbox: made 0 / end 1 SUM / journal 4 BEFORE / from 1 / seat 1 send 0 =a'%20b: done / end 2 SUM"
    told_sealed 'a sealed piece of nothing' 0 "$(verdict 1)" none \
        'journal 3 / seat 0 mailbox: made 0 / end 1 SUM / journal 3 BEFORE / from 1 / end 1 SUM'
    within='an entry, or `end 0 SUM`'
    for fault in \
        "2 wrong sum|$within|journal 3 / end 0 OTHER" \
        "2 wrong sum|$within|journal 3 / end 0 x" \
        "2 wrong end|$within|journal 3 / end 1 SUM" \
        "2 wrong end|$within|journal 3 / end 1 x" \
        '4 wrong end|an entry, or `end 2 SUM`|journal 3 / seat 0 mailbox: made 0 / lane 0 send 0 5: done / end 1 SUM' \
        "2 too few words|$within|journal 3 / end 0" \
        "2 bad number|$within|journal 3 / end 00 SUM" \
        '2 unknown word|an entry, or `end 0`|journal 1 / end 0 SUM' \
        "1 wrong sum|$any_header|journal 3 OTHER / end 0 SUM" \
        "1 wrong sum|$any_header|journal 3 x / end 0 SUM" \
        "1 no header|$any_header|journal 1 OTHER / end 0" \
        "1 another version|$any_header|journal 5 OTHER / end 0" \
        '3 wrong sum|`journal 3 LAST`|journal 3 / end 0 SUM / journal 3 / end 0 SUM' \
        '3 wrong sum|`journal 3 LAST`|journal 3 / end 0 SUM / journal 3 OTHER / end 0 SUM' \
        '3 no header|`journal 4 LAST`|journal 4 / end 0 SUM / journal 2 / end 0' \
        '3 another type of messages|`journal 3 LAST`|journal 3 / end 0 SUM / journal 4 BEFORE / end 0 SUM' \
        '3 another version|`journal 3 LAST`|journal 3 / end 0 SUM / journal 6 BEFORE / end 0 SUM' \
        '3 no header|`journal 1`|journal 1 / end 0 / journal 3 / end 0 SUM' \
        '4 gap|an entry, or `end 0 SUM`|journal 3 / end 0 SUM / journal 3 BEFORE / from 1 / end 1 SUM'; do
        place=${fault%%|*}
        rest=${fault#*|}
        faulty_sealed "${place#* }" "${place%% *}" "${rest%%|*}" "${rest#*|}"
    done
    told_sealed 'sealed after a cut' 2 none 'journal: begins after a cut' 'journal 3 / from 1 / end 1 SUM'
    told_sealed 'a sealed piece without an end' 2 none 'journal: open after line 1' 'journal 3'
    seal "$chain" > "$work/in"
    run check --state < "$work/in"
    expect 'the state of sealed pieces' 0 "$(verdict 3 | sed "s/SUM/$(sed -n '$s/.* //p' "$work/in")/"; printf '\nmailbox 0: sent 1 got 1 waits 0')" none
}

# faulty FAULT LINE EXPECTED LINES: a journal with this fault on this line, what is expected there, and the line, which is short.
faulty() { told "$1" 2 none "$(fault_lines "$1" "$2" "$3" "$(script "$4" | sed -n "$2p")")" "$4"; }

# faulty_sealed: the same of sealed pieces. `SUM` in EXPECTED becomes the sum of the piece's lines before the fault, and `LAST` the
# sum of the piece before.
faulty_sealed() {
    seal "$4" > "$work/in"
    last=$(head -n $(($2 - 1)) "$work/in" | sed -n '$s/.* //p')
    so_far=$(head -n $(($2 - 1)) "$work/in" | awk '/^journal / { piece = "" } { piece = piece $0 "\n" } END { printf "%s", piece }' | sha256sum)
    expected=$(echo "$3" | sed "s/SUM/${so_far%% *}/; s/LAST/$last/")
    told_sealed "sealed: $1" 2 none "$(fault_lines "$1" "$2" "$expected" "$(sed -n "$2p" "$work/in")")" "$4"
}

# fault_lines FAULT LINE EXPECTED FOUND: what standard error says.
fault_lines() {
    case ${#4} in
        0) shown='an empty line' ;;
        [1-9] | [1-7][0-9] | 80) shown=\`$4\` ;;
        *) shown=\`$(echo "$4" | cut -c 1-80)\`.. ;;
    esac
    printf 'journal: line %s: %s\nexpected: %s\nfound: %s' "$2" "$1" "$3" "$shown"
}

faults() {
    faulty 'another version' 1 "$any_header" 'journal 5 / end 0'
    faulty 'another version' 1 "$any_header" 'journal 0 / end 0'
    faulty 'another version' 1 "$any_header" 'journal 20 / end 0'
    faulty 'another version' 1 "$any_header" 'journal 5 / from 1 / end 1'
    faulty 'another version' 3 '`journal 2`' 'journal 2 / end 0 / journal 5 x / end 0'
    faulty 'another type of messages' 3 '`journal 1`' 'journal 1 / end 0 / journal 2 / end 0'
    faulty 'another type of messages' 3 '`journal 1`' 'journal 1 / end 0 / journal 4 / end 0'
    faulty 'another type of messages' 4 '`journal 2`' 'journal 2 / seat 0 mvar =: made 0 / end 1 / journal 1 / from 1 / end 1'
    faulty 'no header' 1 "$any_header" 'journal 01 / end 0'
    faulty 'no header' 1 "$any_header" 'journal 2 x / end 0'
    faulty 'no header' 1 "$any_header" 'seat 0 mailbox: made 0'
    faulty 'no header' 1 "$any_header" 'seat 0 mafrom 1'
    faulty 'no header' 1 "$any_header" ' / end 0'
    faulty 'no header' 3 '`journal 1`' 'journal 1 / end 0 / end 0'
    faulty 'unknown word' 2 "$entry_or_end" 'journal 1 / seat 0 letter 5: done / end 1'
    faulty 'unknown word' 2 "$entry_or_end" 'journal 1 / thread 0 mailbox: made 0 / end 1'
    faulty 'bad number' 2 "$entry_or_end" 'journal 1 / seat 00 mailbox: made 0 / end 1'
    faulty 'bad number' 2 "$entry_or_end" 'journal 1 / seat 18446744073709551616 mailbox: made 0 / end 1'
    faulty 'bad message' 2 "$entry_or_end" 'journal 1 / seat 0 send 0 x: done / end 1'
    faulty 'bad message' 2 "$entry_or_end" 'journal 2 / seat 0 send 0 5: done / end 1'
    faulty 'bad message' 2 "$entry_or_end" 'journal 2 / seat 0 send 0 =%2: done / end 1'
    faulty 'bad message' 2 "$entry_or_end" 'journal 2 / seat 0 send 0 =%61: done / end 1'
    faulty 'wrong reply' 2 "$entry_or_end" 'journal 1 / seat 0 mailbox: done / end 1'
    faulty 'wrong reply' 3 'an entry, or `end 1`' 'journal 1 / seat 0 mailbox: made 0 / seat 0 send 0 5: none / end 2'
    faulty 'wrong end' 3 'an entry, or `end 1`' 'journal 1 / seat 0 mailbox: made 0 / end 2'
    faulty 'gap' 5 '`from 1`' 'journal 1 / seat 0 mailbox: made 0 / end 1 / journal 1 / from 2 / end 2'
    faulty 'gap' 5 '`from 1`' 'journal 1 / seat 0 mailbox: made 0 / end 1 / journal 1 / seat 0 mailbox: made 1 / end 2'
    faulty 'gap' 4 "$entry_or_end" 'journal 1 / end 0 / journal 1 / from 1 / end 1'
    told 'bad bytes' 2 none "$(printf 'journal: line 2: bad bytes\nexpected: %s\nfound: `seat 0?mailbox: made 0`' "$entry_or_end")" \
        "journal 1 / seat 0$(printf '\t')mailbox: made 0 / end 1"
    told 'after a cut' 2 none 'journal: begins after a cut' 'journal 1 / from 1 / end 1'
    told 'bytes of a letter' 2 none "$(printf 'journal: line 2: bad bytes\nexpected: %s\nfound: `seat x mailbox: made ??`' "$entry_or_end")" \
        'journal 1 / seat x mailbox: made é / end 1'
    faulty 'bad number' 2 "$entry_or_end" 'journal 1 / thread 00 mailbox: made 0 / end 1'
    faulty 'too few words' 2 "$entry_or_end" 'journal 1 / mailbox / end 1'
    faulty 'too few words' 2 "$entry_or_end" 'journal 1 / end 00'
    faulty 'too few words' 2 "$entry_or_end" 'journal 1 /  / end 0'
    faulty 'no colon' 2 "$entry_or_end" 'journal 1 / seat 0 recv x 5 / end 1'
    faulty 'unknown word' 2 "$entry_or_end" 'journal 1 / seat 0 recv 0: a b / end 1'
    faulty 'bad message' 2 "$entry_or_end" 'journal 1 / seat 0 recv 0: made / end 1'
    faulty 'bad number' 4 "$entry_or_end" 'journal 1 / end 0 / journal 1 / from 0 / end 0'
    wide=$(head -c 80 /dev/zero | tr '\0' w)
    faulty 'too few words' 2 "$entry_or_end" "journal 1 / $wide"
    faulty 'too few words' 2 "$entry_or_end" "journal 1 / ${wide}w"
    told 'a piece without an end' 2 none 'journal: open after line 1' 'journal 1'
    printf 'journal 1\nseat 0 mail\000box: made 0\nend 1\n' > "$work/in"
    run check < "$work/in"
    expect 'a byte 0 in a line' 2 none 'journal: torn after line 1'
    unended 'half a line' 'torn after line 2' 'journal 1\nseat 0 mailbox: made 0\nseat 0 send 0'
    unended 'zeros behind a line' 'open after line 2' 'journal 1\nseat 0 mailbox: made 0\n\000\000nothing\nend 9\n'
    unended 'a beginning of a first line' 'torn after line 0' 'journ'
    unended 'a first line without its end' 'torn after line 0' 'journal 3'
    unended 'a zero alone' 'torn after line 0' '\000'
    unended 'other text' 'not a journal' '{"precious": 1}'
    unended 'another first word' 'not a journal' 'journals'
    unended 'another version' 'not a journal' 'journal 10'
    printf 'journal 1\nseat 0 mailbox: made 0\nend 1\n\000\000\000' > "$work/in"
    run check < "$work/in"
    expect 'zeros behind the end' 0 'lawful 1' none
    run check < /dev/null
    expect 'no input' 2 none 'journal: torn after line 0'
    { printf 'journal 2\nseat 0 mvar ='; head -c 1000000 /dev/zero | tr '\0' a; printf ': made 0\nend 1\n'; } > "$work/in"
    run check < "$work/in"
    expect 'a message of a million bytes' 0 'lawful 1' none
}

# too_long LINE FRONT: what standard error says of a line that is too long, by its first 80 bytes.
too_long() { printf 'journal: line %s: line too long\nexpected: at most 4,194,304 bytes\nfound: `%s`..' "$1" "$2"; }

# long_line CASE BYTES: a line of this many bytes, of which few are kept.
long_line() {
    { printf 'journal 2\nseat 0 mvar ='; head -c "$2" /dev/zero | tr '\0' a; printf ': made 0\nend 1\n'; } > "$work/in"
    (ulimit -v 65536 && run check < "$work/in" && echo "$status" > "$work/status")
    status=$(cat "$work/status")
    begins=$(head -c 67 /dev/zero | tr '\0' a)
    expect "$1" 2 none "$(too_long 2 "seat 0 mvar =$begins")"
}

long_lines() {
    long_line 'a line of one byte too many' $((4194304 - 21 + 1))
    long_line 'a line of 10 MB' 10000000
    head -c 10000000 /dev/zero | tr '\0' ' ' > "$work/in"
    run check < "$work/in"
    expect '10 MB of spaces' 2 none "$(too_long 1 "$(printf '%80s' '')")"
}

# A journal of 400,001 entries, in memory for what waits: one message.
many() {
    awk 'BEGIN {
        print "journal 1\nseat 0 mailbox: made 0"
        for (i = 0; i < 200000; i++) print "seat 1 send 0 " i ": done\nseat 0 recv 0: " i
        print "end 400001"
    }' > "$work/in"
    (ulimit -v 65536 && run check < "$work/in" && echo "$status" > "$work/status")
    status=$(cat "$work/status")
    expect 'many entries in 64 MB' 0 'lawful 400001' none
}

streams() {
    run check what < /dev/null
    expect 'other words' 3 none some
    run check --limit 5 < /dev/null
    expect 'an option of another subcommand' 3 none some
    run check --state --state < /dev/null
    expect 'an option twice' 3 none some
    run check --state=true < /dev/null
    expect 'an option with a value' 3 none some
    run check --help < /dev/null
    expect 'help' 0 some none
    run check < .
    expect 'a folder for standard input' 4 none 'cml: read failed'
    script "$letters" > "$work/in"
    bounded "$program" check < "$work/in" > /dev/full 2> "$work/err"
    status=$?
    : > "$work/out"
    expect 'a full device' 4 none 'cml: write failed'
    (printf 'journal 1\nseat 0 mail'; sleep 0.2; printf 'box: made 0\nend 1\n') |
        { bounded "$program" check > "$work/out" 2> "$work/err"; echo $? > "$work/status"; }
    status=$(cat "$work/status")
    expect 'a line in two parts' 0 'lawful 1' none
}

# at_terminal CASE STATUS OUT COMMAND ERR: what the program says of a journal that comes slowly. Standard error is a terminal, and
# has a line each second before ERR.
at_terminal() {
    bounded python3 tests/lib/terminal.py "$work/err" "$program" "$4" < "$work/in" > "$work/out"
    status=$?
    grep -v '^cml: [0-9][0-9]* MB read$' "$work/err" > "$work/others"
    grep -q '^cml: 0 MB read$' "$work/err" || fail "$1: no line says how much is read"
    mv "$work/others" "$work/err"
    expect "$1" "$2" "$3" "$5"
}

terminals() {
    has python3 'what a person at a terminal sees' || return
    script "$letters" > "$work/in"
    at_terminal 'a terminal' 0 'lawful 3' check none
    at_terminal 'a terminal, and a short journal' 0 "$(script 'journal 1 / seat 1 mailbox: made 0 / end 1')" compact none
    script "$(echo "$letters" | sed 's/end 3/end 4/')" > "$work/in"
    at_terminal 'a terminal, and a fault' 2 none check "$(fault_lines 'wrong end' 5 'an entry, or `end 3`' 'end 4')"
}

# Short reads change nothing. A read that fails ends the check, and one that is interrupted is made again.
reads() {
    make_streams || return
    script "$pieces" > "$work/in"
    for most in 1 2 3 5 7 10 14 15 16 17 31 64 602 603; do
        run_so check READ_MOST=$most
        expect "at most $most bytes at a read" 0 'lawful 23' none
    done
    number=1
    while rm -f "$work/met"; do
        run_so check READ_MOST=16 READ_FAILS=$number READ_ERROR=4 TOLD="$work/met"
        [ -e "$work/met" ] || break
        expect "read $number interrupted" 0 'lawful 23' none
        run_so check READ_MOST=16 READ_FAILS=$number READ_ERROR=5
        expect "read $number failed" 4 none 'cml: read failed'
        number=$((number + 1))
    done
    if [ "$number" -gt 38 ]; then pass; else fail "only $number reads"; fi
}

# change NAME STEP: all that is nearly the journal on standard input.
change() { awk -v to="$work/cases/$1" -v step="$2" -f tests/models/calls.awk -f tests/models/journal_changes.awk; }

# Each changed journal is a file in the folder of cases.
changed() {
    step=1
    [ -z "$few" ] || step=7
    change requests "$step" < examples/scripts/requests.journal
    script "$all" | change all "$step"
    each_call 1 | change each $((step * 29))
    script "$pieces" | change pieces "$step"
    script "$cut" | change cut "$step"
    seal "$chain" | change chain "$step"
    for seed in 1 2; do
        awk -v seed=$seed -v count=60 -f tests/models/calls.awk -f tests/models/journal_judge.awk -f tests/models/some_journals.awk > "$work/cases/random$seed"
        change random$seed $((step * 29)) < "$work/cases/random$seed"
    done
}

# What the program says of each case, as journal_judge.awk shows it. This script has a part of the cases.
says='
    . tests/lib/bounded.sh
    told=$(mktemp "$1.XXXXXX") || exit 1 # not named by the process: a long run sees its number again
    program=$2
    shift 2
    for file; do
        output=$(bounded "$program" check --state < "$file" 2> "$told.errors")
        status=$?
        errors=$(cat "$told.errors")
        echo "== $file"
        [ -z "$output" ] || echo "$output"
        echo "status $status $errors"
    done > "$told"
    rm "$told.errors"
'

# Program and judge say the same of each case, and some cases have each verdict.
judged() {
    find "$work/cases" -type f > "$work/files"
    xargs -P "$(nproc 2> /dev/null || echo 2)" -n 200 sh -c "$says" says "$work/said" "$program" < "$work/files"
    xargs -n 1000 awk -v state=1 -f tests/models/calls.awk -f tests/models/journal_judge.awk < "$work/files" > "$work/judged"
    cat "$work"/said.* | awk '
        /^== / { name = $2; next }
        FNR == NR { judged[name] = judged[name] " / " $0; next }
        { said[name] = said[name] " / " $0 }
        END {
            for (name in judged) {
                if (said[name] == judged[name]) passed++
                else { failed++; print "failed: " name ": said" said[name] ", judged" judged[name] }
                sub(/.* \/ status /, "", judged[name])
                cases[judged[name] + 0]++
            }
            if (cases[0] < 20 || cases[7] < 50 || cases[2] < 500) { failed++; print "failed: too few cases with some verdict" }
            print passed + 0, failed + 0 > "/dev/stderr"
        }
    ' "$work/judged" - 2> "$work/sums"
    read -r more_passed more_failed < "$work/sums"
    passed=$((passed + more_passed))
    failed=$((failed + more_failed))
}

lawful
unlawful
states
sealed
faults
long_lines
[ -n "$few" ] || many
streams
terminals
reads
changed
judged
count
