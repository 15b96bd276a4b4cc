#!/bin/sh
# The built program from outside: `sh tests/cml/program.sh PROGRAM`. Each example, the cases of tests/tables/faults and
# tests/tables/reports (tests/lib/tables.sh says how they are written), each step of the table of calls
# (tests/models/each_call.awk), each exit status, many texts for which the plain program of tests/models/plain.awk says what is to
# come, and threads that take their steps in any order (tests/lib/runs.sh), and reads and writes that are short or fail anywhere
# (tests/lib/streams.c). With the word `few` it leaves out journals of 65,537 entries. Its last line is `N passed, M failed`.
LC_ALL=C
export LC_ALL
top=$(cd "$(dirname "$0")/../.." && pwd) || exit 1
. "$top/tests/lib/cases.sh"
program=$(absolute "$1")
cd "$top" || exit 1
. tests/lib/tables.sh
. tests/lib/runs.sh

examples() {
    for example in examples/scripts/*.cml; do
        if has_rings "$example"; then
            needs_run "$example" "$example"
        else
            reported "$example" "$example" "${example%.cml}.report" replay
            journaled "$example" "${example%.cml}"
        fi
    done
}

# journaled CASE NAME: the journal of the script NAME.cml is NAME.journal, and it ends as its report says.
journaled() {
    run replay --journal < "$2.cml"
    if [ "$status" = "$(meant_by "$2.report")" ] && cmp -s "$2.journal" "$work/out" && [ ! -s "$work/err" ]; then
        pass
    else
        fail "$1, its journal: status $status, errors $(head -c 300 "$work/err")"
        diff "$2.journal" "$work/out"
    fi
}

# written CASE TEXT FAULT: a text as printf writes it.
written() {
    # shellcheck disable=SC2059
    printf "$2" > "$work/in"
    told "$1" "$3"
}

# Each step of the table of calls: on an object of each kind, and with each reply that it may have.
each_call() {
    from_table kinds > "$work/kinds"
    fault_tables "$work/kinds"
    for version in 1 2; do
        from_table script > "$work/steps"
        sed 's/: .*//' "$work/steps" > "$work/script"
        sed -n '/: /p' "$work/steps" > "$work/replies"
        from_table journal > "$work/journal"
        for command in replay run; do
            run "$command" < "$work/script"
            grep '^A ' "$work/out" > "$work/rows"
            same "each step, version $version, by $command" "$work/replies" "$work/rows"
            run "$command" --journal < "$work/script"
            same "the journal of each step, version $version, by $command" "$work/journal" "$work/out"
        done
    done
    version=1
}

# from_table PART
from_table() { awk -v part="$1" -v version="${version:-1}" -f tests/models/calls.awk -f tests/models/each_call.awk; }

# same CASE WANTED FOUND: the last run performed all steps, and its lines are these.
same() {
    if [ "$status" = 0 ] && [ -s "$2" ] && cmp -s "$2" "$3" && [ ! -s "$work/err" ]; then
        pass
    else
        fail "$1: status $status, errors $(head -c 300 "$work/err")"
        diff "$2" "$3" | head -20
    fi
}

# Texts that no line of a table can hold.
odd_texts() {
    written 'nothing' '' 'line 1: bad header'
    written 'no line end' 'cml 1' 'line 1: no line end'
    written 'a last line without its end, after good steps' \
        'cml 1\nmailbox m\nthread A\nA send m 5\nA send m 6\nA recv' 'line 6: no line end'
    written 'a bad byte in a last line without line end' 'cml 1\n\t' 'line 2: no line end'
    written 'an empty first line' '\n' 'line 1: bad header'
    written 'a space at the front' 'cml 1\n thread A\n' 'line 2: bad words'
    written 'a space at the end' 'cml 1\nthread A \n' 'line 2: bad words'
    written 'a line that is a space' 'cml 1\n \n' 'line 2: bad words'
    written "a bad byte in the header's line" 'cml\t1\n' 'line 1: bad bytes'
    written 'a carriage return' 'cml 1\r\n' 'line 1: bad bytes'
    written 'a carriage return in a note' 'cml 1\n#\r\n' 'line 2: bad bytes'
    written 'a tab in a note' 'cml 1\n#\tnote\n' 'line 2: bad bytes'
    written 'a byte of 31' 'cml 1\n#\037\n' 'line 2: bad bytes'
    written 'a byte of 127' 'cml 1\n#\177\n' 'line 2: bad bytes'
    written 'a byte of 128' 'cml 1\n#\200\n' 'line 2: bad bytes'
    written 'bytes of 32 and 126' 'cml 1\n# ~\n' none
}

# The same of version 2.
odd_messages() {
    written 'version 2 without line end' 'cml 2' 'line 1: no line end'
    written 'a space after version 2' 'cml 2 \n' 'line 1: bad header'
    written 'a space before version 2' ' cml 2\n' 'line 1: bad header'
    written 'a carriage return after version 2' 'cml 2\r\n' 'line 1: bad bytes'
    steps='cml 2\nmailbox m\nthread A\nA recv m\n'
    written 'a message that parts lines in a table' "${steps}A send m /\n" none
    written 'a message that parts cells in a table' "${steps}A send m |\n" none
    written 'a message that begins with a slash' "${steps}A send m /x\nA send m x/\n" none
    written 'an m-variable with a slash in it, and one with a bar' 'cml 2\nmvar v /\nmvar w |\n' none
    written 'a message of 31' "${steps}A send m \037\n" 'line 5: bad bytes'
    written 'a message of 127' "${steps}A send m \177\n" 'line 5: bad bytes'
    written 'a message of 128' "${steps}A send m \200\n" 'line 5: bad bytes'
    written 'a message of two bytes that are one letter elsewhere' "${steps}A send m \303\244\n" 'line 5: bad bytes'
    written 'a message with a byte of 0 in it' "${steps}A send m a\000b\n" 'line 5: bad bytes'
    written 'a message with a tab in it' "${steps}A send m a\tb\n" 'line 5: bad bytes'
    written 'a message with a space in it' "${steps}A send m a b\n" 'line 5: word count'
    written 'a space after a message' "${steps}A send m a \n" 'line 5: bad words'
    written 'no message, but the space before it' "${steps}A send m \n" 'line 5: bad words'
    written 'a message without line end' "${steps}A send m a" 'line 5: no line end'
    long=$(awk 'BEGIN { while (n++ < 65) printf "x" }')
    written 'a bad byte after 65 bytes' "${steps}A send m $long\177\n" 'line 5: bad bytes'
    written '65 bytes, and no line end' "${steps}A send m $long" 'line 5: no line end'
    written '65 bytes, and a space after them' "${steps}A send m $long \n" 'line 5: bad words'
}

# Each byte as a message, and messages of each length, in both versions.
each_message() {
    awk '
        BEGIN {
            for (byte = 1; byte <= 127; byte++) number[sprintf("%c", byte)] = byte
            for (version = 1; version <= 2; version++) {
                for (byte = 0; byte <= 255; byte++) print_script(" " byte)
                message = ""
                for (length_of = 0; length_of <= 130; length_of++) {
                    print_script(message)
                    message = message " " (49 + length_of % 9)
                }
            }
        }
        function put(text,    i) { for (i = 1; i <= length(text); i++) printf " %d", number[substr(text, i, 1)] }
        function print_script(message) {
            printf "100"
            put("cml " version "\nmailbox m\nmvar v 5\nthread A\nA send m ")
            printf "%s", message
            put("\nA recv m\nA swap v ")
            printf "%s", message
            put("\n")
            print ""
        }
    ' > "$work/texts"
    agree 'each byte and each length of a message'
}

# Each example as a script of the other version.
other_versions() {
    for example in examples/scripts/*.cml; do
        sed '1s/cml 2/cml 3/; 1s/cml 1/cml 2/; 1s/cml 3/cml 1/' "$example" | od -An -v -tu1 | awk '
            BEGIN { printf "65536" }
            { for (i = 1; i <= NF; i++) printf " %d", $i }
            END { print "" }
        '
    done > "$work/texts"
    agree 'each example as one of the other version'
}

# So many threads, A1 and so on.
threads() { awk -v count="$1" 'BEGIN { print "cml 1"; for (i = 1; i <= count; i++) print "thread A" i }'; }

# A script of this many bytes, most of them a note.
note() { awk -v bytes="$1" 'BEGIN { printf "cml 1\n#"; for (n = 8; n < bytes; n++) printf "#"; print "" }'; }

long_texts() {
    threads 64 > "$work/in"
    told '64 threads' none
    threads 65 > "$work/in"
    told '65 threads' 'line 66: too many threads'
    { threads 64; echo 'thread A1'; } > "$work/in"
    told 'a name that is taken, at the limit of threads' 'line 66: name taken'
    note 1048576 > "$work/in"
    [ "$(wc -c < "$work/in")" -eq 1048576 ] || fail 'the longest script has another length'
    run replay < "$work/in"
    expect 'the longest script, of 1,048,576 bytes' 0 'end: done 0' none
    note 1048577 > "$work/in"
    told 'a byte more than a script has' 'too long'
    awk 'BEGIN { while (n++ < 1048577) printf "?" }' > "$work/in"
    told 'the length before all other faults' 'too long'
    head -c 1048577 /dev/zero > "$work/in"
    told 'a byte too many, and all of them bad' 'too long'
}

# one_byte_changed NAME: each text that differs in one byte from standard input.
one_byte_changed() {
    od -An -v -tu1 | awk -f tests/models/one_byte_changes.awk > "$work/texts"
    agree "one byte of $1 changed"
}

# Each beginning of a script in which a port is copied and closed.
beginnings() {
    script 'cml 1 / channel c / port c p / thread A / A multicast c 1 / A multicast c 2 / A multicast c 3 / A multicast c 4 / A multicast c 5 / A recv p / A recv p / A copy p q / A close p / A recv q / A recv q / A recv q' |
        od -An -v -tu1 | awk '
            { for (i = 1; i <= NF; i++) byte[++bytes] = $i }
            END { for (n = 0; n <= bytes; n++) { line = 100; for (i = 1; i <= n; i++) line = line " " byte[i]; print line } }
        ' > "$work/texts"
    agree 'each beginning of a script'
}

# endings COMMAND: in none of these could another order make a difference.
endings() {
    echo 'cml 1' > "$work/in"
    run "$1" < "$work/in"
    expect "a script without steps, by $1" 0 'end: done 0' none
    run "$1" -- < "$work/in"
    expect "words that -- ends, by $1" 0 'end: done 0' none
    script 'cml 1 / mailbox m / thread B / B recv m' > "$work/in"
    run "$1" < "$work/in"
    expect "a step that waits, by $1" 1 "$(printf 'mailbox m: sent 0 got 0 waits 0\nend: stalled 0 left 1')" none
    run "$1" --limit 1 < "$work/in"
    expect "a full journal, by $1" 6 "$(printf 'mailbox m: sent 0 got 0 waits 0\nend: full 0 left 1')" none
    script 'cml 1 / mailbox m / mailbox k / thread A / A send m 1' > "$work/in"
    run "$1" --limit=1 < "$work/in"
    expect "a declaration that the limit leaves out, by $1" 6 \
        "$(printf 'mailbox m: sent 0 got 0 waits 0\nmailbox k: not made\nend: full 0 left 1')" none
}

# with_words ROW: runs the program with the words of a row of tests/tables/words, on a script of five entries or on a journal of two.
with_words() {
    case $1 in
        check* | compact*) script 'journal 1 / seat 0 mailbox: made 0 / seat 1 send 0 5: done / end 2' > "$work/in" ;;
        *) script 'cml 1 / mailbox m / thread A / A send m 1 / A send m 2 / A recv m / A recv m' > "$work/in" ;;
    esac
    row=$1
    set --
    for word in $row; do
        [ "$word" != "''" ] || word=
        set -- "$@" "$word"
    done
    run "$@" < "$work/in"
}

# each_row TABLE FUNCTION: calls the function with each row of a table of words.
each_row() {
    while IFS= read -r row; do
        case $row in '#'*) ;; *) "$2" "$row" ;; esac
    done < "tests/tables/words/$1" || fail "$1: not read"
}

understood_row() {
    [ -n "$1" ] || return
    with_words "${1%% | *}"
    rest=${1#* | }
    if [ "$status" = "${rest%% | *}" ] && [ "$(tail -n 1 "$work/out")" = "${rest#* | }" ] && [ ! -s "$work/err" ]; then
        pass
    else
        fail "the words '${1%% | *}': status $status, output $(tail -n 1 "$work/out"), errors $(head -c 300 "$work/err")"
    fi
}

refused_row() {
    [ -n "$1" ] || return
    with_words "$1"
    expect "the words '$1'" 3 none some
}

help_row() {
    [ -n "$1" ] || return
    with_words "${1%% | *}"
    if [ "$status" = 0 ] && grep -qF -e "${1#* | }" "$work/out" && [ ! -s "$work/err" ]; then
        pass
    else
        fail "the words '${1%% | *}' don't show '${1#* | }': status $status, errors $(head -c 300 "$work/err")"
    fi
}

usages() {
    each_row understood.txt understood_row
    each_row refused.txt refused_row
    each_row help.txt help_row
    run < /dev/null
    expect 'the name alone' 3 none some
    for phrase in 'Usage: cml <COMMAND>' replay; do
        grep -qF -e "$phrase" "$work/err" && pass || fail "the name alone doesn't show '$phrase'"
    done
    mkdir "$work/a path"
    ln -s "$program" "$work/a path/cml"
    "$work/a path/cml" replay < examples/scripts/lock.cml > "$work/out" 2> "$work/err"
    status=$?
    expect 'a name with a space' 0 "$(cat examples/scripts/lock.report)" none
}

# most_entries COMMAND: without a limit a journal takes 65,536 entries.
most_entries() {
    awk 'BEGIN { print "cml 1\nmailbox m\nthread A"; for (i = 0; i < 65536; i++) print "A send m 5" }' > "$work/in"
    for row in '| 6 | end: full 65535 left 1' '--limit 4294967296 | 0 | end: done 65536'; do
        # shellcheck disable=SC2086
        run "$1" ${row%%|*} < "$work/in"
        rest=${row#*| }
        if [ "$status" = "${rest%% | *}" ] && [ "$(tail -n 1 "$work/out")" = "${rest#* | }" ]; then
            pass
        else
            fail "65,537 entries, by $1 ${row%%|*}: status $status, $(tail -n 1 "$work/out")"
        fi
    done
}

# troubles COMMAND: reads and writes that fail, and memory that is wanting.
troubles() {
    "$program" "$1" <&- > "$work/out" 2> "$work/err"
    status=$?
    expect "a closed input, by $1" 4 none 'cml: read failed'
    run "$1" < "$work"
    expect "a folder as input, by $1" 4 none 'cml: read failed'
    if [ -c /dev/full ]; then
        "$program" "$1" < examples/scripts/lock.cml > /dev/full 2> "$work/err"
        status=$?
        : > "$work/out"
        expect "a full device, by $1" 4 none 'cml: write failed'
    fi
    "$program" "$1" < examples/scripts/lock.cml >&- 2> "$work/err"
    status=$?
    : > "$work/out"
    expect "a closed output, by $1" 4 none 'cml: write failed'
    { sleep 1; "$program" "$1" < examples/scripts/lock.cml 2> "$work/err"; echo $? > "$work/status"; } | true
    status=$(cat "$work/status")
    expect "a closed pipe, by $1" 4 none 'cml: write failed'
    awk 'BEGIN { print "cml 1\nmailbox m\nthread A"; for (i = 0; i < 80000; i++) print "A send m 5" }' > "$work/in"
    (ulimit -v 12000 && "$program" "$1" < "$work/in" > "$work/out" 2> "$work/err")
    status=$?
    expect "little memory, by $1" 5 none 'cml: no memory'
}

# A script whose report has 72 bytes.
short_script() { script 'cml 1 / mailbox m / thread A / A send m 5' > "$work/in"; }

# counted CASE STATUS ERR COUNTS: what the last run did, which wrote nothing, and how many reads it made.
counted() {
    if [ "$status" = "$2" ] && holds "$work/out" none && holds "$work/err" "$3" && holds "$work/counts" "$4"; then
        pass
    else
        fail "$1: status $status, errors $(head -c 300 "$work/err"), $(cat "$work/counts")"
    fi
}

# so_many_reads CASE STATUS ERR COUNTS VARIABLE=VALUE..
so_many_reads() {
    name=$1
    meant=$2
    told=$3
    counts=$4
    shift 4
    run_so replay COUNTED="$work/counts" "$@"
    counted "$name" "$meant" "$told" "$counts"
}

# The program makes an interrupted read again, up to a limit.
interrupted_reads() {
    short_script
    run replay < "$work/in"
    cp "$work/out" "$work/report"
    run_so replay READ_MOST=1 READ_AGAIN=2
    expect 'one byte a read, and two interruptions before each' 0 "$(cat "$work/report")" none
    so_many_reads 'interruptions without end after three bytes' 4 'cml: read failed' '2097152 reads gave 3 bytes' \
        READ_MOST=1 READ_FAILS=4 READ_REST=1 READ_ERROR=4
    so_many_reads 'nothing but interruptions' 4 'cml: read failed' '2097152 reads gave 0 bytes' \
        READ_FAILS=1 READ_REST=1 READ_ERROR=4
    so_many_reads 'lines without end' 2 'script: too long' '17 reads gave 1048577 bytes' READ_LINES=1
    so_many_reads 'the last read gives a byte too many' 2 'script: too long' '2097152 reads gave 1048577 bytes' \
        READ_LINES=1 READ_MOST=1 READ_LATE=1048575
    so_many_reads 'the last read gives the last byte of a script' 4 'cml: read failed' '2097152 reads gave 1048576 bytes' \
        READ_LINES=1 READ_MOST=1 READ_LATE=1048576
}

# Each read of a script fails in turn.
failed_reads() {
    short_script
    number=1
    while rm -f "$work/met"; do
        run_so replay READ_MOST=1 READ_AGAIN=2 READ_FAILS=$number READ_ERROR=5 TOLD="$work/met"
        [ -e "$work/met" ] || break
        expect "read $number failed" 4 none 'cml: read failed'
        number=$((number + 1))
    done
    if [ "$number" -gt 108 ]; then pass; else fail "only $number reads of a script"; fi
}

# A long script, read and written byte by byte.
long_streams() {
    { script 'cml 1 / mailbox m / thread A'; awk 'BEGIN { for (i = 0; i < 150; i++) print "A send m " i "\nA recv m" }'; } > "$work/in"
    run replay < "$work/in"
    mv "$work/out" "$work/report"
    run_so replay READ_MOST=1 READ_AGAIN=2 WRITE_MOST=1
    if [ "$status" = 0 ] && cmp -s "$work/report" "$work/out" && [ "$(wc -c < "$work/report")" -gt 3000 ]; then
        pass
    else
        fail "a long script byte by byte: status $status"
    fi
}

# writes_up_to MOST ROOM STATUS ERR: a write takes this many bytes at most, and this many have room. The program writes just these.
writes_up_to() {
    run_so replay WRITE_MOST="$1" WRITE_ROOM="$2"
    head -c "$2" "$work/report" > "$work/want"
    if [ "$status" = "$3" ] && cmp -s "$work/want" "$work/out" && holds "$work/err" "$4"; then
        pass
    else
        fail "$1 bytes a write, room for $2: status $status, errors $(head -c 300 "$work/err")"
    fi
}

# Short writes leave nothing out. The program reports a write that fails, wherever it fails.
short_writes() {
    short_script
    run replay < "$work/in"
    mv "$work/out" "$work/report"
    bytes=$(wc -c < "$work/report")
    for most in 1 2 3 4 5 6 7; do
        writes_up_to "$most" "$bytes" 0 none
    done
    room=0
    while [ "$room" -lt "$bytes" ]; do
        writes_up_to 1 "$room" 4 'cml: write failed'
        writes_up_to 7 "$room" 4 'cml: write failed'
        room=$((room + 1))
    done
    if [ "$room" -gt 50 ]; then pass; else fail "a report of only $room bytes"; fi
}

streams() {
    make_streams || return
    interrupted_reads
    failed_reads
    long_streams
    short_writes
}

# Texts as printf writes them, each after its limit.
octal() { awk '{ printf "%s ", $1; for (i = 2; i <= NF; i++) printf "\\%03o", $i; print "" }'; }

# agree CASE: for each text of $work/texts, the program and the plain program do the same.
agree() {
    awk -f tests/models/calls.awk -f tests/models/plain.awk "$work/texts" > "$work/want"
    octal < "$work/texts" | while read -r limit text; do
        # shellcheck disable=SC2059
        printf "$text" | "$program" replay --limit "$limit" 2>&1
        echo "status $?"
    done > "$work/got"
    texts=$(wc -l < "$work/texts")
    if [ "$texts" -gt 0 ] && cmp "$work/want" "$work/got"; then
        pass
        echo "$1: $texts texts, $(grep -c '^status 0' "$work/want") done," \
            "$(grep -c '^status 1' "$work/want") stalled, $(grep -c '^status 6' "$work/want") full," \
            "$(grep -c '^status 2' "$work/want") with a fault"
    else
        fail "$1: the plain program says otherwise"
        diff "$work/want" "$work/got" | head -20
    fi
}

examples
fault_tables tests/tables/faults/*.txt
each_call
odd_texts
odd_messages
long_texts
report_tables
usages
for command in replay run; do
    endings "$command"
    [ "$2" = few ] || most_entries "$command"
    troubles "$command"
done
streams
for example in examples/scripts/late_reader.cml examples/scripts/swap.cml; do
    one_byte_changed "$example" < "$example"
done
script 'cml 2 / mvar v =5 / mailbox m / thread A / A swap v ok / A send m #x / A recv m / A get v' > "$work/in"
one_byte_changed 'a script of version 2' < "$work/in"
beginnings
each_message
other_versions
# Some 2,000 of each version.
awk -v scripts=4000 -f tests/models/calls.awk -f tests/models/some_scripts.awk > "$work/texts"
agree 'scripts of all lines'
runs

count
