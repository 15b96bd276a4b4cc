# How many instructions a message takes: valgrind counts them, and measures no time. tools/speed.sh writes the counts to the page,
# and tests/libraries/instructions.sh compares others with them.

# total PROGRAM MESSAGES WAY: all instructions of one round of this way, `WORKLOAD: WAY`.
total() {
    valgrind --tool=callgrind --callgrind-out-file=/dev/null "$1" "$2" "$3" 1 2>&1 > /dev/null | sed -n 's/.*Collected : *//p'
}

# count_instructions PROGRAM WORKLOAD WAY: adds a line of one message. What a program does once is in both totals.
count_instructions() {
    less=$(total "$1" 20000 "$2: $3")
    more=$(total "$1" 40000 "$2: $3")
    [ -n "$less" ] && [ -n "$more" ] && printf '%s  %s  %s\n' "$2" "$3" $(((more - less) / 20000))
}

# count_in_c PROGRAM: the ways of speed.c here on one thread.
count_in_c() {
    count_instructions "$1" 'in C, a number' 'a seat' &&
        count_instructions "$1" 'in C, a number' 'by hand' &&
        count_instructions "$1" 'in C, 8 bytes' 'a seat' &&
        count_instructions "$1" 'in C, 64 bytes' 'a seat'
}

# count_in_rust PROGRAM: the same of the crate in Rust.
count_in_rust() {
    count_instructions "$1" 'one thread' 'a seat' &&
        count_instructions "$1" 'one thread' 'by hand, wakes at need' &&
        count_instructions "$1" 'one thread' mpsc &&
        count_instructions "$1" 'typed: a u64' 'u64 on bytes'
}
