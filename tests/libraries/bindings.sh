#!/bin/sh
# The libraries for C, from C and from Rust: `sh tests/libraries/bindings.sh ROOMS REPLAY`, with the archives of cml_c and
# cml_script_c. The programs in C of examples/c and tests/c are built with them, and one of tools/speed. One replays scripts: it is
# to write the report beside each. The others try rooms, three of them with threads. They run under valgrind and the sanitizers too.
# Then the tests of the crate of bindings/rust run, five files of them under valgrind, and its documented examples. What isn't there
# is named as left out, and counts for nothing. The last line is `N passed, M failed`.
top=$(cd "$(dirname "$0")/../.." && pwd) || exit 1
. "$top/tests/lib/cases.sh"
rooms=$(absolute "$1")
replay=$(absolute "$2")
cd "$top" || exit 1
kit=$(dirname "$(rt doc)")/c

# The part of the library that is in C.
keeps_files() {
    mkdir "$work/library" && (cd "$work/library" && cc -std=gnu11 -O2 -Wall -Wextra -Werror -pthread -I "$top/include" -c "$top"/lib/*.c) &&
        ar rc "$work/library.a" "$work"/library/*.o
}

# compile PROGRAM ARCHIVE
compile() {
    cc -O2 -Wall -Wextra -Werror -pthread -I include -o "$work/$1" "$(c_source "$1")" "$work/library.a" "$2" "$kit/liblibc_c.a"
}

# What the program in C does with a script is what cml does with it.
replays() {
    bounded "$work/replay" < "$1" > "$work/report" 2> "$work/errors"
    status=$?
    if [ -s "$work/errors" ]; then
        [ $status -eq 2 ] && [ ! -s "$work/report" ]
    else
        cmp -s "$work/report" "${1%.cml}.report"
    fi
}

# Without a fault of memory. Threads go on by turns: one that looks again and again would keep the others from going on.
is_clean() { bounded valgrind -q --fair-sched=try --error-exitcode=99 --leak-check=full --errors-for-leak-kinds=definite "$@"; }

replay_from_c() {
    check 'a program in C that replays is built' compile replay "$replay"
    [ -x "$work/replay" ] || return
    for example in examples/scripts/*.cml; do
        check "$example, from C" replays "$example"
    done
    if has valgrind 'a replay without a fault of memory'; then
        check 'a replay without a fault of memory' is_clean "$work/replay" < examples/scripts/hello_mailbox.cml
    fi
}

# refuse_each PROGRAM LINE: a program that makes each call has each of its requests for memory refused in turn. It ends with status 5:
# the call that asked fails, and all that was opened before is closed. Or it prints this line, if the call did without, as one that
# then blocks. The last request is the C library's own, for what is printed.
refuse_each() {
    failures=0
    rm -rf "$work/each"
    mkdir "$work/each"
    bounded env REFUSE_EACH="$work/each" LD_PRELOAD="$work/refuse.so" "$work/$1" > "$work/printed" && grep -q "$2" "$work/printed" || return
    while read -r request status; do
        if [ "$status" -eq 5 ]; then
            failures=$((failures + 1))
        else
            grep -q "$2" "$work/each/out.$request" || return
        fi
    done < "$work/each/statuses"
    [ $failures -gt 20 ]
}

# Each request for memory of a program that makes a call again if there is none: each run ends well. The requests come in no
# fixed order, so the last run is one that makes fewer.
refuse_each_again() {
    request=1
    while rm -f "$work/met"; do
        bounded env REFUSE=$request TOLD="$work/met" LD_PRELOAD="$work/refuse.so" "$work/requests" 2 || return
        [ -e "$work/met" ] || break
        request=$((request + 1))
    done
    [ $request -gt 20 ]
}

# sanitized KIND PROGRAM WORD..: built and run with this sanitizer. It sees what C does, and not what the proved library does.
# Without its stack for signals: as a cancelled thread ends, the sanitizer of addresses would find a fault in its own code there.
sanitized() {
    kind=$1
    program=$2
    shift 2
    with="cc -g -O1 -fsanitize=$kind -fno-sanitize-recover=undefined -Wall -Wextra -pthread -I $top/include"
    [ -e "$work/$kind.a" ] || {
        rm -rf "$work/sanitized.parts" && mkdir "$work/sanitized.parts" && (cd "$work/sanitized.parts" && $with -c "$top"/lib/*.c) &&
            ar rc "$work/$kind.a" "$work"/sanitized.parts/*.o
    } || return
    $with -o "$work/sanitized" "$(c_source "$program")" "$work/$kind.a" "$rooms" "$kit/liblibc_c.a" || return
    bounded env ASAN_OPTIONS=use_sigaltstack=0 "$work/sanitized" "$@"
}

# has_sanitizer KIND: programs can be built with it, and run.
has_sanitizer() {
    if echo 'int main(void) { return 0; }' | cc "-fsanitize=$1" -x c - -o "$work/able" && "$work/able"; then return; fi 2> /dev/null
    echo "left out: the programs in C with -fsanitize=$1: there is no such sanitizer"
    return 1
}

# The sanitizers of addresses and of undefined behaviour, and that of threads.
sanitizers_from_c() {
    if has_sanitizer address,undefined; then
        for program in calls messages keep sealed compact full threads switchboard; do
            check "nothing wrong with an address: $program" sanitized address,undefined $program
        done
        check 'nothing wrong with an address: requests' sanitized address,undefined requests 20
        mkdir "$work/short" && check 'nothing wrong with an address: shortened' sanitized address,undefined shortened "$work/short"
        check 'nothing wrong with an address: disk_waits' sanitized address,undefined disk_waits "$work/short"
    fi
    if has_sanitizer thread; then
        for program in threads keep compact switchboard; do
            check "no race: $program" sanitized thread $program
        done
        check 'no race: requests' sanitized thread requests 20
        mkdir -p "$work/short" && check 'no race: disk_waits' sanitized thread disk_waits "$work/short"
        check 'no race: crashes' sanitized thread crashes "$work/short" 20
    fi
}

refusals_from_c() {
    check 'requests for memory can be refused' cc -O2 -shared -fPIC -o "$work/refuse.so" tests/lib/refuse.c -ldl
    [ -x "$work/calls" ] && check 'each request for memory refused' refuse_each calls 'each call returns'
    [ -x "$work/messages" ] && check 'the same with messages of bytes' refuse_each messages 'each call returns'
    [ -x "$work/keep" ] && check 'the same with journals that are kept' refuse_each keep 'each journal is kept'
    [ -x "$work/compact" ] && check 'the same with journals that are made short' refuse_each compact 'each journal is made short'
    [ -x "$work/sealed" ] && check 'the same with journals that have sums' refuse_each sealed 'each change is seen'
    [ -x "$work/full" ] && check 'the same with journals that are cut by themselves' refuse_each full 'each full journal is cut'
    [ -x "$work/requests" ] && check 'the same with threads that try again' refuse_each_again
}

rooms_from_c() {
    check 'the part of the library in C is built' keeps_files
    for program in calls messages keep sealed compact full threads requests switchboard; do
        check "a program in C of rooms is built: $program" compile $program "$rooms"
        [ -x "$work/$program" ] && check "rooms from C: $program" bounded "$work/$program"
    done
    check 'a program in C that times messages is built' compile speed "$rooms"
    [ -x "$work/speed" ] && check 'messages are timed in C' bounded "$work/speed" 2000 1
    refusals_from_c
    if has valgrind 'rooms from C without a fault of memory'; then
        for program in calls messages keep sealed compact full; do
            [ -x "$work/$program" ] && check "without a fault of memory: $program" is_clean "$work/$program"
        done
        [ -x "$work/requests" ] && check 'without a fault of memory: requests' is_clean "$work/requests" 5
    fi
    sanitizers_from_c
}

# cargo_does COMMAND WORD..: a command of cargo's on a copy of the crate, with the library that is installed of the archives.
cargo_does() {
    command=$1
    shift
    bounded env SERYUGO_PREFIX="$work/prefix" \
        cargo "$command" --manifest-path "$work/bindings/rust/seryugo/Cargo.toml" --quiet --offline "$@"
}

# The README's ten lines do what it says, also on their own journal.
letters_from_rust() {
    (cd "$work" && cargo_does run --example letters && cargo_does run --example letters) > "$work/letters" &&
        [ "$(cat "$work/letters")" = "Dear Ben
Dear Ben" ] && [ "$(grep -c : "$work/letters.journal")" -eq 5 ]
}

# clean_in_rust TEST [MODULE..]: a file of tests in Rust, or these modules of it, run without a fault of memory.
clean_in_rust() {
    binary=$(cargo_does test --test "$1" --no-run --message-format=json | sed -n 's/.*"executable":"\([^"]*\)".*/\1/p')
    shift
    [ -x "$binary" ] && is_clean "$binary" --test-threads=1 --skip too_long --skip forgotten "$@"
}

from_rust() {
    cp -r bindings "$work/bindings"
    ln -s "$PWD/examples" "$work/examples"
    ln -s "$PWD/docs" "$work/docs"
    check 'the library is installed' env SERYUGO_ARCHIVE="$rooms" SERYUGO_SCRIPT_ARCHIVE="$replay" sh bindings/install.sh "$work/prefix"
    check 'the crate in Rust' cargo_does test --all-features
    if has valgrind 'the crate in Rust without a fault of memory'; then
        for tests in codes keeping typed odd_messages owned waking 'explore ends rings futures'; do
            # shellcheck disable=SC2086 # each word is one
            check "without a fault of memory in Rust: $tests" clean_in_rust $tests
        done
    fi
    check 'letters in Rust, kept in a file' letters_from_rust
    check 'messages are timed in Rust' cargo_does run --example speed -- 400 '' 1
    check 'journals are timed in Rust' cargo_does run --example journals -- 40001
}

check 'the archive of rooms is there' [ -s "$rooms" ]
check 'the archive of replay is there' [ -s "$replay" ]
if has cc 'the programs in C'; then
    rooms_from_c
    replay_from_c
fi
if has cargo 'the crate in Rust'; then from_rust; fi

count
