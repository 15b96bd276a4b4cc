#!/bin/sh
# The tests in minutes, without a proof: `sh tests/quick.sh`. It proves nothing. Code that does what the tests look at passes
# here, even where it breaks a contract; `rt ci` refuses that.
#
# It compiles the programs and the crate of tests as `rt try` does (tests/lib/tried.sh). It runs each test function, the tables of
# calls, those with cuts too, the guide, each example with its report, its endings and its chart, each fault, the page of figures
# without measuring any, the bodies that the compiler refuses, and the library from C. As many steps run at once as there are
# processors. `sh tests/quick.sh NAME..` runs some steps alone. The last line is `N passed, M failed`.
top=$(cd "$(dirname "$0")/.." && pwd) || exit 1
cd "$top" || exit 1
kit=$(dirname "$(rt doc)")
. tests/lib/tried.sh

# The steps, those that take longest first. Each prints lines `N passed, M failed`, and before them what failed.
steps() {
    echo cml
    echo explore
    echo cml_rows
    echo cml_c
    echo cml_tests
    echo kept_file
    echo refused_bodies
    echo cml_chart
    echo cml_script_c
    echo cml_guide
    echo cml_bench
    echo cml_queueing
    echo guide
    echo speed
}

step() {
    case $1 in
        cml)
            build_once cml || return
            sh tests/cml/program.sh "$program" few && sh tests/cml/journals.sh "$program" few && sh tests/cml/compact.sh "$program"
            ;;
        explore)
            build_once cml || return
            sh tests/cml/explore.sh "$program" few
            ;;
        cml_chart) build_once cml_chart && sh tests/cml/chart.sh "$program" ;;
        cml_rows)
            build cml_rows crates/cml_rows/src/main.rt || return
            prints cml_rows
            sh tests/cml/calls.sh "$program" && sh tests/cml/cuts.sh "$program"
            ;;
        cml_queueing) simulates ;;
        cml_c) calls_from_c ;;
        cml_script_c) replays_from_c ;;
        cml_tests) passes "$1" ;;
        guide | speed) sh "tests/docs/$1.sh" ;;
        refused_bodies) sh tests/libraries/refused_bodies.sh ;;
        kept_file) sh tests/libraries/kept_file.sh ;;
        *) build "$1" "crates/$1/src/main.rt" && prints "$1" ;;
    esac
}

# prints NAME: the program writes what the file stdout of its crate has, from the file stdin there, if there is one.
prints() {
    input=/dev/null
    [ ! -f "crates/$1/stdin" ] || input=crates/$1/stdin
    if bounded "$program" < "$input" 2>&1 | cmp - "crates/$1/stdout"; then
        echo '1 passed, 0 failed'
    else
        echo "failed: what $1 prints"
        echo '0 passed, 1 failed'
        return 1
    fi
}

# build_once NAME: builds a program for all steps that use it. If another step has begun to build it, this one waits for that.
build_once() {
    if mkdir "$work/$1.begun" 2> /dev/null; then
        build "$1" "crates/$1/src/main.rt"
        echo > "$work/$1.ended"
    fi
    until [ -e "$work/$1.ended" ] || [ ! -d "$work" ]; do sleep 0.2; done
    program=$work/$1.built/program
    [ -x "$program" ]
}

# A few runs of the simulator, whose journal `cml` checks and whose report `cml_chart` draws.
simulates() {
    build_once cml || return
    cml=$program
    build_once cml_chart || return
    chart=$program
    build cml_queueing crates/cml_queueing/src/main.rt || return
    sh tests/cml/queueing.sh "$program" "$cml" "$chart" few
}

# passes NAME: the crate's test functions. Here each access to memory is watched too.
passes() {
    compile "$1" "$kit/toolchain" "--test crates/$1/src/lib.rt" > "$work/$1.ran" 2>&1
    grep -v '^tests: \| ok$\|^test result: ok\|^run=\|^races: \|^checked: ended' "$work/$1.ran"
    sed -n 's/^test result: .* \([0-9]* passed\); \([0-9]* failed\); .*/\1, \2/p' "$work/$1.ran"
    grep -q '^test result: ok' "$work/$1.ran"
}

# does CASE COMMAND..: the command ends well.
does() {
    name=$1
    shift
    if "$@" > "$work/$name.does" 2>&1; then
        echo '1 passed, 0 failed'
    else
        echo "failed: $name: $(tail -n 5 "$work/$name.does")"
        echo '0 passed, 1 failed'
    fi
}

# Programs in C make each call of the library, on one thread and on several.
calls_from_c() {
    has_c || return
    build_with_c cml_c calls threads || return
    does calls bounded env TRIED=calls "$program"
    does threads bounded env TRIED=threads "$program"
}

replays_from_c() {
    has_c || return
    build_with_c cml_script_c replay || return
    for report in examples/scripts/*.report; do
        does "$(basename "$report")" replays "${report%.report}"
    done
}

# replays EXAMPLE: the program in C writes the report beside the script; `replay` refuses one with lanes or feeds.
replays() {
    if grep -q '^\(lane\|feed\) ' "$1.cml"; then
        ! "$program" < "$1.cml"
    else
        "$program" < "$1.cml" | cmp - "$1.report"
    fi
}

# has_c: whether there is a C compiler, with what gives a function another name.
has_c() {
    command -v cc > /dev/null && command -v nm > /dev/null && command -v objcopy > /dev/null && return
    echo 'skipped: there is no C compiler with nm and objcopy'
    echo '0 passed, 0 failed'
    return 1
}

. tests/lib/beside.sh
[ $# -gt 0 ] || set -- $(steps)
echo "This proves nothing. $# steps are tried, and some take minutes:"
beside tests/quick.sh "$@"
