#!/bin/sh
# For developers who change what a call costs. Writes docs/SPEED.md, docs/speed.svg and docs/speed.tsv: what a message costs through
# the library and by other ways, measured by turns in one run on this machine. `sh tools/speed.sh` takes about ten minutes. Let
# nothing run beside it. These words may follow:
#
#   --prefix PREFIX        the library that bindings/install.sh installed, if not in SERYUGO_PREFIX or where pkg-config finds it
#   --bench PROGRAM        the proved cml_bench, if not crates/cml_bench/out/cml_bench
#   --cml PROGRAM          the proved cml, if not crates/cml/out/cml
#   --before PREFIX        an earlier library, whose figures speed.tsv has too
#   --before-bench, --before-cml PROGRAM
#                          earlier programs
#   --before-tree FOLDER   a checkout with the earlier crate in Rust and package for Python, if they differ from those here
#   --before-name WORDS    what the page says of the earlier build
#   --rounds N             seven without it
#   --into FOLDER          in place of docs
#   --figures FILE         keeps all figures here, from which tools/speed/page.py FILE FOLDER writes the page again
#   --few                  few messages, to try this script: the figures say nothing
#
# A library from bindings/try.sh is not proved and checks each step. Its figures say nothing either.
LC_ALL=C
export LC_ALL
# The words name files as seen from here.
here=$PWD
cd "$(dirname "$0")/.." || exit 1

fail() {
    echo "tools/speed.sh: $1" >&2
    exit 1
}

# in_full PATH: as seen from the root.
in_full() {
    case $1 in
        /* | '') echo "$1" ;;
        *) echo "$here/$1" ;;
    esac
}

prefix=$(in_full "$SERYUGO_PREFIX")
[ -n "$prefix" ] || prefix=$(pkg-config --variable=prefix seryugo 2> /dev/null)
bench=$PWD/crates/cml_bench/out/cml_bench
cml=$PWD/crates/cml/out/cml
before=
before_bench=
before_cml=
before_tree=$PWD
before_name=
rounds=7
into=$PWD/docs
kept=
# Each count of messages is divided by this.
share=1
while [ $# -gt 0 ]; do
    case $1 in
        --few) share=100 && shift && continue ;;
        --*) [ -n "$2" ] || fail "what belongs to $1 is missing" ;;
    esac
    case $1 in
        --prefix) prefix=$(in_full "$2") ;;
        --bench) bench=$(in_full "$2") ;;
        --cml) cml=$(in_full "$2") ;;
        --before) before=$(in_full "$2") ;;
        --before-bench) before_bench=$(in_full "$2") ;;
        --before-cml) before_cml=$(in_full "$2") ;;
        --before-tree) before_tree=$(in_full "$2") ;;
        --before-name) before_name=$2 ;;
        --rounds) rounds=$2 ;;
        --into) into=$(in_full "$2") ;;
        --figures) kept=$(in_full "$2") ;;
        *) fail "the word $1 is not understood: the head of this file has those that are" ;;
    esac
    shift 2
done
[ "$rounds" -gt 0 ] 2> /dev/null || fail "$rounds is no number of rounds"

# One line names all that is missing.
missing=
miss() { missing="$missing${missing:+; }$1"; }
for program in cargo rustc cc python3 awk; do
    command -v $program > /dev/null || miss "the program $program"
done
[ -f "$prefix/lib/libseryugo.a" ] ||
    miss 'the library (run (cd crates/cml_c && rt lib) and sh bindings/install.sh PREFIX, and say --prefix PREFIX)'
[ -x "$bench" ] || miss 'cml_bench (run (cd crates/cml_bench && rt run), or say --bench PROGRAM)'
[ -x "$cml" ] || miss 'cml (run (cd crates/cml && rt run), or say --cml PROGRAM)'
[ -z "$before" ] || [ -f "$before/lib/libseryugo.a" ] || miss "the earlier library in $before"
[ -z "$before_bench" ] || [ -x "$before_bench" ] || miss "the earlier program $before_bench"
[ -z "$before_cml" ] || [ -x "$before_cml" ] || miss "the earlier program $before_cml"
[ -z "$missing" ] || fail "missing: $missing"

work=$(mktemp -d) || exit 1
busy=
# Ends the threads that compute beside a round.
quiet() {
    # shellcheck disable=SC2086
    [ -z "$busy" ] || kill $busy
    busy=
}
trap 'quiet; rm -rf "$work"' EXIT
trap 'exit 1' HUP INT TERM
figures=$work/figures
# Whatever else computes on this machine changes the figures.
awk '$1 > 0.5 { print "this machine is busy, as its load of " $1 " shows: the figures will say little" }' /proc/loadavg >&2

. tools/speed/machine.sh
. tools/speed/build.sh
. tools/speed/rounds.sh
. tools/speed/instructions.sh

describe > "$figures"
make_script > "$work/script"
echo 'building the programs' >&2
keep now "$bench" "$cml"
build now "$prefix" "$PWD" || fail 'a program was not built'
keep before "$before_bench" "$before_cml"
[ -z "$before" ] || build before "$before" "$before_tree" || fail 'a program was not built with the earlier library'
round=1
while [ "$round" -le "$rounds" ]; do
    echo "round $round of $rounds" >&2
    one_round || fail "a program failed in round $round"
    round=$((round + 1))
done
if command -v valgrind > /dev/null; then
    echo 'counting instructions' >&2
    setting=instructions
    by_turns by_count || fail 'a program failed whose instructions were counted'
else
    echo 'left out: instructions: there is no valgrind' >&2
fi
[ -z "$kept" ] || cp "$figures" "$kept" || fail "the figures are not kept in $kept"
PYTHONDONTWRITEBYTECODE=1 python3 tools/speed/page.py "$figures" "$into" && echo "wrote $into/SPEED.md, speed.svg and speed.tsv"
