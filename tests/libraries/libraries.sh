#!/bin/sh
# What uses the libraries for C, from outside: `sh tests/libraries/libraries.sh [STEP..]`, once `tests/libraries/archives.sh` or
# `rt lib` built the archives, and `rt ci` or `rt run` the program `cml`. As many steps run at once as there are processors. The
# last line is `N passed, M failed`.
cd "$(dirname "$0")/../.." || exit 1
rooms=crates/cml_c/out/libcml_c.a
scripts=crates/cml_script_c/out/libcml_script_c.a
cml=crates/cml/out/cml

# The steps, those that take longest first.
steps='bindings install instructions follow chat_server keep_journal build_system'

step() {
    case $1 in
        bindings | install) sh "tests/libraries/$1.sh" "$rooms" "$scripts" ;;
        instructions) sh tests/libraries/instructions.sh "$rooms" ;;
        *) sh "tests/programs/$1.sh" "$rooms" "$cml" check ;;
    esac
}

# Less than for all of them in tests/all.sh.
longest_step=7200
. tests/lib/beside.sh
[ $# -gt 0 ] || set -- $steps
beside tests/libraries/libraries.sh "$@"
