#!/bin/sh
# The wrong edits in crates/*/edits.txt: `sh tests/edits.sh [NAME [TITLE..]]..` checks that the prover refuses each edit of the crates
# that are named, or of all crates. After a crate's name the titles of some of its edits may follow: then these alone are tried.
# `rt ci` itself tries those in crates/*/must-fail, which guard the promises of docs/PROVED.md. If you change a crate, try the others
# of that crate by this script.
#
# `rt must-fail` tries them on a copy of the crates, in which they are in must-fail/. It proves the crate once more before its
# first edit, and the libraries below that no check of yours has proved in their folders. The last line is `N passed, M failed`.
top=$(cd "$(dirname "$0")/.." && pwd) || exit 1
. "$top/tests/lib/cases.sh"
cd "$top" || exit 1
. tests/lib/edits.sh

# stop WHY: ends the test, which tries nothing.
stop() {
    fail "$1"
    count
    exit 1
}

if [ $# -eq 0 ]; then
    for file in crates/*/edits.txt; do
        set -- "$@" "$(basename "$(dirname "$file")")"
    done
fi
names=
name=
for word; do
    if [ -z "$name" ] || [ -d "crates/$word" ]; then
        [ -f "crates/$word/edits.txt" ] || stop "there is no file crates/$word/edits.txt"
        name=$word
        names="$names $name"
        : > "$work/$name.titles"
    else
        echo "$word" >> "$work/$name.titles"
    fi
done
for name in $names; do
    # shellcheck disable=SC2046 # a title is one word
    part_edits "crates/$name/edits.txt" "$work/crates/$name/must-fail" $(cat "$work/$name.titles") > "$work/told" ||
        stop "$(cat "$work/told")"
done

cp crates.txt HANDLES "$work" || exit 1
for folder in crates/*; do
    mkdir -p "$work/$folder" || exit 1
    for part in "$folder"/*; do
        case ${part##*/} in
            out | must-fail | edits.txt) ;;
            *) cp -a "$part" "$work/$folder" || exit 1 ;;
        esac
    done
    if [ -f "$folder/out/rlib/stamp" ]; then
        mkdir "$work/$folder/out" && cp -a "$folder/out/rlib" "$work/$folder/out" || exit 1
    fi
done

# shellcheck disable=SC2086 # a crate's name is one word
(cd "$work" && rt must-fail $names 2>&1) | tee "$work/told"
edits=$(find "$work"/crates/*/must-fail -name '*.edit' | wc -l)
passed=$(grep -c '^rt: must-fail .*: refused, as it must be' "$work/told")
failed=$((edits - passed))
count
