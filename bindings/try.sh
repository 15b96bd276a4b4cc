#!/bin/sh
# The library for C, Rust and Python, and the programs `cml` and `cml_chart`, in minutes and without a proof: `sh bindings/try.sh PREFIX`.
# `sh bindings/try.sh PREFIX PROGRAM` installs one of the programs alone.
# It compiles what `rt lib` in crates/cml_c and `rt run` in the programs' crates prove and compile. It installs the library as
# bindings/install.sh does, and the programs into PREFIX/bin. Use it to try them. They check each step at run time, so a call takes many
# times as long as in the proved library. For what you rely on, prove it first.
set -e
usage() { echo 'usage: sh bindings/try.sh PREFIX [cml|cml_chart]' >&2; exit 1; }
[ $# -ge 1 ] && [ $# -le 2 ] && [ -n "$1" ] || usage
case ${2-cml} in cml | cml_chart) programs=${2:-cml cml_chart} ;; *) usage ;; esac
case $1 in
    /*) prefix=$1 ;;
    *) prefix=$PWD/$1 ;;
esac
top=$(cd "$(dirname "$0")/.." && pwd)
cd "$top"
for needed in rt cc ar nm objcopy; do
    command -v "$needed" > /dev/null || { echo "bindings/try.sh: there is no $needed" >&2; exit 1; }
done
kit=$(dirname "$(rt doc)")
work=$(mktemp -d)
trap 'rm -rf "$work"' EXIT
. tests/lib/tried.sh
echo "compiling without a proof: the library $programs"
for crate in $programs; do
    { build "$crate" "crates/$crate/src/main.rt" || true; } > "$work/$crate.told" &
done
library "$work/libcml_c.a"
SERYUGO_ARCHIVE="$work/libcml_c.a" SERYUGO_SCRIPT_ARCHIVE=/nowhere sh bindings/install.sh "$prefix" | grep -v '^left out'
wait
cat "$work"/*.told
mkdir -p "$prefix/bin"
for crate in $programs; do
    [ -x "$work/$crate.built/program" ] || exit 1
    install -m 755 "$work/$crate.built/program" "$prefix/bin/$crate"
    echo "installed $crate in $prefix/bin"
done
