#!/bin/sh
# The static libraries, over what `rt ci` has proved here: `sh tests/libraries/archives.sh` after it writes
# crates/NAME/out/libNAME.a for each crate that crates.txt calls a static library. `rt ci` proves a static library and keeps nothing
# of that proof, so the first run here proves it once more. It keeps what it proved in the user's cache. A later run builds from
# that, if all that the proof read is the same: the compiler compares every file and library. `rt lib` in the crate's folder writes
# the same archive, but proves for it all that lies below. Then it looks whether the compiler has left a call's way in one function.
# The last line is `N passed, M failed`.
top=$(cd "$(dirname "$0")/../.." && pwd) || exit 1
. "$top/tests/lib/cases.sh"
cd "$top" || exit 1
kit=$(dirname "$(rt doc)")
cache=${XDG_CACHE_HOME:-$HOME/.cache}/seryugo

# libraries NAME: the words that name those of its line in crates.txt, and the folders of all libraries that they need.
libraries() {
    for library in std $(sed -n "s/^$1 staticlib: *//p" crates.txt); do
        if [ -d "crates/$library" ]; then
            echo "--extern $library=$top/crates/$library/out/rlib/$library.rlib"
        else
            echo "--extern $library=$kit/rlibs/$library.rlib"
        fi
    done
    for folder in "$kit/rlibs" "$top"/crates/*/out/rlib; do
        echo "-L dependency=$folder"
    done
}

# archive NAME CHECKED: writes the archive from what a check wrote into the folder CHECKED. It fails if that check read anything else.
archive() {
    [ -d "$2" ] && "$kit/bin/rattle" build $words --crate-checked "$2" --toolchain "$kit/toolchain" --backend llvm -o "out/lib$1.a"
}

# keep NAME CHECKED: keeps what the check wrote, for a later run. Without room for it, a later run proves the crate again.
keep() {
    mkdir -p "$cache" && rm -rf "$cache/$1" && mv "$2" "$cache/$1"
} 2> /dev/null

# build NAME: writes the archive, from an earlier proof if there is one.
build() {
    words="--crate-name $1 src/lib.rt --crate-type staticlib $(libraries "$1") --links $1="
    words="$words --antt-project $kit/rattle/logic/antt-project.json"
    cd "crates/$1" && mkdir -p out || return
    archive "$1" "$cache/$1" && return
    "$kit/bin/rattle" check $words --logic-built "$kit/logic_built" -o "$work/$1.checked" && archive "$1" "$work/$1.checked" || return
    keep "$1" "$work/$1.checked" || true
}

# apart ARCHIVE: what a send and a receive go through, as far as it isn't part of the exports. An export knows which call it makes. A
# function that it calls takes that call out of memory, and looks at its kind again. A line of an entry is put too, after the call.
apart() {
    nm "$1" 2> /dev/null | grep -v '::putting::' | grep -E '::(call_turn|Room::call|perform|take_first|put|receive)(::<|$)'
}

names=$(sed -n 's/^\([a-z_]*\) staticlib:.*/\1/p' crates.txt)
for name in $names; do
    (build "$name") > "$work/$name" 2>&1 || echo > "$work/$name.failed" &
done
wait
for name in $names; do
    if [ ! -e "$work/$name.failed" ]; then
        pass
    else
        fail "the archive of $name"
        tail -n 20 "$work/$name"
    fi
done
if apart crates/cml_c/out/libcml_c.a > "$work/apart"; then
    fail "functions of the archive that each export should have in it: $(cat "$work/apart")"
else
    pass
fi
count
