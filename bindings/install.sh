#!/bin/sh
# Installs the library for C and all that calls C: `sh bindings/install.sh PREFIX`. It writes the headers into PREFIX/include, and into
# PREFIX/lib the static library, the shared library, and pkgconfig/seryugo.pc. A program is then built by
# `cc program.c $(pkg-config --cflags --libs seryugo)`, with PREFIX/lib/pkgconfig in PKG_CONFIG_PATH. The part of the library that names calls
# and keeps a journal in a file is in C (lib/): this script compiles it.
#
# It needs the archive that `(cd crates/cml_c && rt lib)` proves and writes. SERYUGO_ARCHIVE names another. If the archive of
# `crates/cml_script_c` is there, or SERYUGO_SCRIPT_ARCHIVE names it, the library seryugo_script is installed too. SERYUGO_KIT
# names the kit's folder `c`, by whose archive the library allocates memory; without it `rt doc` says where the kit is.
# Both libraries have the kit's part in them. The folders of PREFIX may be moved together.
set -e

fail() {
    echo "bindings/install.sh: $1" >&2
    exit 1
}

[ $# -eq 1 ] && [ -n "$1" ] || fail 'name the folder to install into: sh bindings/install.sh PREFIX'
case $1 in
    /*) prefix=$1 ;;
    *) prefix=$PWD/$1 ;;
esac

# in_full FILE: its path, or nothing if there is no such file.
in_full() { [ ! -f "$1" ] || echo "$(cd "$(dirname "$1")" && pwd)/$(basename "$1")"; }

rooms=$(in_full "${SERYUGO_ARCHIVE:-$(dirname "$0")/../crates/cml_c/out/libcml_c.a}")
scripts=$(in_full "${SERYUGO_SCRIPT_ARCHIVE:-$(dirname "$0")/../crates/cml_script_c/out/libcml_script_c.a}")
kit=$SERYUGO_KIT
[ -n "$kit" ] || ! command -v rt > /dev/null || kit=$(dirname "$(rt doc)")/c
heap=$(in_full "$kit/liblibc_c.a")
cd "$(dirname "$0")/.."
[ -n "$rooms" ] || fail "there is no archive ${SERYUGO_ARCHIVE:-crates/cml_c/out/libcml_c.a}. Run (cd crates/cml_c && rt lib), \
which proves and writes it, or name another one by SERYUGO_ARCHIVE"
[ -n "$heap" ] || fail "there is no archive liblibc_c.a of the kit. Install the kit, whose command is rt, or name its folder c by \
SERYUGO_KIT"
command -v ar > /dev/null && command -v nm > /dev/null || fail 'there is no ar, or no nm. Install binutils'
command -v "${CC:-cc}" > /dev/null || fail 'there is no C compiler'
work=$(mktemp -d)
trap 'rm -rf "$work"' EXIT
version=$(sed -n 's/^#define SERYUGO_VERSION "\(.*\)"$/\1/p' include/seryugo.h)
major=${version%%.*}

# headers NAME: those of this library.
headers() {
    echo "include/$1.h"
    [ "$1" != seryugo ] || echo include/seryugo_file.h
}

# functions NAME: the functions that a program calls in the library, and not in its headers alone.
functions() { headers "$1" | xargs sed -En 's/^([a-z][a-z0-9_]* |const char \*)(seryugo_[a-z0-9_]*)\(.*/\2/p' | sort; }

# file_objects: compiles the part that is in C.
file_objects() {
    for source in lib/*.c; do
        "${CC:-cc}" -std=gnu11 -O2 -fPIC -pthread -I include -c "$source" -o "$work/file_$(basename "$source" .c).o"
    done
}

# exported LISTING: the functions of a listing by nm.
exported() { sed -n 's/.* T \(seryugo_[a-z0-9_]*\)$/\1/p' "$1" | sort; }

# put MODE FILE FOLDER: a program that uses an older file of this name keeps that one.
put() {
    mkdir -p "$prefix/$3"
    rm -f "$prefix/$3/$(basename "$2")"
    cp "$2" "$prefix/$3/"
    chmod "$1" "$prefix/$3/$(basename "$2")"
}

# static_library NAME ARCHIVE: one archive of all parts.
static_library() {
    cp "$2" "$work/library.a"
    cp "$heap" "$work/heap.a"
    (
        cd "$work"
        rm -f "lib$1.a"
        printf 'create lib%s.a\naddlib library.a\naddlib heap.a\nsave\nend\n' "$1" | ar -M
        [ "$1" != seryugo ] || ar r "lib$1.a" file_*.o
        nm -g "lib$1.a" > "$1.has"
    )
    functions "$1" > "$work/$1.header"
    exported "$work/$1.has" > "$work/$1.exported"
    missing=$(comm -23 "$work/$1.header" "$work/$1.exported" | tr '\n' ' ')
    [ -z "$missing" ] || fail "the archive $2 is older than the header include/$1.h: it lacks $missing"
}

# shared_library NAME: the same with the functions of the header, and no other name to be seen.
shared_library() {
    { echo '{ global:'; sed 's/$/;/' "$work/$1.header"; echo 'local: *; };'; } > "$work/$1.map"
    "${CC:-cc}" -shared -o "$work/lib$1.so.$major" -Wl,--whole-archive "$work/lib$1.a" -Wl,--no-whole-archive \
        -Wl,--version-script="$work/$1.map" -Wl,-soname,"lib$1.so.$major" -Wl,-Bsymbolic -Wl,--gc-sections -Wl,-z,defs
}

# The words for pkg-config. A program finds the shared library where it was at that time.
described() {
    cat << END
prefix=\${pcfiledir}/../..
includedir=\${prefix}/include
libdir=\${prefix}/lib

Name: $1
Description: $2
Version: $version
Cflags: -I\${includedir}
Libs: -L\${libdir} -Wl,-rpath,\${libdir} -l$1 -pthread
END
}

# library NAME ARCHIVE WORDS
library() {
    static_library "$1" "$2"
    described "$1" "$3" > "$work/$1.pc"
    shared_library "$1"
    put 755 "$work/lib$1.so.$major" lib
    ln -sf "lib$1.so.$major" "$prefix/lib/lib$1.so"
    for header in $(headers "$1"); do put 644 "$header" include; done
    put 644 "$work/lib$1.a" lib
    put 644 "$work/$1.pc" lib/pkgconfig
    echo "installed $1 $version in $prefix"
}

file_objects
library seryugo "$rooms" 'Mailboxes, channels and variables for threads, proved'
put 644 include/seryugo_switchboard.h include
if [ -n "$scripts" ]; then
    library seryugo_script "$scripts" 'Scripts of threads replayed, proved'
else
    echo 'left out seryugo_script: run (cd crates/cml_script_c && rt lib) first, or name its archive by SERYUGO_SCRIPT_ARCHIVE'
fi
