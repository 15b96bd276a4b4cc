#!/bin/sh
# What bindings/install.sh installs: `sh tests/libraries/install.sh ROOMS [REPLAY]`, with the archives of cml_c and cml_script_c. It
# installs them into a new folder. There programs in C are built by pkg-config, with the shared library and with the static one. The
# crate in Rust finds the library, and so do the crates beside it, for serde and for tokio. The package for Python is tested, and
# installed by pip, both with its extension in C and without. Then bindings/try.sh installs the library and the programs without a
# proof. What isn't there is named and counts for nothing. The last line is `N passed, M failed`.
top=$(cd "$(dirname "$0")/../.." && pwd) || exit 1
. "$top/tests/lib/cases.sh"
rooms=$(absolute "$1")
replay=${2:+$(absolute "$2")}
cd "$top" || exit 1
prefix=$work/installed
# Where the distribution has the sources of other crates.
sources=/usr/share/cargo/registry
version=$(sed -n 's/^#define SERYUGO_VERSION "\(.*\)"/\1/p' include/seryugo.h)
unset SERYUGO_PREFIX LD_LIBRARY_PATH PKG_CONFIG_PATH

# has_sources WHAT CRATE: the distribution has the sources of a crate, of any version if its name ends in `*`.
has_sources() {
    for found in "$sources"/$2; do
        [ -d "$found" ] || { echo "left out: $1: there is no $sources/$2" && return 1; }
    done
}

# prints LINE COMMAND..: the command prints this line alone.
prints() {
    line=$1
    shift
    [ "$("$@")" = "$line" ]
}

installs() {
    SERYUGO_ARCHIVE="$rooms" SERYUGO_SCRIPT_ARCHIVE="${replay:-/nowhere}" sh bindings/install.sh "$prefix"
}

# Without an archive nothing is installed, and the words name what builds it.
names_the_archive() {
    ! SERYUGO_ARCHIVE=/nowhere/libcml_c.a sh bindings/install.sh "$work/empty" 2> "$work/words" &&
        grep -q 'cd crates/cml_c && rt lib' "$work/words" && [ ! -e "$work/empty" ]
}

# An archive that lacks a function of the header isn't installed.
names_the_function() {
    echo 'int other(void) { return 0; }' | cc -c -x c - -o "$work/other.o" &&
        ar rcs "$work/older.a" "$work/other.o" || return
    ! SERYUGO_ARCHIVE="$work/older.a" sh bindings/install.sh "$work/empty" 2> "$work/words" &&
        grep -q 'lacks .*seryugo_open_room' "$work/words" && [ ! -e "$work/empty" ]
}

# One version is in the header, the crates, the package and what was installed.
same_version() {
    [ -n "$version" ] && grep -qx "version = \"$version\"" bindings/rust/seryugo/Cargo.toml &&
        grep -qx "version = \"$version\"" bindings/rust/seryugo_serde/Cargo.toml &&
        grep -qx "__version__ = \"$version\"" bindings/python/seryugo/_version.py &&
        grep -qx "Version: $version" "$prefix/lib/pkgconfig/seryugo.pc"
}

# The shared library has the functions of the headers to be seen, and nothing else.
exports_the_header() {
    nm -D --defined-only "$prefix/lib/libseryugo.so" | sed 's/.* //' | sort > "$work/exported"
    sed -En 's/^([a-z][a-z0-9_]* |const char \*)(seryugo_[a-z0-9_]*)\(.*/\2/p' include/seryugo.h include/seryugo_file.h |
        sort > "$work/wanted"
    [ -s "$work/wanted" ] && diff "$work/wanted" "$work/exported"
}

# compiled WORD..: program.c is built in its own folder, as its user would build it, and runs.
compiled() {
    (
        cd "$work/alone" || exit
        PKG_CONFIG_PATH="$prefix/lib/pkgconfig"
        export PKG_CONFIG_PATH
        # shellcheck disable=SC2046
        cc "$@" program.c $(pkg-config --cflags --libs "${library:-seryugo}") -o program || exit
        bounded ./program
    )
}

# built PROGRAM WORD..: builds and runs a program of examples/c or tests/c so, beside the headers that these share.
built() {
    program=$1
    shift
    rm -rf "$work/alone" && mkdir "$work/alone" && cp "$(c_source "$program")" "$work/alone/program.c" &&
        cp examples/c/*.h tests/c/*.h "$work/alone" && compiled "$@"
}

# A program that was built the plain way needs the shared library, which it finds.
needs_the_shared_library() { built calls && readelf -d "$work/alone/program" | grep -q 'NEEDED.*libseryugo\.so'; }

# The version of the library with which a program in C runs.
version_in_c() {
    rm -rf "$work/alone" && mkdir "$work/alone" && cat > "$work/alone/program.c" << 'END' || return
#include <seryugo.h>
#include <stdio.h>

int main(void) {
    uint32_t version = seryugo_version();
    printf("%u.%u.%u\n", version >> 16, version >> 8 & 0xFF, version & 0xFF);
    return 0;
}
END
    compiled -Wall -Wextra -Werror
}

# The program at the head of seryugo_switchboard.h.
first_in_c() {
    rm -rf "$work/alone" && mkdir "$work/alone" &&
        sed -n '/^ \*     #include/,/^ \* Compile/{/^ \* Compile/q;s/^ \*     //;s/^ \*$//;p;}' \
            "$prefix/include/seryugo_switchboard.h" > "$work/alone/program.c" && compiled -Wall -Wextra -Werror -pthread
}

# The samples in C of docs/C.md, each the body of a function: one answers a message, the next appends a journal's text.
samples_in_c() {
    rm -rf "$work/alone" && mkdir "$work/alone" && {
        cat << 'END'
#include <seryugo.h>

static struct seryugo room, journal;
static struct seryugo_bytes text;
static uint64_t seat, mailbox, from, count;
static size_t answered, appended;

static void answer(const uint8_t *at, size_t length) { answered += at[0] == 'a' ? length : 0; }
static void append(const uint8_t *at, size_t length) { appended += at[0] == 'j' ? length : 0; }
END
        awk '/^```c$/ { inside = 1; printf "\nstatic void sample_%d(void) {\n", ++count; next }
            /^```$/ && inside { inside = 0; print "}" }
            inside
            END { print "\nstatic void samples(void) {"; for (i = 1; i <= count; i++) print "    sample_" i "();"; print "}" }' docs/C.md
        cat << 'END'

int main(void) {
    uint32_t code = seryugo_bytes_room_open(100, &room);

    code |= seryugo_new_seat(&room, &seat) | seryugo_new_mailbox(&room, seat, &mailbox);
    code |= seryugo_bytes_send(&room, seat, mailbox, "abc", 3);
    samples();
    return code == SERYUGO_DONE && answered == 3 && appended > 0 ? 0 : 1;
}
END
    } > "$work/alone/program.c" && compiled -Wall -Wextra -Werror
}

# The same once the folder lies elsewhere.
built_elsewhere() {
    mv "$prefix" "$work/elsewhere" && prefix=$work/elsewhere && built "$@"
}

# The library for scripts writes the report beside the script.
replays() {
    (library=seryugo_script && built replay < examples/scripts/hello_mailbox.cml) > "$work/report" &&
        cmp "$work/report" examples/scripts/hello_mailbox.report
}

from_c() {
    for program in calls threads requests switchboard durable; do
        check "with the shared library: $program" built $program
        check "with the static library: $program" built $program -static
    done
    check 'a journal in a file, with thirty kills and failing calls' bounded sh tests/libraries/file.sh "$prefix"
    if [ -n "$replay" ]; then check 'a script replayed' replays; fi
    check 'a program needs the shared library' needs_the_shared_library
    check 'the version at run time, from C' prints "$version" version_in_c
    check 'the program in the header of switchboards' prints 'received 5' first_in_c
    check 'the samples in C of docs/C.md' samples_in_c
    check 'the installed folder may be moved' built_elsewhere messages
}

# letters VARIABLE=VALUE: the crate finds what is installed by this variable. It needs no other crate.
letters() {
    bounded env "$1" CARGO_TARGET_DIR="$work/target" cargo build --manifest-path "$work/rust/seryugo/Cargo.toml" --quiet --offline \
        --example letters && (cd "$work" && rm -f letters.journal && bounded target/debug/examples/letters) > "$work/letters" &&
        [ "$(cat "$work/letters")" = 'Dear Ben' ]
}

# The crate finds the library in a folder with a space, also by pkg-config and by a relative path.
letters_from_a_folder_with_a_space() {
    cp -r "$prefix" "$work/a folder" && letters "SERYUGO_PREFIX=$work/a folder" &&
        (cd "$work" && letters 'SERYUGO_PREFIX=a folder') &&
        { ! command -v pkg-config > /dev/null || letters "PKG_CONFIG_PATH=$work/a folder/lib/pkgconfig"; }
}

# Without an archive the crate isn't built, and the words name the folder, the variable and what builds it.
letters_without_an_archive() {
    ! letters SERYUGO_PREFIX=/nowhere 2> "$work/words" &&
        grep -q 'in /nowhere/lib, which SERYUGO_PREFIX names. Run `sh bindings/try.sh PREFIX`' "$work/words"
}

# cargo_does COMMAND CRATE WORD..: a command of cargo's on a copy of a crate, with the installed library. The distribution's sources
# are there for other crates.
cargo_does() {
    command=$1
    crate=$2
    shift 2
    bounded env SERYUGO_PREFIX="$prefix" CARGO_TARGET_DIR="$work/target" cargo "$command" --quiet --offline \
        --config 'source.crates-io.replace-with="distribution"' --config "source.distribution.directory=\"$sources\"" \
        --manifest-path "$work/rust/$crate/Cargo.toml" "$@"
}

# Each program of examples/programs/ports does over the crate what it does over crossbeam-channel.
ports() {
    mkdir -p "$work/examples/programs" "$work/bindings" && cp -r examples/programs/ports "$work/examples/programs" &&
        ln -s "$work/rust" "$work/bindings/rust" && cargo_does test ../examples/programs/ports
}

# The version that the crate wants. It opens a switchboard only if the library has that one.
version_in_rust() {
    cat > "$work/rust/seryugo/examples/version.rs" << 'END' || return
fn main() -> Result<(), seryugo::Error> {
    seryugo::Switchboard::new(1)?;
    println!("{}", seryugo::Version::WANTED);
    Ok(())
}
END
    cargo_does run seryugo --example version
}

# A crate of another version opens no switchboard, and names the library's version and its own.
another_version_in_rust() {
    sed 's/^version = .*/version = "9.8.7"/' bindings/rust/seryugo/Cargo.toml > "$work/rust/seryugo/Cargo.toml" &&
        ! version_in_rust 2> "$work/words" && grep -qF "$version" "$work/words" && grep -qF '9.8.7' "$work/words"
}

from_rust() {
    cp -r bindings/rust "$work/rust"
    check 'from Rust, by SERYUGO_PREFIX' letters "SERYUGO_PREFIX=$prefix"
    if has pkg-config 'Rust by pkg-config'; then
        check 'from Rust, by pkg-config' letters "PKG_CONFIG_PATH=$prefix/lib/pkgconfig"
    fi
    check 'from Rust, by a folder with a space' letters_from_a_folder_with_a_space
    check 'from Rust, without an archive' letters_without_an_archive
    check 'the version at run time, from Rust' prints "$version" version_in_rust
    if has_sources 'messages by serde' 'serde-1.*' && has_sources 'messages by serde' 'bincode-1.3.*'; then
        check 'whatever serde takes is a message' cargo_does test seryugo_serde
    fi
    if has_sources 'futures under tokio' 'tokio-1.*'; then check 'futures under tokio' cargo_does test on_tokio; fi
    if has_sources 'programs of crossbeam' 'crossbeam-channel-0.5*'; then check 'programs of crossbeam over the crate' ports; fi
    if has_sources 'messages timed beside peers' 'tokio-1.*' && has_sources 'messages timed beside peers' 'crossbeam-channel-0.5*'; then
        check 'messages are timed beside crossbeam and tokio' cargo_does run speed_of_peers -- 200 '' 1
    fi
    check 'a crate of another version' another_version_in_rust
}

# test_names FILE: the test functions of a file in Rust, each with its module in the file.
test_names() {
    awk '/^mod / { module = $2 "::" }
        /#\[test\]/ { on = 1 }
        on && match($0, /fn [a-z0-9_]+/) { print module substr($0, RSTART + 3, RLENGTH - 3); on = 0 }' "$1"
}

# docs/PEERS.md names each test of bindings/rust/seryugo/tests/peers, and each that it names is there.
peers_tests() {
    for file in bindings/rust/seryugo/tests/peers/*.rs; do
        module=$(basename "$file" .rs)
        test_names "$file" | sed "s/^/$module::/"
    done | sort > "$work/tests"
    modules=$(cut -d: -f1 "$work/tests" | sort -u | tr '\n' '|')
    # shellcheck disable=SC2016
    grep -oE '`[a-z0-9_]+::[a-z0-9_]+`' docs/PEERS.md | tr -d '`' | grep -E "^(${modules%|})::" | sort -u > "$work/named"
    [ -s "$work/tests" ] && diff "$work/tests" "$work/named"
}

# peers_cases FILE: docs/PEERS.md has each case of a peer's file, in the part whose title names the file.
peers_cases() {
    test_names "$1" > "$work/cases"
    awk -v file="$(basename "$1")" '/^## / { on = index($0, file) } on' docs/PEERS.md > "$work/part"
    while read -r name; do
        grep -qF "\`$name\`" "$work/part" || { echo "docs/PEERS.md lacks $name of $1" && return 1; }
    done < "$work/cases" && [ -s "$work/cases" ]
}

# peer CRATE FILE..: the same of these files of a crate.
peer() {
    crate=$1
    shift
    has_sources "the cases of $crate" "$crate" || return
    for file in "$@"; do
        check "the cases of $crate, $file" peers_cases "$sources/$crate/tests/$file.rs"
    done
}

# in_folder FOLDER WORD..: Python in this folder of the package, with the installed library.
in_folder() {
    (
        cd "$1" || exit
        shift
        bounded env SERYUGO_PREFIX="$prefix" PYTHONDONTWRITEBYTECODE=1 PYTHONPATH=. "$@"
    )
}

# in_python WORD..: the package without its extension.
in_python() { in_folder bindings/python env SERYUGO_PURE_PYTHON=1 python3 "$@"; }

# in_extended WORD..: the package with its extension.
in_extended() { in_folder "$work/extended" python3 "$@"; }

# compiles_the_extension FOLDER WORDS: in place, in a new copy of the package, with these words for the compiler.
compiles_the_extension() {
    cp -r bindings/python "$1" && find "$1" -name '*.so' -exec rm {} + && CFLAGS=$2 python3 "$1/build_backend.py"
}

# can_be_extended PYTHON WHAT: whether this Python can have the extension. Otherwise the part WHAT of the test is left out.
can_be_extended() {
    if (cd bindings/python && PYTHONDONTWRITEBYTECODE=1 "$1" -c 'import build_extension; exit(build_extension.why_not())'); then
        return
    fi 2> "$work/words"
    echo "left out: $2: $(cat "$work/words")"
    return 1
}

# The calls of the extension, with the sanitizers of addresses and of undefined behaviour, which see nothing of the library.
sanitized() {
    compiles_the_extension "$work/sanitized" '-g -O1 -fsanitize=address,undefined -fno-sanitize-recover=undefined' || return
    in_folder "$work/sanitized" env PYTHONMALLOC=malloc ASAN_OPTIONS=detect_leaks=0 \
        LD_PRELOAD="$(cc -print-file-name=libasan.so) $(cc -print-file-name=libubsan.so)" \
        python3 -m unittest tests.test_fast_calls.ByWhich tests.test_fast_calls.TheSame tests.test_messages tests.test_calls
}

# page FILE: the first example in Python of a page is examples/letters.py.
page() { awk 'on && /^```$/ { exit } on; /^```python$/ { on = 1 }' "$1" | diff - bindings/python/examples/letters.py; }

by_pkg_config() {
    (cd bindings/python && PKG_CONFIG_PATH="$prefix/lib/pkgconfig" PYTHONDONTWRITEBYTECODE=1 PYTHONPATH=. \
        python3 examples/letters.py)
}

version_in_python() {
    in_python -c 'from seryugo import _library, _version; print(_version.in_words(_library.version()))'
}

# A python3 that makes new environments.
building_python() {
    for python in python3 /usr/bin/python3; do
        "$python" -c 'import ensurepip, venv' && echo "$python" && return
    done 2> "$work/words"
    return 1
}

# by_pip PYTHON WORD ANSWER TAG: the package as pip builds and installs it into a new environment, without a network. While it is
# built SERYUGO_PURE_PYTHON has this word. Whether it has the extension then is this answer, and its wheel had a tag that begins so.
by_pip() {
    rm -rf "$work/package" "$work/venv"
    cp -r bindings/python "$work/package" && "$1" -m venv "$work/venv" &&
        SERYUGO_PURE_PYTHON=$2 "$work/venv/bin/python" -m pip install --quiet --no-index "$work/package" || return
    (
        cd "$work/venv" && SERYUGO_PREFIX=$prefix && export SERYUGO_PREFIX || exit
        prints "$version $3" bin/python -c "import seryugo; assert '$work/venv' in seryugo.__file__
print(seryugo.__version__, seryugo.HAS_EXTENSION)" && grep -q "^Tag: $4" lib/python*/site-packages/seryugo-*.dist-info/WHEEL &&
            prints 'Ben received hello' bin/python "$work/package/examples/letters.py"
    )
}

# The package is built also if nothing can compile the extension.
by_pip_without_a_compiler() { CC=/nowhere/cc by_pip "$1" '' False py3-none-any; }

# The package has types, and so has a program that uses it: what is received has the type of its object.
typed() {
    cat > "$work/typed.py" << 'END' || return
from seryugo import Switchboard

board = Switchboard()
with board.seat() as seat:
    letters = seat.mailbox(str)
    seat.send(letters, "hello")
    greeting: str = seat.recv(letters)
END
    cp "$work/typed.py" "$work/untyped.py" && echo 'seat.send(letters, 5)' >> "$work/untyped.py" &&
        (cd bindings/python && mypy --strict --cache-dir "$work/types" seryugo "$work/typed.py" > "$work/words" &&
            ! mypy --strict --cache-dir "$work/types" "$work/untyped.py" > "$work/words" && grep -q 'untyped.py:8: error' "$work/words")
}

extended_python() {
    can_be_extended python3 'the extension for Python' || return
    check 'the extension for Python is compiled' compiles_the_extension "$work/extended" '-Wall -Wextra -Werror -pedantic'
    check 'the package with its extension' prints True in_extended -c 'import seryugo; print(seryugo.HAS_EXTENSION)'
    check 'the tests in Python with the extension' in_extended -W error::ResourceWarning -m unittest
    check 'messages are timed in Python with the extension' in_extended examples/speed.py 2
    check 'nothing wrong with an address: the extension' sanitized
}

from_python() {
    check 'the package without its extension' prints False in_python -c 'import seryugo; print(seryugo.HAS_EXTENSION)'
    check 'the tests in Python' in_python -W error::ResourceWarning -m unittest
    extended_python
    check 'a mailbox and two threads in Python' prints 'Ben received hello' in_python examples/letters.py
    if has pkg-config 'Python by pkg-config'; then
        check 'from Python, by pkg-config' prints 'Ben received hello' by_pkg_config
    fi
    check 'messages are timed in Python' in_python examples/speed.py 2
    check 'the version at run time, from Python' prints "$version" version_in_python
    if python=$(building_python); then
        check 'the package by pip' by_pip "$python" 1 False py3-none-any
        check 'the package by pip without a compiler' by_pip_without_a_compiler "$python"
        if can_be_extended "$python" 'the package by pip with its extension'; then
            check 'the package by pip with its extension' by_pip "$python" '' True 'cp3[0-9]*-cp3'
        fi
    else
        echo 'left out: the package by pip: no python3 has venv and ensurepip'
    fi
    if has mypy 'the types in Python'; then check 'the types in Python' typed; fi
    check "the README's example in Python" page bindings/python/README.md
}

# What bindings/try.sh installs without a proof, from an empty environment. It compiles cml_chart as it does cml.
tried() {
    env -i PATH="$PATH" sh bindings/try.sh "$work/tried" cml && prefix=$work/tried && built calls && built messages -static &&
        bounded "$prefix/bin/cml" replay < examples/scripts/hello_mailbox.cml | cmp - examples/scripts/hello_mailbox.report
}

# Without a folder, or with another program, it installs nothing and says how it is called.
refuses_other_words() {
    ! sh bindings/try.sh 2> "$work/words" && grep -q 'PREFIX \[cml|cml_chart\]' "$work/words" &&
        ! sh bindings/try.sh "$work/other" chart 2> "$work/words" && [ ! -e "$work/other" ]
}

check 'the archive of rooms is there' [ -s "$rooms" ]
check 'without an archive' names_the_archive
check 'the library is installed' installs
check 'one version' same_version
check "the tests that docs/PEERS.md names" peers_tests
peer crossbeam-channel-0.5.6 list iter thread_locals golang mpsc
peer tokio-1.24.2 sync_broadcast
if has cc 'all programs'; then
    check 'an archive that is too old' names_the_function
    check 'the shared library exports the header' exports_the_header
    if has pkg-config 'programs in C'; then from_c; fi
    if has cargo 'the crate in Rust'; then from_rust; fi
    if has python3 'the package for Python'; then from_python; fi
    if has rt 'the library without a proof' && has pkg-config 'the library without a proof'; then
        check 'the library without a proof' tried
        check 'other words for the library without a proof' refuses_other_words
    fi
fi

count
