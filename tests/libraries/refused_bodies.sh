#!/bin/sh
# Wrong bodies that the compiler refuses before any proof: `sh tests/libraries/refused_bodies.sh`. A type that can't be dropped
# refuses them, or a private item, or a borrow. `rt must-fail` counts no such edit, since it wants the prover to refuse. It proves
# nothing.
#
# They are in tests/libraries/refused_bodies/edits.txt, written as those in crates/*/edits.txt, with two lines more: `crate: NAME`,
# and `says: TEXT`, which an error about that file must have. All are made at once on a copy of the sources. The program reach.txt
# there reaches each function that they change; `rt ci` takes no file `.rt` outside a crate. The compiler looks at moves only once
# all types are right. So the copy is compiled again and again, without the edits refused before, until none is left. Then it must
# compile. The last line is `N passed, M failed`.
top=$(cd "$(dirname "$0")/../.." && pwd) || exit 1
. "$top/tests/lib/cases.sh"
cd "$top" || exit 1
kit=$(dirname "$(rt doc)")
. tests/lib/tried.sh
. tests/lib/edits.sh

# part EDIT NAME: what the edit has in its line of this name.
part() { sed -n "s/^$2: //p" "$1"; }

# title EDIT: the edit's title.
title() { basename "$1" .edit; }

# about EDIT: how the copy names the edit's file.
about() { echo "crates/$(part "$1" crate)/$(part "$1" file)"; }

# makes EDIT: makes an edit in the copy. Its `old:` occurs exactly once in the file.
makes() {
    source=$work/copy/$(about "$1")
    OLD=$(part "$1" old) NEW=$(part "$1" new) awk '
        { at = index($0, ENVIRON["OLD"]) }
        at { many++; $0 = substr($0, 1, at - 1) ENVIRON["NEW"] substr($0, at + length(ENVIRON["OLD"])) }
        { print }
        END { exit many != 1 }
    ' "$source" > "$work/edited" && cp "$work/edited" "$source"
}

# is_refused EDIT: the compiler has said so of the edit's file.
is_refused() { grep -F "/copy/$(about "$1"):" "$work/told" | grep -F ': error[' | grep -qF -- "$(part "$1" says)"; }

# compiles: makes the edits that are left on a new copy, and compiles it. Those that can't be made fail. It ends well if the compiler
# has nothing to say, and hands its work to clang, which here only notes that.
compiles() {
    rm -rf "$work/copy/crates" "$work/handed"
    for folder in crates/*; do
        mkdir -p "$work/copy/$folder" && cp -R "$folder/src" "$work/copy/$folder" || exit 1
    done
    while read -r edit; do
        if makes "$edit"; then echo "$edit"; else fail "$(title "$edit") can't be made" >&2; fi
    done < "$work/left" > "$work/made"
    (cd "$work/copy" && compile reach "$work/noting" reach/main.rt) > "$work/told" 2>&1
    [ -e "$work/handed" ]
}

mkdir -p "$work/copy/reach" "$work/noting/bin"
cp tests/libraries/refused_bodies/reach.txt "$work/copy/reach/main.rt"
{ cat crates.txt && echo 'reach: cml_threads cml_board'; } > "$work/copy/crates.txt"
ln -s "$kit/toolchain/lib" "$work/noting/lib"
ln -s "$kit/toolchain/bin/llvm-ar" "$kit/toolchain/bin/rattle-x64" "$work/noting/bin"
printf '#!/bin/sh\necho > "%s"\nexit 1\n' "$work/handed" | tee "$work/noting/bin/clang" > "$work/noting/bin/ld.lld"
chmod +x "$work/noting/bin/clang" "$work/noting/bin/ld.lld"

if ! part_edits tests/libraries/refused_bodies/edits.txt "$work/edits" > "$work/told"; then
    fail "$(cat "$work/told")"
    count
    exit 1
fi
for edit in "$work"/edits/*.edit; do echo "$edit"; done > "$work/left"
# One error would speak for two edits.
while read -r edit; do echo "$(about "$edit") $(part "$edit" says)"; done < "$work/left" | sort | uniq -d > "$work/double"
[ ! -s "$work/double" ] || fail "two edits want the same error: $(cat "$work/double")"

until compiles; do
    while read -r edit; do
        if is_refused "$edit"; then pass; else echo "$edit"; fi
    done < "$work/made" > "$work/left"
    if cmp -s "$work/made" "$work/left"; then
        fail 'the compiler says something else:'
        tail -n 20 "$work/told"
        break
    fi
done
while read -r edit; do fail "$(title "$edit") isn't refused"; done < "$work/left"
[ ! -e "$work/handed" ] || pass
count
