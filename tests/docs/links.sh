#!/bin/sh
# Each link in a document leads to a file that is there, and to a heading there if it names one. Each page of docs/ that a document, a
# source or a script names is there. README has at most 1,000 words, docs/DECISIONS.md 5,000 and all documents together 45,000, and
# a sentence of README has at most 25. What a wrong edit replaces stands once in the file that it names: `sh tests/docs/links.sh`. The
# last line is `N passed, M failed`.
top=$(cd "$(dirname "$0")/../.." && pwd) || exit 1
. "$top/tests/lib/cases.sh"
cd "$top" || exit 1

# places DOCUMENT: what a link may name after `#`, by GitHub's rule. It is a heading in small letters, with `-` for each blank,
# without punctuation and without the targets of its links. The second heading with these words ends with `-1`, the third with `-2`.
places() {
    LC_ALL=C awk '
        /^[ \t]*```/ { code = !code; next }
        code || !/^#+ / { next }
        {
            sub(/^#+ +/, "")
            sub(/[ \t]+$/, "")
            gsub(/\]\([^)]*\)/, "")
            gsub(/[!-,.\/:-@[-^`{-~]/, "")
            gsub(/ /, "-")
            place = tolower($0)
            print place (seen[place]++ ? "-" (seen[place] - 1) : "")
        }' "$1"
}

# leads FROM TO: a file named in a file is there, and if `#` and a place follow, it has this place.
leads() {
    file=${2%%#*}
    if [ ! -e "$file" ]; then
        fail "$1 names $file, which isn't there"
    elif [ "$file" != "$2" ] && ! places "$file" | grep -qxF -- "${2#*#}"; then
        fail "$1 names the heading ${2#*#} of $file, which isn't there"
    else
        pass
    fi
}

# What names files: all that git keeps, or without it all but what is built.
kept() { git ls-files 2> /dev/null || find . -type f ! -path '*/out/*' ! -path '*/target/*' | sed 's|^\./||'; }

# words DOCUMENT..: how many words these have. A word is a run of characters without a blank, with a letter or a digit, outside
# blocks of code.
words() {
    LC_ALL=C awk '
        FNR == 1 { code = 0 }
        /^[ \t]*```/ { code = !code; next }
        !code { for (i = 1; i <= NF; i++) if ($i ~ /[A-Za-z0-9]/) count++ }
        END { print count + 0 }' "$@"
}

# at_most LIMIT WHAT DOCUMENT..: the documents have no more words.
at_most() {
    limit=$1
    what=$2
    shift 2
    many=$(words "$@")
    if [ "$many" -le "$limit" ]; then pass; else fail "$what: $many words, more than $limit"; fi
}

# sentences DOCUMENT: each sentence as `WORDS its text`. A sentence ends after `.`, `?`, `!` or `:` with a blank after it, and at
# the end of its line or its cell of a table. Inline code is one word. Code in blocks and in lines that begin with four blanks is
# left out.
sentences() {
    LC_ALL=C awk '
        function show(text, parts, many, i) {
            many = split(text, parts, /[.?!:] +/)
            for (i = 1; i <= many; i++) if (words_in(parts[i])) print words_in(parts[i]), parts[i]
        }
        function words_in(text, parts, many, i, count) {
            many = split(text, parts, /[ \t]+/)
            for (i = 1; i <= many; i++) if (parts[i] ~ /[A-Za-z0-9]/) count++
            return count + 0
        }
        /^[ \t]*```/ { code = !code; next }
        code || /^    / { next }
        {
            gsub(/`[^`]*`/, "CODE")
            gsub(/\*/, "")
            many = split($0, cells, "|")
            for (cell = 1; cell <= many; cell++) show(cells[cell])
        }' "$1"
}

kept | grep '\.md$' > "$work/all"
grep -v '^tools/speed/page.md$' "$work/all" > "$work/documents"
while read -r document; do
    grep -oE '\]\([A-Za-z0-9_./-]*(#[A-Za-z0-9_-]+)?\)' "$document" | sed 's/^](\(.*\))$/\1/' | sort -u | while read -r link; do
        case $link in
            '#'*) echo "$document $document$link" ;;
            *) echo "$document $(dirname "$document")/$link" ;;
        esac
    done
done < "$work/documents" > "$work/links"
kept | grep -E '\.(md|rs|rt|antt|h|c|py|sh|awk|toml)$' | while read -r file; do
    grep -oE '\bdocs/[A-Z_]+\.(md|svg)' "$file" | sort -u | sed "s|^|$file |"
done >> "$work/links"
while read -r from to; do leads "$from" "$to"; done < "$work/links"

# strange_edits CRATE: the titles of the wrong edits of which a line to replace doesn't stand in its file, or stands there twice.
strange_edits() {
    awk -v crate="$1" '
        /^edit: / { title = $2 }
        /^file: / {
            file = crate "/" substr($0, 7)
            text = ""
            while ((getline line < file) > 0) text = text line "\n"
            close(file)
        }
        /^old: / {
            old = substr($0, 6)
            at = index(text, old)
            if (at == 0 || index(substr(text, at + length(old)), old) > 0) print title
        }' "$1/edits.txt"
}

at_most 1000 README.md README.md
at_most 5000 docs/DECISIONS.md docs/DECISIONS.md
# shellcheck disable=SC2046 # no document has a blank in its name
at_most 45000 'all documents' $(cat "$work/all")
sentences README.md > "$work/sentences"
while read -r many sentence; do
    if [ "$many" -le 25 ]; then pass; else fail "README.md: a sentence of $many words, more than 25: $sentence"; fi
done < "$work/sentences"
for edits in crates/*/edits.txt; do
    strange=$(strange_edits "${edits%/edits.txt}")
    # shellcheck disable=SC2086 # one line
    if [ -z "$strange" ]; then pass; else fail "$edits: no longer fitting:" $strange; fi
done
count
