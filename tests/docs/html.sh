#!/bin/sh
# The documents as pages of HTML, which tools/html.sh writes: `sh tests/docs/html.sh`. Each document has a page, each link leads to
# a page and to its place there, or to a file, each picture is there, and no diagram is left as text. The last line is
# `N passed, M failed`.
top=$(cd "$(dirname "$0")/../.." && pwd) || exit 1
. "$top/tests/lib/cases.sh"
cd "$top" || exit 1
PYTHONDONTWRITEBYTECODE=1
export PYTHONDONTWRITEBYTECODE

# A folder with a space in its name, as a person may have one.
pages="$work/all pages"

writes_pages() { sh tools/html.sh "$pages" > "$work/told" && grep -q 'README.html$' "$work/told"; }

names_no_folder() { ! sh tools/html.sh > "$work/told" 2>&1 && grep -q 'name a folder' "$work/told"; }

if has pandoc 'pages of HTML' && has dot 'pages of HTML' && has mscgen 'pages of HTML' && has python3 'pages of HTML'; then
    check 'pages are written' writes_pages
    check 'no folder is named' names_no_folder
    python3 tests/lib/html_pages.py "$pages" > "$work/pages"
    add_counts "$work/pages"
fi
count
