#!/bin/sh
# For readers. Writes the documents as pages of HTML: `sh tools/html.sh FOLDER`. Then open FOLDER/README.html. It needs `pandoc`,
# `graphviz` and `mscgen`, packages of Debian. The pages need no network and no script. They follow light and dark.
if [ -z "$1" ]; then
    echo 'tools/html.sh: name a folder for the pages' >&2
    exit 1
fi
for needed in pandoc dot mscgen; do
    command -v "$needed" > /dev/null && continue
    echo "tools/html.sh: $needed is missing. On Debian: apt-get install pandoc graphviz mscgen" >&2
    exit 1
done
mkdir -p "$1" && folder=$(cd "$1" && pwd) || exit 1
cd "$(dirname "$0")/.." || exit 1

# The documents: all that git keeps, or without it all that are there.
documents() {
    { git ls-files '*.md' 2> /dev/null || find . -name '*.md' ! -path '*/out/*' ! -path '*/target/*' | sed 's|^\./||'; } |
        grep -v '^tools/speed/page.md$'
}

# to_top FILE: the way from a file's folder to the top.
to_top() { dirname "$1" | sed 's|^\.$||; s|[^/][^/]*|..|g; s|..*|&/|'; }

documents > "$folder/documents"
: > "$folder/linked"
while read -r document; do
    page=$folder/${document%.md}.html
    mkdir -p "$(dirname "$page")"
    title=$(sed -n 's/^# //p' "$document" | head -n 1)
    TOP=$(to_top "$document") DOCUMENT=$document PAGES=$folder pandoc --from gfm --to html5 --standalone --wrap none \
        --lua-filter tools/html/pages.lua --template tools/html/page.html --metadata "pagetitle=$title" \
        --variable "top=$(to_top "$document")" --output "$page" "$document" || exit 1
done < "$folder/documents"

# What the pages show or link is put beside them.
sort -u "$folder/linked" | while read -r file; do
    mkdir -p "$folder/$(dirname "$file")" && cp "$file" "$folder/$file" || exit 1
done || exit 1
rm "$folder/documents" "$folder/linked"
cp tools/html/pages.css "$folder"
echo "wrote $folder/README.html"
