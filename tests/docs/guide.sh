#!/bin/sh
# Each paragraph of code in docs/GUIDE.md, in docs/EXPLORE.md and in the README is word for word in a source: that in Rattle in
# crates/cml_guide/src, where it is proved, and what is in Rust in bindings/rust, where it is run.
# The last line is `N passed, M failed`.
top=$(cd "$(dirname "$0")/../.." && pwd) || exit 1
. "$top/tests/lib/cases.sh"
cd "$top" || exit 1
awk '
    function compare() {
        if (paragraph == "") return
        if (index(sources, "\n" paragraph)) passed++
        else { failed++; print "failed: " FILENAME ", line " first ", is not in the sources:\n" paragraph }
        paragraph = ""
    }
    FILENAME !~ /\.md$/ { sources = sources "\n" $0; next }
    /^```rust$/ { inside = 1; next }
    /^```$/ || (inside && $0 == "") { compare(); if (/^```$/) inside = 0; next }
    inside { if (paragraph == "") first = FNR; paragraph = paragraph $0 "\n" }
    END { print passed + 0, failed + 0 }
' bindings/rust/seryugo/examples/letters.rs bindings/rust/seryugo/tests/explore/first.rs crates/cml_guide/src/*.rt \
    docs/GUIDE.md docs/EXPLORE.md README.md > "$work/compared"
add_counts "$work/compared"
count
