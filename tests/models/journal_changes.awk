# Changed journals: `awk -v to=FOLDER/NAME -f tests/models/calls.awk -f tests/models/journal_changes.awk JOURNAL` writes a file NAME.KIND.NUMBER for each text that is
# nearly this journal. Each byte becomes another, and in a short journal two others; each entry has each other reply, and some other
# calls; each line is left out, doubled, or exchanged with the next; so is each piece; the text ends after each byte. With
# `-v step=7` bytes and ends are every seventh, and entries every fifth.

BEGIN {
    for (byte = 1; byte < 256; byte++) character[byte] = sprintf("%c", byte)
    for (byte in character) number[character[byte]] = byte
    # What means something to a journal, and bytes that mean nothing.
    replies = split("done none put closed made", reply, " ")
    choices = split("mvar", choice, " ")
    for (at = 1; at <= calls; at++) choice[++choices] = word_of[at] (kinds_of[word_of[at]] == "" ? ":" : "")
    others = split("10 32 37 48 49 57 58 61 65 70 97 100 115 2 9 13 127 128 255", other, " ")
}

{ line[NR] = $0; text = text $0 "\n" }

END {
    if (step < 1) step = 1
    for (at = 1; at <= length(text); at += step) change_byte(at)
    for (at = 1; at < length(text); at += step) write_to("prefix", substr(text, 1, at))
    for (at = 1; at <= NR; at++) first[at] = last[at] = at
    for (at = 1; at <= NR; at++) if (line[at] ~ /: / && (step == 1 || at % 5 == 0)) change_entry(at)
    rearrange("line", NR)
    pieces = 0
    for (at = 1; at <= NR; at++) {
        if (line[at] ~ /^journal /) first[++pieces] = at
        last[pieces] = at
    }
    if (pieces > 1) rearrange("piece", pieces)
}

# One of the bytes that mean something, another at each place; or the byte before it or after it in the table of bytes.
function change_byte(at,    old, new, is_short) {
    old = substr(text, at, 1)
    new = character[other[at % others + 1]]
    if (new == old) new = character[other[(at + 1) % others + 1]]
    is_short = length(text) < 700
    if (is_short || at % 3 == 0) change_to(at, new)
    if (is_short || at % 3 != 0) change_to(at, character[number[old] + (at % 2 ? 1 : -1)])
}

function change_to(at, new) { write_to("byte", substr(text, 1, at - 1) new substr(text, at + 1)) }

function change_entry(at,    place, front, i, word) {
    place = index(line[at], ": ")
    front = substr(line[at], 1, place + 1)
    for (i = 1; i <= replies; i++) change_line(at, front reply[i])
    change_line(at, front)
    change_line(at, front "made " at % 7)
    change_line(at, front (line[1] == "journal 1" ? at % 7 : "=" at % 7))
    split(line[at], word, " ")
    front = substr(line[at], 1, length(word[1] " " word[2] " "))
    for (i = 0; i < 3; i++) change_line(at, front choice[(at + 6 * i) % choices + 1] substr(line[at], length(front word[3]) + 1))
}

function change_line(at, new) { write_to("entry", before(at) new "\n" behind(at, NR)) }

# Each part left out, doubled, and exchanged with the next. A part has the lines from its first to its last.
function rearrange(sort, parts,    k) {
    for (k = 1; k <= parts; k++) {
        write_to(sort, before(k) behind(k, parts))
        write_to(sort, before(k) part(k) part(k) behind(k, parts))
        if (k < parts) write_to(sort, before(k) part(k + 1) part(k) behind(k + 1, parts))
    }
}

function part(k,    i, lines) {
    for (i = first[k]; i <= last[k]; i++) lines = lines line[i] "\n"
    return lines
}

function before(k,    i, lines) {
    for (i = 1; i < k; i++) lines = lines part(i)
    return lines
}

function behind(k, parts,    i, lines) {
    for (i = k + 1; i <= parts; i++) lines = lines part(i)
    return lines
}

function write_to(sort, changed,    file) {
    file = to "." sort "." ++written[sort]
    printf "%s", changed > file
    close(file)
}
