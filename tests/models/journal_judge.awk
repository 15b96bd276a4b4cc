# The judge of journals: what docs/FORMATS.md says under "Journals", and what a lawful history is, written down once more. With the
# calls (tests/models/calls.awk) it shares nothing with the crates, so what both say alike is said twice.
#
#     awk -f tests/models/calls.awk -f tests/models/journal_judge.awk FILE..
#
# For each file it prints `== FILE`, then what the program that checks journals writes to standard output, and then `status N`
# with what the program writes to standard error, whose further lines follow. With `-v state=1` it prints the lines of the objects too.
#
# Numbers have up to 64 bits and awk's have not, so they are compared as texts. A file has no bytes 0 or 1.

BEGIN {
    RS = "\001"
    tables()
    for (i = 1; i < ARGC; i++) {
        print "== " ARGV[i]
        judge(text_of(ARGV[i]))
    }
}

function tables() {
    most = "18446744073709551615"
    longest = 4194304
}

function text_of(file,    text, part, parts) {
    while ((getline part < file) > 0) text = text (parts++ ? RS : "") part
    close(file)
    return text
}

# The text's lines one by one, up to the one that ends it all.
function judge(text,    line, count, k, fault, unended) {
    forget()
    count = split(text, line, "\n")
    unended = count ? line[count] : ""
    for (k = 1; k < count; k++) {
        if (k == 2 && line[2] ~ /^from /) return no_journal("journal: begins after a cut")
        remember()
        fault = fault_of(line[k])
        if (fault != "") return faulty(k, fault, line[k])
        if (!is_lawful) return unlike(line[k])
    }
    if (count == 2 && unended ~ /^from /) return no_journal("journal: begins after a cut")
    remember()
    if (length(unended) > longest) return faulty(count, "line too long", unended)
    if (stage != "ended" || unended != "") return no_journal("journal: " without_end(unended, count ? count - 1 : 0))
    print "lawful " entries
    if (sealed) print "sum " sum
    for (k = 0; state && k < objects; k++) print kind[k] " " k ": " state_of(k)
    print "status 0 "
}

# How a text ends that has no end, after this many lines and this front of a line.
function without_end(line, lines) {
    if (lines == 0 && index("journal 1", line) != 1 && line !~ /^journal [2-4]$/ && line != "") return "not a journal"
    return (lines && line == "" ? "open" : "torn") " after line " lines
}

function no_journal(why) { print "status 2 " why }

# What is said of a fault: its line, what that line may be, and what it is.
function faulty(k, fault, line) {
    no_journal("journal: line " k ": " fault)
    print "expected: " due(fault)
    print "found: " found(line)
}

# Where the line is that is read next.
function remember() {
    place = stage
    lines = piece
    last = sum
}

function due(fault) {
    if (fault == "line too long") return "at most 4,194,304 bytes"
    if (place == "none") return "`journal 1`, `journal 2`, `journal 3` or `journal 4`"
    if (place == "ended") return "`journal " shown (sealed ? " " last : "") "`"
    if (place == "headed" && entries > 0) return "`from " entries "`"
    return "an entry, or `end " entries (sealed ? " " sum_of(lines) : "") "`"
}

function found(line,    front) {
    if (line == "") return "an empty line"
    front = substr(line, 1, 80)
    gsub(/[^ -~]/, "?", front)
    return "`" front "`" (length(line) > 80 ? ".." : "")
}

function unlike(entry) {
    print "unlawful at " (entries - 1) ": " entry
    print "answer: " answer
    print "status 7 "
}

function forget() {
    split("", kind); split("", numbers)
    forget_objects()
    stage = "none"
    version = shown = sum = piece = ""
    sealed = entries = objects = 0
    is_lawful = 1
}

# The lines: the first fault of each, or nothing.

function fault_of(line) {
    if (length(line) > longest) return "line too long"
    if (line ~ /[^ -~]/) return "bad bytes"
    if (stage == "none" || stage == "ended") return header(line)
    if (sealed && stage == "inside" && is_sealed_end(line)) return sealed_end(line)
    if (stage == "headed") {
        stage = "inside"
        if (line ~ /^from / && is_number(substr(line, 6))) return from(substr(line, 6))
        if (entries > 0) return "gap"
        if (sealed && is_sealed_end(line)) return sealed_end(line)
    }
    if (sealed) piece = piece line "\n"
    else if (line ~ /^end / && is_number(substr(line, 5))) {
        stage = "ended"
        return same(substr(line, 5), entries) ? "" : "wrong end"
    }
    return entry(line)
}

function header(line,    number) {
    number = substr(line, 9)
    sub(/ .*/, "", number)
    if (line !~ /^journal / || !is_number(number)) return "no header"
    if (number !~ /^[1-4]$/) return "another version"
    # Odd versions have numbers, and even ones bytes.
    if (shown != "" && number % 2 != shown % 2) return "another type of messages"
    if (line !~ /^journal [1-4]$/ && line !~ /^journal [34] /) return "no header"
    if (shown != "" && number != shown) return "no header"
    shown = number
    sealed = shown > 2
    version = sealed ? shown - 2 : shown
    if (sealed && substr(line, 10) != (stage == "none" ? "" : " " sum)) return "wrong sum"
    piece = line "\n"
    stage = "headed"
    return ""
}

# The last line of a piece with a sum has a number and a word.
function is_sealed_end(line) { return line ~ /^end [^ ]* / && is_number(substr(line, 5, index(substr(line, 5), " ") - 1)) }

# They have printed bytes alone, so the shell takes them as they are.
function sum_of(text,    command, word) {
    gsub(/'/, "'\\''", text)
    command = "printf %s '" text "' | sha256sum"
    command | getline word
    close(command)
    return substr(word, 1, 64)
}

# The sum is that of the piece's lines before.
function sealed_end(line,    number) {
    number = substr(line, 5, index(substr(line, 5), " ") - 1)
    if (!same(number, entries)) return "wrong end"
    sum = sum_of(piece)
    if (line != "end " number " " sum) return "wrong sum"
    stage = "ended"
    return ""
}

# Only a later piece is read up to here.
function from(number) {
    if (same(number, 0)) return "bad number"
    piece = piece "from " number "\n"
    return same(number, entries) ? "" : "gap"
}

# The line of an entry: `rest` is what of it was not read yet.
function entry(line,    fault, who, number, call) {
    rest = line
    if (!next_word()) return "too few words"
    who = word
    if (!next_word()) return "too few words"
    if (!is_number(word)) return "bad number"
    if (who != "seat" && who != "lane" && who != "feed") return "unknown word"
    if (!next_word()) return "too few words"
    call = word
    object = given = ""
    if (call ~ /:$/) {
        call = substr(call, 1, length(call) - 1)
        if (!(call in kinds_of) || kinds_of[call] != "") return "unknown word"
    } else {
        if (call != "mvar" && (!(call in kinds_of) || kinds_of[call] == "")) return "unknown word"
        fault = operands(operands_of(call))
        if (fault != "") return fault
        if (call == "mvar") call = "mvar with a message"
    }
    fault = reply()
    if (fault != "") return fault
    if (!is_among(sort_of_reply, replies_of[call == "mvar with a message" ? "mvar" : call])) return "wrong reply"
    entries++
    answer = answer_of(call)
    is_lawful = same(answer, rest)
    return ""
}

# What the words after the call's own are: `#` is an object's number, and `=` a message. The call `mvar` is one with a message here.
function operands_of(call) { return call == "mvar" ? "=" : gives[call] ? "# =" : "#" }

# The words after the call's own. The last has a colon.
function operands(form) {
    if (form == "# =") {
        if (!next_word()) return "too few words"
        if (!is_number(word)) return "bad number"
        object = word
    }
    if (!next_word()) return "too few words"
    if (word !~ /:$/) return "no colon"
    word = substr(word, 1, length(word) - 1)
    if (form == "#") {
        object = word
        return is_number(word) ? "" : "bad number"
    }
    given = word
    return is_message(word) ? "" : "bad message"
}

function reply() {
    sort_of_reply = rest
    if (rest == "done" || rest == "none" || rest == "put" || rest == "closed") return ""
    if (rest ~ / /) {
        sort_of_reply = "made"
        if (rest !~ /^made /) return "unknown word"
        return is_number(substr(rest, 6)) ? "" : "bad number"
    }
    sort_of_reply = "message"
    return is_message(rest) ? "" : "bad message"
}

# The word up to the next space goes into `word`. There is none where no space is left.
function next_word(    space) {
    space = index(rest, " ")
    if (!space) return 0
    word = substr(rest, 1, space - 1)
    rest = substr(rest, space + 1)
    return 1
}

function is_number(text) {
    if (text !~ /^(0|[1-9][0-9]*)$/) return 0
    return length(text) < length(most) || (length(text) == length(most) && text "x" <= most "x")
}

# In bytes each `%` begins the two digits of a byte that isn't written as it is.
function is_message(text) {
    if (version == 1) return is_number(text)
    if (text !~ /^=/) return 0
    gsub(/%([01][0-9A-F]|20|25|7F|[89A-F][0-9A-F])/, "", text)
    return text !~ /[% ]/
}

function same(one, other) { return one "x" == other "x" }

# The calls: the reply that a call has after the entries before it.

function answer_of(call,    reply_here) {
    if (call == "mvar with a message") return made("mvar", given)
    if (kinds_of[call] == "") return made(call, "")
    if (!(object in kind)) return "no such object"
    if (!is_among(kind[object], kinds_of[call])) return "wrong kind"
    reply_here = reply_to(call, object, given, objects)
    return makes_an_object(call) && reply_here == "made" ? named("port") : reply_here
}

function made(sort, first) {
    if (first == "") begin_object(objects)
    else begin_full(objects, first)
    return named(sort)
}

# The next number is that of an object of this kind.
function named(sort) {
    numbers[objects] = objects
    kind[objects] = sort
    return "made " objects++
}

# The objects, after the last entry.

function state_of(which,    first) {
    if (kind[which] == "mailbox") return "sent " sent[which] " got " got[which] " waits " sent[which] - got[which]
    if (kind[which] == "channel") {
        first = first_kept(which, numbers)
        return "sent " sent[which] " kept " sent[which] - first " first " first
    }
    if (kind[which] == "port") return "start " start[which] " got " got[which] - start[which] (closed[which] ? " closed" : " owed " owed(which))
    return full[which] ? "full " held[which] : "empty"
}
