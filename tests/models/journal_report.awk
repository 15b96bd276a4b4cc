# The report that tells a journal, as docs/FORMATS.md says under "Charts of journals", written down once more. With the judge of
# journals, whose state of the objects it takes, it shares nothing with the crates.
#
#     awk -v journal=FILE -f tests/models/calls.awk -f tests/models/journal_judge.awk -f tests/models/journal_report.awk
#
# It prints the report of this lawful journal.

BEGIN {
    forget()
    lines = split(text_of(journal), line, "\n")
    for (at = 1; at < lines; at++) {
        fault_of(line[at])
        if (line[at] ~ /^(seat|lane|feed) /) add_row(line[at])
    }
    for (at = 0; at < objects; at++) print kind[at] " " title(at) ": " shown_state(state_of(at))
    for (at = 0; at < copies; at++) print "port " copy[at] ": not made"
    print "end: held " rows + 0 " left 0"
}

function title(number) { return kind[number] number }

# A variable shows the message that it holds.
function shown_state(state) { return state ~ /^full / ? "full " short(substr(state, 6)) : state }

function short(word) { return word == "=" ? "=\"\"" : substr(word, 1, 64) }

# The line of an entry, once the judge has read it.
function add_row(text,    part, parts, front, step, replied, row) {
    match(text, /: /)
    front = substr(text, 1, RSTART - 1)
    replied = substr(text, RSTART + 2)
    parts = split(front, part, " ")
    step = part[3]
    if (step ~ /^(mailbox|channel|ivar|mvar)$/ || (part[1] == "feed" && step == "port")) return
    row = doer(part[1], part[2], step, replied) " " step " " title(part[4])
    if (step == "port" || step == "copy") row = row " " port_of(replied)
    if (parts > 4) row = row " " short(part[5])
    print row ": " shown_reply(replied)
    rows++
}

# A lane that sends and a feed that receives are as in the report of a script.
function doer(who, number, step, replied) {
    if (who == "lane" && (step == "send" || step == "multicast")) return "lane " number
    if (who == "feed" && step == "recv" && replied != "closed") return "feed " number
    return who number
}

# The port that is made, or a name for one that was to be the copy of a closed one.
function port_of(replied) {
    if (replied ~ /^made /) return title(substr(replied, 6))
    return copy[copies++] = "copy" (entries - 1)
}

function shown_reply(replied) {
    if (replied ~ /^made /) return "made"
    return replied ~ /^(done|none|put|closed)$/ ? replied : short(replied)
}
