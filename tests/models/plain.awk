# The plain program: what docs/FORMATS.md says of a script, written down once more, with lists that are gone through
# from the first item on. With the calls (tests/models/calls.awk) it shares nothing with the crates, so what both say alike is said twice.
#
# Each line of input is a limit and then the bytes of one script, as numbers. For each script it prints the report, or
# the line of its fault, and then the exit status.

BEGIN {
    for (byte = 32; byte <= 126; byte++) character[byte] = sprintf("%c", byte)
    split("cml mailbox channel port ivar mvar thread lane feed", list, " ")
    for (i in list) reserved[list[i]] = 1

    # What a line's words are: `+` gives a name of that kind, a kind (or some) uses one, `=` is a message, and `#` a
    # capacity.
    declares["mailbox"] = "+mailbox"; declares["channel"] = "+channel"; declares["port"] = "channel +port"
    declares["ivar"] = "+ivar"; declares["mvar"] = "+mvar"; declares["thread"] = "+thread"
    declares["lane"] = "thread mailbox,channel #"; declares["feed"] = "thread +feed channel #"
    for (i = 1; i <= calls; i++) if (kinds_of[word_of[i]] != "") steps[word_of[i]] = places_of(word_of[i])
    steps["poll"] = steps["poll"] ",feed"
}

{
    forget_script()
    fault = read_script()
    if (fault == "" && ring_line > 0) fault = "line " ring_line ": needs run"
    if (fault != "") {
        print "script: " fault
        print "status 2"
    } else {
        forget_board()
        ending = perform($1)
        print_report(ending)
        print "status " (ending ~ /^done/ ? 0 : ending ~ /^stalled/ ? 1 : 6)
    }
}

function places_of(word,    words) {
    words = kinds_of[word]
    gsub(" ", ",", words)
    if (makes_an_object(word)) words = words " +port"
    if (gives[word]) words = words " ="
    return words
}

function forget_script() {
    split("", kind); split("", owner); split("", given); split("", form); split("", first_held)
    split("", step_line); split("", step_thread); split("", step_words); split("", room)
    names = threads = step_count = ring_line = version = 0
}

function forget_board() {
    split("", object); split("", objects)
    forget_objects()
    entries = lines_out = 0
}

# Reading: the first fault of the least line, or nothing.

function read_script(    i, line, number, bad) {
    if (NF - 1 > 1048576) return "too long"
    if (NF == 1) return "line 1: bad header"
    line = ""; number = 1; bad = 0
    for (i = 2; i <= NF; i++) {
        if ($i != 10) {
            if ($i in character) line = line character[$i]; else bad = 1
            continue
        }
        what = bad ? "bad bytes" : fault_of(line, number)
        if (what != "") return "line " number ": " what
        line = ""; number++; bad = 0; ended = i
    }
    if ($NF != 10) return "line " number ": no line end"
    return ""
}

function fault_of(line, number,    count, word, form_of, what) {
    if (number == 1) {
        version = line == "cml 1" ? 1 : line == "cml 2" ? 2 : 0
        return version > 0 ? "" : "bad header"
    }
    if (line == "" || substr(line, 1, 1) == "#") return ""
    if (line ~ /^ / || line ~ / $/ || line ~ /  /) return "bad words"
    count = split(line, word, " ")
    if (word[1] in declares) {
        if (step_count > 0) return "late declaration"
        form_of = declares[word[1]]
        if (word[1] == "mvar" && count == 3) form_of = form_of " ="
        what = fault_in_form(word, 2, count, form_of, "")
        if (what != "") return what
        if (word[1] == "lane" && ((word[2], word[3]) in room)) return "lane taken"
        if (word[1] == "thread" && threads == 64) return "too many threads"
        declare(word, count)
        if ((word[1] == "lane" || word[1] == "feed") && ring_line == 0) ring_line = number
        return ""
    }
    if (kind[word[1]] != "thread") return "unknown line"
    if (count < 2 || !(word[2] in steps)) return "unknown step"
    what = fault_in_form(word, 3, count, steps[word[2]], word[1])
    if (what != "") return what
    note_step(line, word, count)
    return ""
}

# The faults of a line whose form is known, in the order in which they are tested.
function fault_in_form(word, from, count, form_of, thread,    places, place, i, w) {
    places = split(form_of, place, " ")
    if (count - from + 1 != places) return "word count"
    for (i = 1; i <= places; i++) if (place[i] !~ /^[=#]/ && !is_name(word[from + i - 1])) return "bad name"
    for (i = 1; i <= places; i++) if (place[i] ~ /^\+/ && (word[from + i - 1] in kind)) return "name taken"
    for (i = 1; i <= places; i++) if (place[i] ~ /^[a-z]/ && !(word[from + i - 1] in kind)) return "unknown name"
    for (i = 1; i <= places; i++) {
        w = word[from + i - 1]
        if (place[i] ~ /^[a-z]/ && index("," place[i] ",", "," kind[w] ",") == 0) return "wrong kind"
    }
    for (i = 1; i <= places; i++) {
        w = word[from + i - 1]
        if (place[i] ~ /^[a-z]/ && owner[w] != "" && owner[w] != thread) return "not yours"
    }
    for (i = 1; i <= places; i++) {
        w = word[from + i - 1]
        if (place[i] == "=" && version == 1 && !is_number(w) || place[i] == "#" && !is_capacity(w)) return "bad number"
    }
    # A word is never empty, and by now no byte of the line is bad: so of a text its length alone is left to look at.
    for (i = 1; i <= places; i++) {
        if (place[i] == "=" && version == 2 && length(word[from + i - 1]) > 64) return "bad text"
    }
    return ""
}

function is_name(word) {
    return word ~ /^[A-Za-z][A-Za-z0-9_]*$/ && length(word) <= 32 && !(word in reserved)
}

function is_number(word) {
    if (word !~ /^(0|[1-9][0-9]*)$/ || length(word) > 20) return 0
    return length(word) < 20 || (word "") <= "18446744073709551615"
}

function is_capacity(word) { return is_number(word) && length(word) <= 4 && word >= 1 && word <= 1024 }

function give(name, its_kind, thread) {
    kind[name] = its_kind
    owner[name] = thread
    given[++names] = name
}

function declare(word, count) {
    if (word[1] == "lane") {
        room[word[2], word[3]] = word[4]
    } else if (word[1] == "feed") {
        give(word[3], "feed", word[2])
        form["channel", word[3]] = word[4]
        room[word[3]] = word[5]
    } else if (word[1] == "port") {
        give(word[3], "port", "")
        form["channel", word[3]] = word[2]
    } else {
        give(word[2], word[1], "")
    }
    if (word[1] == "thread") threads++
    if (word[1] == "mvar" && count == 3) first_held[word[2]] = word[3]
}

function note_step(line, word, count,    rest, i) {
    step_line[++step_count] = line
    step_thread[step_count] = word[1]
    rest = word[2]
    for (i = 3; i <= count; i++) rest = rest " " word[i]
    step_words[step_count] = rest
    if (word[2] == "port" || word[2] == "copy") give(word[4], "port", word[1])
}

# Performing: the declarations, and then always the first step that is its thread's next and needn't wait.

function perform(limit,    done, k) {
    if (!make_declared(limit)) return "full 0 left " step_count
    split("", done)
    while (lines_out < step_count && entries < limit && (k = first_ready(done)) > 0) {
        take(k)
        done[k] = 1
    }
    return ending_here(limit)
}

# Whether the journal had room for all declared objects.
function make_declared(limit,    declared, i, name) {
    declared = names
    for (i = 1; i <= step_count; i++) if (step_words[i] ~ /^(port|copy) /) declared--
    for (i = 1; i <= declared; i++) {
        name = given[i]
        if (kind[name] == "thread") continue
        if (entries == limit) return 0
        make(name)
    }
    return 1
}

function take(k) {
    entries++
    line_out[++lines_out] = step_line[k] ": " answer(k)
}

# How it ends where all objects were made, and no step that is left can be performed.
function ending_here(limit,    left) {
    left = step_count - lines_out
    if (left == 0) return "done " lines_out
    return (entries == limit ? "full " : "stalled ") lines_out " left " left
}

function make(name) {
    entries++
    add(name)
    if (is_reader(name)) begin_reader(name, form["channel", name], sent[form["channel", name]])
    else if (name in first_held) begin_full(name, shown(first_held[name]))
    else begin_object(name)
}

function add(name) { objects[name] = object[name] = name }

function first_ready(done,    i, met) {
    split("", met)
    for (i = 1; i <= step_count; i++) {
        if (i in done || step_thread[i] in met) continue
        if (!waits(i)) return i
        met[step_thread[i]] = 1
    }
    return 0
}

function waits(k,    word) {
    split(step_words[k], word, " ")
    return would_wait(word[1], object[word[2]])
}

# If the reply is that a port is closed, the name that the step gives is another one of that port.
function answer(k,    word, o, reply) {
    split(step_words[k], word, " ")
    o = object[word[2]]
    reply = reply_to(word[1], o, shown(word[3]), word[3])
    if (makes_an_object(word[1])) {
        if (reply == "made") add(word[3])
        else object[word[3]] = o
    }
    return reply
}

# A message as a report has it. A text may be any word, also one that is a reply, so `=` tells that it is none.
function shown(text) { return version == 2 ? "=" text : text }

# Reporting.

function print_report(ending,    i) {
    for (i = 1; i <= lines_out; i++) print line_out[i]
    for (i = 1; i <= names; i++) if (kind[given[i]] != "thread") print kind[given[i]] " " given[i] ": " told(given[i])
    print "end: " ending
}

function told(name,    first) {
    if (object[name] != name) return "not made"
    if (kind[name] == "mailbox") return "sent " sent[name] " got " got[name] " waits " owed(name)
    if (kind[name] == "channel") {
        first = first_kept(name, objects)
        return "sent " sent[name] " kept " sent[name] - first " first " first
    }
    if (is_reader(name)) {
        return "start " start[name] " got " received(name) (closed[name] ? " closed" : " owed " owed(name)) taken_from(name)
    }
    return full[name] ? "full " held[name] : "empty"
}

function received(name) { return got[name] - start[name] }

# A thread takes all that its feed got, at the latest when it ends the feed.
function taken_from(name) { return kind[name] == "feed" ? " taken " received(name) : "" }
