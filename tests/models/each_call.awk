# Each call of the table, made up by what the table says of it: `awk -f tests/models/calls.awk -v part=kinds -f tests/models/each_call.awk`.
#
# For `kinds` it prints tables of faults, as tests/lib/tables.sh has them: each step on an object of each kind.
# For `script` it prints a script in which one thread makes each step on each kind of object that takes it, once for each reply that it
# may have. Behind each step is `: ` and that reply.
# For `journal` it prints the journal of that script. With `-v version=2` messages are texts.

BEGIN {
    sorts = split("mailbox channel port ivar mvar", sort_of, " ")
    objects = entries = 0
    if (version == "") version = 1
    if (part == "kinds") kinds()
    else each_reply()
}

# A step: the word, the object, its message, and the name that it gives.
function step(word, object, message, name) {
    return word " " object (gives[word] ? " " message : "") (makes_an_object(word) ? " " name : "")
}

# A thread is no object, and no step but `poll` takes a feed.
function kinds(    at, i, word) {
    print "before: cml 1 / mailbox mailbox_1 / channel channel_1 / port channel_1 port_1 / ivar ivar_1 / mvar mvar_1 / thread A"
    for (at = 1; at <= calls; at++) {
        word = word_of[at]
        if (kinds_of[word] == "") continue
        for (i = 1; i <= sorts; i++) {
            print "A " step(word, sort_of[i] "_1", 5, "q") " | " (is_among(sort_of[i], kinds_of[word]) ? "none" : "line 8: wrong kind")
        }
        print "A " step(word, "A", 5, "q") " | line 8: wrong kind"
    }
    print "before: cml 1 / channel c / thread A / feed A f c 4"
    for (at = 1; at <= calls; at++) {
        word = word_of[at]
        if (kinds_of[word] != "") print "A " step(word, "f", 5, "q") " | " (word == "poll" ? "line 4: needs run" : "line 5: wrong kind")
    }
}

# First the objects of all cases, and then their steps.
function each_reply() {
    print (part == "script" ? "cml " : "journal ") version
    each_case("objects")
    if (part == "script") print "thread A"
    each_case("steps")
    if (part == "journal") print "end " entries
}

function each_case(what,    at, i, word, k, some, parts) {
    cases = 0
    for (at = 1; at <= calls; at++) {
        word = word_of[at]
        some = split(replies_of[word], parts, " ")
        for (i = 1; i <= sorts; i++) {
            if (!is_among(sort_of[i], kinds_of[word])) continue
            for (k = 1; k <= some; k++) {
                if (parts[k] != "closed" || sort_of[i] == "port") one_case(what, word, sort_of[i], parts[k], ++cases)
            }
        }
    }
}

# Each case has its own object. Steps before the call bring the object to where the call has this reply.
function one_case(what, word, sort, reply, number,    name) {
    name = sort number
    if (what == "objects") {
        if (sort == "port") declare("channel", "", "of" number)
        declare(sort, sort == "port" ? "of" number : "", name)
        return
    }
    if (reply == "message" && sort == "port") take("multicast", "of" number, number, "done")
    else if (reply == "message") take(sort == "mailbox" ? "send" : "put", name, number, "done")
    if (reply == "put") take("put", name, number, "done")
    if (reply == "closed") take("close", name, "", "done")
    take(word, name, number + 1000, reply == "message" ? shown(number) : reply)
}

function shown(message) { return version == 2 ? "=" message : message }

function declare(word, of, name) {
    if (part == "script") print word (of == "" ? "" : " " of) " " name
    else print "seat 0 " word (of == "" ? "" : " " number_of[of]) ": made " objects
    number_of[name] = objects++
    entries++
}

function take(word, name, message, reply) {
    if (part == "script") print "A " step(word, name, message, "new" ++named) ": " reply
    else print "seat 1 " word " " number_of[name] (gives[word] ? " " shown(message) : "") ": " (reply == "made" ? "made " objects++ : reply)
    entries++
}
