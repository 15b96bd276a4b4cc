# A table of random calls from a seed: `awk -v seed=3 -f tests/models/calls.awk -f tests/models/some_calls.awk`. Its cases are on boards, floors and halls
# by turns, each with calls on objects of all kinds, most by good names, and with cuts strewn in. A case that ends with a
# line `pieces` has no cut that drops anything.

# A number below this one: the next of a row that each awk makes the same.
function below(bound) {
    state = state * 16807 % 2147483647
    return int(state / 2147483647 * bound)
}

function one_of(words,    parts, count) {
    count = split(words, parts, " ")
    return parts[1 + below(count)]
}

# Mostly an object of this kind; now and then any number.
function object(kind) {
    if (below(12) > 0 && count_of[kind] > 0) return made[kind, below(count_of[kind])]
    return below(objects + 2)
}

function a_message() { return below(20) }

function makes(kind) {
    kind_at[objects] = kind
    made[kind, count_of[kind]++] = objects++
}

# A call that makes an object, if the one that it is made on is such.
function making(    kind, target) {
    kind = one_of("mailbox channel ivar mvar full port port copy")
    if (kind == "port") {
        target = object("channel")
        if (kind_at[target] == "channel") makes("port")
        return "port " target
    }
    if (kind == "copy") {
        target = object("port")
        if (kind_at[target] ~ /^(port|feed)$/) makes("port")
        return "copy " target
    }
    makes(kind == "full" ? "mvar" : kind)
    return kind == "full" ? "mvar " below(10) : kind
}

# A closed port isn't copied any more. That of a feed is left open.
function closing(    target) {
    target = object("port")
    if (kind_at[target] == "feed") return "poll " target
    if (kind_at[target] == "port") kind_at[target] = "closed"
    return "close " target
}

# Of the calls that an object of this kind takes, one of two gives a message, if some do. Those that make ports or close them are left out.
function calling(    kind, some, words, word) {
    if (is_left) return one_of("recv recv get take") " " below(objects)
    kind = one_of("mailbox mailbox channel channel port port port ivar mvar mvar feed")
    some = below(2)
    words = calls_on(kind, some)
    word = one_of(words != "" ? words : calls_on(kind, 1 - some))
    return word " " object(kind) (gives[word] ? " " a_message() : "")
}

# Each as often as its chance says.
function calls_on(kind, gives_message,    at, word, times, words) {
    if (kind == "feed") kind = "port"
    for (at = 1; at <= calls; at++) {
        word = word_of[at]
        if (!is_among(kind, kinds_of[word]) || gives[word] != gives_message || makes_an_object(word) || word == "close") continue
        for (times = chance_of[word]; times > 0; times--) words = words " " word
    }
    return words
}

# Mostly the number of what was opened last.
function last_of(count) {
    return count > 0 && below(4) > 0 ? count - 1 : below(count + 1)
}

# What opens a lane or a feed, or is done with one.
function of_rings(    word, target) {
    word = one_of("lane lane feed feed push push push push drain pump pump pop pop finish close drop abandon end")
    if (is_left) word = one_of("pop pump drain")
    if (word == "lane") {
        target = object(one_of("mailbox channel"))
        if (kind_at[target] ~ /^(mailbox|channel)$/) lanes++
        return "lane " target " " 1 + below(4)
    }
    if (word == "feed") {
        target = object("channel")
        if (kind_at[target] == "channel") { feeds++; makes("feed") }
        return "feed " target " " 1 + below(4)
    }
    if (word == "push") return "push " last_of(lanes) " " a_message()
    if (word ~ /^(pump|pop|end)$/) return word " " last_of(feeds)
    return word " " last_of(lanes)
}

# A seat asks, or asks again what it asked before, for which it may wait. The fourth never waits, since it makes objects
# and closes ports alone, until it leaves: so the names are known here.
function of_seat(    seat) {
    if (!is_left && below(5) == 0) return "3 " (below(6) ? making() : closing())
    seat = below(3)
    if (ground == "hall" && below(3) > is_left && seat in asked) return seat " again " asked[seat]
    asked[seat] = calling()
    return seat " " asked[seat]
}

function line() {
    if (below(9) == 0) return "tell " below(objects + 1)
    if (ground == "board") return below(5) ? calling() : below(6) ? making() : closing()
    return below(3) ? of_seat() : of_rings()
}

# Ends what is still open, so that a cut can be made.
function end_all(    number) {
    for (number = 0; number < lanes; number++) print one_of("abandon drop") " " number
    for (number = 0; number < feeds; number++) print "end " number
}

# The fourth seat leaves and no lane is left; from here on the others only receive, until their calls fail with `Stalled`.
function leave() {
    print "3 leave"
    end_all()
    is_left = 1
}

# Begins a case with an object of each kind.
function begin(number,    at, seat) {
    print "== " number ", on a " ground
    print ground " 10000"
    if (ground == "hall") for (at = 0; at < 4; at++) print "seat"
    seat = ground == "board" ? "" : "3 "
    objects = lanes = feeds = is_left = 0
    split("", asked)
    split("", count_of)
    split("", kind_at)
    print seat "mailbox"; makes("mailbox")
    print seat "channel"; makes("channel")
    print seat "port 1"; makes("port")
    print seat "ivar"; makes("ivar")
    print seat "mvar"; makes("mvar")
}

# A cut of the journal, which drops its entries only if the case may.
function cutting(drops, at) {
    if (drops) return one_of("cut take cut_open take_open")
    return at % 2 ? "take" : "take_open"
}

function case_of(number,    at, drops) {
    ground = one_of("board board floor hall")
    drops = below(2)
    begin(number)
    for (at = 0; at < 60; at++) {
        if (ground == "hall" && at == 40) leave()
        print line()
        if (ground != "board" && below(12) == 0) end_all()
        if (below(6) == 0) print cutting(drops, at)
    }
    for (at = 0; at < objects; at++) print "tell " at
    if (!drops) print "pieces"
}

BEGIN {
    state = seed * 7919 + 1
    for (number = 0; number < 10; number++) below(2)
    for (number = 0; number < 40; number++) case_of(number)
}
