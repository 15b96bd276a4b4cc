# Scripts of all lines, chosen by a sequence of numbers that is the same each time. Most have no fault; in some a word is
# another's, so that names are unknown, of the wrong kind or another thread's. One in eight has lanes and feeds (or one
# in another number, `-v one_in=N`; none for 0). One in two is of version 2, with texts that could be taken for
# something else. Each is a line of bytes, as numbers, after the limit that it is to be replayed under.

BEGIN {
    for (byte = 32; byte <= 126; byte++) { character[byte] = sprintf("%c", byte); number[character[byte]] = byte }
    for (at = 1; at <= calls; at++) if (kinds_of[word_of[at]] != "") verb[++verbs] = word_of[at]
    split("recv poll recv poll", more, " ")
    for (at in more) verb[++verbs] = more[at]
    # Words from elsewhere in a script or a report, words that a shell or a format would read, and words like numbers.
    odds = split("= == =x =5 : :: a: :a a:b # #x / // /x | || ~ \" ' ` \\ \\n \\\\ % %s %d $x * - -- ! & ; ( [x] {} < > , . _ " \
        "none done put made closed empty full end: end sent got lane feed cml port mvar thread mailbox m0 T1 p0 v0 " \
        "05 00 +5 -5 -0 1.5 1e3 0x10 nan inf 18446744073709551615 18446744073709551616", odd, " ")
    state = 20240229
    if (one_in == "") one_in = 8
    for (script = 1; script <= scripts; script++) print_script()
}

function below(n) {
    state = (state * 16807) % 2147483647
    return int(state / 2147483647 * n)
}

function line(text,    i) {
    for (i = 1; i <= length(text); i++) printf " %d", number[substr(text, i, 1)]
    printf " 10"
}

function give(name, its_kind, thread) { kind[++names] = its_kind; named[names] = name; owner[names] = thread }

# A name of one of these kinds; now and then another thread's, or of any kind.
function pick(its_kind, thread,    tries, i) {
    for (tries = 0; tries < 40; tries++) {
        i = 1 + below(names)
        if (is_among(kind[i], its_kind) && (owner[i] == "" || owner[i] == thread || below(40) == 0)) return named[i]
        if (below(1000) == 0) return named[i]
    }
    return named[1 + below(names)]
}

function print_script(    i, count, its_kind, name, threads) {
    names = rings = 0
    split("", owner)
    version = 1 + below(2)
    printf "%d", below(4) == 0 ? 1 + below(30) : 65536
    line("cml " version)
    give("m0", "mailbox"); line("mailbox m0")
    give("c0", "channel"); line("channel c0")
    give("v0", "mvar"); line(below(2) ? "mvar v0" : "mvar v0 " a_message(0))
    give("p0", "port"); line("port c0 p0")
    count = below(5)
    for (i = 1; i <= count; i++) {
        its_kind = substr("mailboxchannelport   ivar   mvar   ", 1 + 7 * below(5), 7)
        sub(/ +$/, "", its_kind)
        name = "x" i
        line(its_kind " " (its_kind == "port" ? pick("channel") " " : "") name)
        give(name, its_kind)
    }
    threads = 1 + below(4)
    for (i = 1; i <= threads; i++) line("thread T" i)
    rings = one_in > 0 && below(one_in) == 0
    if (rings) print_rings(threads)
    count = below(30)
    for (i = 1; i <= count; i++) print_step("T" (1 + below(threads)), i)
    printf "\n"
}

# Lines of lanes and feeds, a feed for each thread at most; now and then a lane that is there already, or a capacity that
# is out of range.
function print_rings(threads,    i, count, text) {
    split("", laid); split("", feed_of)
    count = 1 + below(4)
    for (i = 1; i <= count; i++) {
        text = "lane T" (1 + below(threads)) " " pick("mailbox channel")
        if ((text in laid) && below(30) > 0) continue
        laid[text] = 1
        line(text " " capacity())
    }
    for (i = 1; i <= threads; i++) {
        if (below(2)) continue
        line("feed T" i " f" i " " pick("channel") " " capacity())
        feed_of["T" i] = "f" i
        give("f" i, "feed")
    }
}

function capacity() { return below(60) == 0 ? 1025 * below(2) : 1 + below(3) }

# A message, which in the i-th step of a script with lanes is no other's. Of a hundred one is none in the script's version.
function a_message(i) {
    if (below(100) == 0) return version == 1 ? odd[1 + below(odds)] : bytes(65)
    if (version == 1) return rings ? i : below(1000)
    return some_text(rings ? "~" i : "")
}

# A text that ends so.
function some_text(end,    chance) {
    chance = below(10)
    if (chance < 2) return below(1000) end
    if (chance < 7) return odd[1 + below(odds)] end
    return bytes(chance < 9 ? 1 + below(12) : 64 - length(end)) end
}

function bytes(count,    i, text) {
    for (i = 1; i <= count; i++) text = text character[33 + below(94)]
    return text
}

function print_step(thread, i,    v, text, own) {
    v = verb[1 + below(verbs)]
    text = thread " " v " " pick(kinds_of[v], thread)
    if (rings && v == "poll" && (thread in feed_of) && below(2)) text = thread " poll " feed_of[thread]
    if (makes_an_object(v)) {
        own = thread "q" i
        text = text " " own
    }
    if (gives[v]) text = text " " a_message(i)
    line(text)
    if (own != "") give(own, "port", thread)
}
