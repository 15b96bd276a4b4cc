# What lanes and feeds do in a run, for tests/models/interleaved.awk.
#
# A lane's messages come in the order in which its thread sent them; after the thread's own steps before them, and
# before its next own step that may wait. No more of them are out of the journal than the lane has room for. A thread has
# one lane at a time to an object, and one that it opens later has a greater number. Two threads must not send the same
# message to one object by lanes: of the two that could have, the first in text order is taken.
#
# A thread pumps its feed at a poll that finds the ring empty, and then all that is owed moves, as far as the ring has
# room, without another entry between. What it pumped it takes, one at each poll, and the rest at its end. With `-v short=N`
# the message of the Nth line of feeds is the last of its pump: memory was refused for the next one, which stays owed.

function is_apart(k,    word) {
    split(step_words[k], word, " ")
    if (word[1] == "send" || word[1] == "multicast") return (step_thread[k], word[2]) in room
    return word[1] == "poll" && kind[word[2]] == "feed"
}

# The feeds, and the polls of each, by their places in the queue of its thread.
function queue_rings(    i, k, thread, word) {
    for (i = 1; i <= names; i++) if (kind[given[i]] == "feed") { feed_name[feeds + 0] = given[i]; feeds++ }
    for (thread in queued) for (i = 1; i <= queued[thread]; i++) {
        k = queue[thread, i]
        split(step_words[k], word, " ")
        if (kind[word[2]] == "feed") poll[word[2], ++polls[word[2]]] = i
        else if (is_apart(k)) lane_step[thread, word[2], ++lane_steps[thread, word[2]]] = i
    }
}

function forget_rings() {
    split("", lane_thread); split("", lane_object); split("", newest); split("", moved); split("", next_poll)
    pumping = ""
    to_feeds = 0
}

# How many of these steps are not in the journal yet, and are before this place in the queue.
function unmoved(thread, before,    key, part, count) {
    for (key in lane_steps) {
        split(key, part, SUBSEP)
        if (part[1] == thread) count += unmoved_to(thread, part[2], before)
    }
    return count + 0
}

function unmoved_to(thread, to, before,    i, count) {
    for (i = moved[thread, to] + 1; i <= lane_steps[thread, to]; i++) if (lane_step[thread, to, i] < before) count++
    return count + 0
}

function nothing_unmoved(    thread) {
    for (thread in queued) if (unmoved(thread, queued[thread] + 1) > 0) return 0
    return 1
}

# Whether a thread's own step at this place can't be yet, since a lane isn't closed, or holds more than it has room for.
function is_behind(thread, i,    word, key, part) {
    split(step_words[queue[thread, i]], word, " ")
    if (blocks[word[1]]) return unmoved(thread, i) > 0
    for (key in lane_steps) {
        split(key, part, SUBSEP)
        if (part[1] == thread && unmoved_to(thread, part[2], i) > room[thread, part[2]]) return 1
    }
    return 0
}

# The next message of a lane comes. Why it can't; nothing where it can.
function from_lane(line, limit,    word, thread, number, to, text) {
    sub(/: .*/, "", line)
    split(line, word, " ")
    number = word[2]
    to = word[4]
    text = word[5]
    if (version == 2 && !sub(/^=/, "", text)) return "but no message is shown at line " lines_out + 1
    if (entries == limit) return "but the journal is full before line " lines_out + 1
    thread = (number in lane_thread) ? lane_thread[number] : sender(word[3], to, text)
    if (thread == "") return "but no thread sends this on a lane at line " lines_out + 1
    if ((number in lane_thread) && lane_object[number] != to) return "but lane " number " goes to another object"
    if (!is_next_on_lane(thread, word[3], to, text)) return "but " thread " doesn't send this at line " lines_out + 1
    if (((thread, to) in newest) && newest[thread, to] > number + 0) return "but lane " number " was closed before"
    newest[thread, to] = number + 0
    lane_thread[number] = thread
    lane_object[number] = to
    moved[thread, to]++
    entries++
    line_out[++lines_out] = "lane " number + 0 " " word[3] " " to " " shown(text) ": " reply_to(word[3], to, shown(text))
    return ""
}

function sender(verb, to, text,    i) {
    for (i = 1; i <= names; i++)
        if (kind[given[i]] == "thread" && is_next_on_lane(given[i], verb, to, text)) return given[i]
    return ""
}

# Whether this is the thread's next message on a lane to the object, and its own steps before it were taken.
function is_next_on_lane(thread, verb, to, text,    i, own) {
    # By `in`: awk makes an item of what is only looked at, and a thread with no lane there would then have one.
    if (!((thread, to) in lane_steps) || moved[thread, to] + 1 > lane_steps[thread, to]) return 0
    i = lane_step[thread, to, moved[thread, to] + 1]
    own = next_own(thread)
    return (own == 0 || i < own) && step_words[queue[thread, i]] == verb " " to " " text
}

# A feed gets the next message of its port. Why it can't; nothing where it can.
function to_feed(line, limit,    word, name, why) {
    split(line, word, " ")
    name = word[4]
    sub(/:$/, "", name)
    if (feed_name[word[2] + 0] != name) return "but feed " word[2] " is none of this name"
    if (entries == limit) return "but the journal is full before line " lines_out + 1
    if (owed(name) == 0) return "but nothing is owed to " name " at line " lines_out + 1
    if (pumping != name || pumped == room[name]) why = pump_over(limit)
    if (why == "" && pumping != name) why = begin_pump(name)
    if (why != "") return why
    pumped++
    next_poll[name]++
    entries++
    if (++to_feeds == short) pumping = ""
    line_out[++lines_out] = "feed " word[2] + 0 " recv " name ": " reply_to("recv", name)
    return ""
}

# A pump is at the first poll after the last own step of its thread, and after those that take what was pumped before.
function begin_pump(name,    thread, i, own) {
    thread = owner[name]
    i = next_poll[name] == 0 ? 1 : next_poll[name]
    while (i <= polls[name] && poll[name, i] < taken[thread]) i++
    own = next_own(thread)
    if (i > polls[name] || (own > 0 && poll[name, i] > own)) return "but " thread " doesn't poll " name " before line " lines_out + 1
    next_poll[name] = i
    pumping = name
    pumped = 0
    return ""
}

# No more was pumped, though it may have been: why that can't be.
function pump_over(limit,    name) {
    name = pumping
    pumping = ""
    if (name != "" && owed(name) > 0 && pumped < room[name] && entries < limit) return "but more of " name " was pumped after line " lines_out
    return ""
}

# How many steps of a thread are not known to have been performed.
function not_sure(thread,    i, k, word, count) {
    for (i = taken[thread] + 1; i <= queued[thread]; i++) {
        k = queue[thread, i]
        split(step_words[k], word, " ")
        if (!is_apart(k) || kind[word[2]] == "feed" || !was_moved(thread, word[2], i)) count++
    }
    return count + 0
}

function was_moved(thread, to, i) {
    return moved[thread, to] > 0 && lane_step[thread, to, moved[thread, to]] >= i
}
