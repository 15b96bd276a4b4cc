# Which report an order of the threads gives: `awk -f tests/models/calls.awk -f tests/models/plain.awk -f tests/models/rings.awk -f tests/models/interleaved.awk LIMIT
# SCRIPT REPORT..`.
#
# Of each report only the order is taken: each line of its first part names the thread that takes its next step there,
# the lane whose next message comes, or the feed that gets one. The plain program performs these and prints the report
# that comes of them. So a report is one that some order gives just where what is printed for it is the same, byte for
# byte. Of a report that ends full, in a script with lanes or feeds, the number of steps left is taken too, where it can
# be so many: what a lane accepted and no thread moved has no line.
#
# Where the order itself can't be, the last line that is printed says why, as no report's last line does. It can't be
# where a thread takes a step that waits there, or that the journal has no room for, or has none left; nor where at the
# end a thread could go on. For once each thread that has steps left waits, no thread ever goes on; and before that no
# call fails in a stall. So all that are left wait for what is not there at the end, whichever call failed first.
# tests/models/rings.awk says what can't be of lanes and feeds.
#
# A script with a fault has no report: then its fault is printed.

BEGIN {
    forget_script()
    fault = read_lines(ARGV[2])
    queue_steps()
    for (at = 3; at < ARGC; at++) {
        if (fault != "") {
            print "script: " fault
        } else {
            forget_board()
            print_report(perform_as(ARGV[at], ARGV[1]))
        }
    }
    exit
}

function read_lines(file,    line, number, what) {
    while ((getline line < file) > 0) {
        what = fault_of(line, ++number)
        if (what != "") return "line " number ": " what
    }
    return number > 0 ? "" : "line 1: bad header"
}

# The steps of each thread, in text order.
function queue_steps(    i, thread) {
    for (i = 1; i <= names; i++) if (kind[given[i]] == "thread") queued[given[i]] = 0
    for (i = 1; i <= step_count; i++) {
        thread = step_thread[i]
        queue[thread, ++queued[thread]] = i
    }
    queue_rings()
}

function perform_as(report, limit,    line, word, why, end) {
    split("", taken)
    forget_rings()
    if (!make_declared(limit)) return "full 0 left " step_count
    while (why == "" && (getline line < report) > 0) {
        end = line
        split(line, word, " ")
        if (word[1] != "feed") why = pump_over(limit)
        if (why != "") break
        if (word[1] == "lane") why = from_lane(line, limit)
        else if (word[1] == "feed" && word[3] == "recv") why = to_feed(line, limit)
        else if (word[1] in queued) why = own_step(word[1], limit)
        else break
    }
    while ((getline line < report) > 0) end = line
    close(report)
    if (why == "") why = pump_over(limit)
    if (why == "" && entries < limit) why = able()
    return why == "" ? ended_as(end, limit) : why
}

# The place in a thread's queue of its next step that is not on a lane or a feed; none where it has no more of them.
function next_own(thread,    i) {
    for (i = taken[thread] + 1; i <= queued[thread]; i++) if (!is_apart(queue[thread, i])) return i
    return 0
}

# A thread takes its next own step. Why it can't; nothing where it can.
function own_step(thread, limit,    i, k) {
    i = next_own(thread)
    if (i == 0) return "but " thread " has no step left for line " lines_out + 1
    k = queue[thread, i]
    if (entries == limit) return "but the journal is full before line " lines_out + 1
    if (waits(k)) return "but " thread " waits at line " lines_out + 1
    if (is_behind(thread, i)) return "but " thread " has sent on lanes what comes behind line " lines_out + 1
    take(k)
    taken[thread] = i
    return ""
}

# That a thread could go on here; nothing where none can.
function able(    thread, i) {
    for (thread in queued) {
        i = next_own(thread)
        if (i > 0 && !waits(queue[thread, i])) return "but " thread " could go on"
        if (unmoved(thread, i > 0 ? i : queued[thread] + 1) > 0) return "but " thread " has a lane that it didn't close"
    }
    return ""
}

# How it ends, if the report says so.
function ended_as(end, limit,    thread, i, least, most, word) {
    least = most = 0
    for (thread in queued) {
        i = next_own(thread)
        if (i > 0) least += queued[thread] - i + 1
        most += not_sure(thread)
    }
    if (entries < limit || most == 0) return least == 0 ? "done " lines_out : "stalled " lines_out " left " least
    split(end, word, " ")
    if (word[2] == "done" && least == 0 && nothing_unmoved()) return "done " lines_out
    if (word[2] == "full" && word[5] >= least && word[5] <= most) least = word[5]
    return "full " lines_out " left " least
}
