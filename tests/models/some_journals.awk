# Invented journals: `awk -v seed=1 -v count=60 -f tests/models/calls.awk -f tests/models/journal_judge.awk -f tests/models/some_journals.awk` prints a
# lawful journal of random calls, in pieces, in version 1 or 2. The judge gives each reply. A call that would wait, or that its object doesn't take, is left out.

BEGIN {
    srand(seed)
    forget()
    version = seed % 2 + 1
    makers = split("seat seat seat lane feed", maker, " ")
    choose_calls()
    messages = version == 1 ? split("0 1 9 10 4294967296 18446744073709551615", some_message, " ") \
        : split("= =a =ab =none =%20 =%25%00 =%FF:", some_message, " ")
    print "journal " version
    while (entries < count) {
        one_entry()
        if (rand() < 0.04) print "end " entries "\njournal " version (entries ? "\nfrom " entries : "")
    }
    print "end " entries
}

# Each call as often as its chance says, and the one that makes a variable with a message.
function choose_calls(    at, times) {
    for (at = 1; at <= calls; at++) {
        for (times = chance_of[word_of[at]]; times > 0; times--) some_call[++choices] = word_of[at]
    }
    some_call[++choices] = "mvar with a message"
}

function any(some, most) { return some[1 + int(rand() * most)] }

# Most calls are on an object that is there.
function one_entry(    call, words) {
    call = any(some_call, choices)
    object = given = ""
    words = call == "mvar with a message" ? "mvar" : call
    if (kinds_of[call] != "") words = words " " (object = int(rand() * (objects + 0.2)) "")
    if (call == "mvar with a message" || gives[call]) words = words " " (given = any(some_message, messages))
    if (call in kinds_of && kinds_of[call] == "" && entries > count / 2) return
    answer = answer_of(call)
    if (answer == "waits" || answer == "no such object" || answer == "wrong kind") return
    print any(maker, makers) " " int(rand() * 4) " " words ": " answer
    entries++
}
