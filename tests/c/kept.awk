# Compares what a program of kills.c printed (first file) with the text of its journal (second file): nothing that returned is
# lost, and nothing is there twice.
function value(word)
{
    sub(/^=/, "", word)
    return match(word, /^[0-9]+/) ? substr(word, 1, RLENGTH) : ""
}

FILENAME == ARGV[1] {
    told[$1 " " $2]++
    next
}

$3 == "send" && $NF == "done" {
    sent[value($5)]++
}

$3 == "poll" && $NF != "none" {
    got[value($NF)]++
}

END {
    for (each in told) {
        split(each, words, " ")
        if ((words[1] == "sent" ? sent[words[2]] : got[words[2]]) != 1 || told[each] != 1) {
            print "lost or twice: " each
            bad = 1
        }
        many++
    }
    for (each in sent) {
        if (sent[each] != 1) {
            print "sent twice: " each
            bad = 1
        }
    }
    for (each in got) {
        if (got[each] != 1 || sent[each] != 1) {
            print "received twice, or never sent: " each
            bad = 1
        }
    }
    print many + 0
    exit bad
}
