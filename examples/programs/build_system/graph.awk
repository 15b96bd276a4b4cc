# Writes a made-up makefile: awk -v goals=2000 -v seed=1 -v kind=empty -f graph.awk > Makefile
#
# Each goal needs up to four of the goals before it, and some need a source file. The kind says what the commands are:
#
#   empty   `true`
#   log     one that appends the goal's name to the file `log`, and writes the goal's file
#   any     the same, but some fail or are killed, some write no file, and some goals are phony, have no commands, or need what
#           isn't there
#
# With -v state=FILE a script goes to FILE that makes the sources. Of the kind `any` it also makes some of the goals' files, and
# gives all files random times.

function chance(percent) { return rand() * 100 < percent }
function any(most) { return 1 + int(rand() * most) }

# A file for the script, with a time if times are random.
function file(name) {
    if (state == "") return
    if (kind == "any") printf "touch -d @%d %s\n", 1000000000 + any(40) * 1000, name > state
    else print ": > " name > state
}

function commands(name) {
    if (kind == "empty") { print "\t@true"; return }
    if (kind == "log") { print "\techo " name " >> log; echo " name " > " name; return }
    if (chance(4)) print "\t-@exit 3"
    print "\techo " name " >> log"
    if (chance(6)) { print chance(50) ? "\tfalse" : "\t@exit 7"; print "\techo never > never" }
    if (chance(3)) print "\techo half > " name "; kill -9 $$$$"
    if (!chance(5)) print "\t@echo " name " > " name
}

BEGIN {
    srand(seed)
    if (kind == "") kind = "empty"
    if (sources == "") sources = kind == "empty" ? 0 : int(goals / 10) + 1
    for (source = 1; source <= sources; source++) file("s" source)
    printf "all:"
    for (goal = 1; goal <= goals; goal++) printf " g%d", goal
    print "\n"
    for (goal = 1; goal <= goals; goal++) {
        name = "g" goal
        is_phony = kind == "any" && chance(5)
        phony = phony (is_phony ? " " name : "")
        printf "%s:", name
        many = goal > goals / 40 ? int(rand() * 5) : 0
        for (need = 1; need <= many; need++) printf " g%d", goal - any(goal > 200 ? 200 : goal - 1)
        if (sources > 0 && chance(30)) printf " s%d", any(sources)
        if (kind == "any" && chance(1.5)) printf " nowhere%d", any(3)
        print ""
        if (kind != "any" || !chance(8)) commands(name)
        if (kind == "any" && !is_phony && chance(70)) file(name)
    }
    print "\n.PHONY: all" phony
}
