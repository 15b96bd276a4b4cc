# What tests/edits.sh and tests/libraries/refused_bodies.sh share: the reader of a file of wrong edits. An edit begins with a line
# `edit: TITLE`, its other lines follow, and an empty line is between two. The titles are words such as `poll_takes_the_newest`.

# part_edits FILE FOLDER [TITLE..]: writes each edit of the file, or those with these titles, to FOLDER/TITLE.edit. At the first line
# that it can't read, at a title that occurs twice, and at one that isn't there, it says so and ends badly.
part_edits() {
    edits_file=$1
    edits_folder=$2
    shift 2
    mkdir -p "$edits_folder" && awk -v folder="$edits_folder" -v titles="$*" '
        function refuse(why) { print FILENAME ", line " FNR ": " why; refused = 1; exit 1 }
        function end_edit() {
            if (title != "" && files != 1) refuse("the edit " title " has " files + 0 " lines `file: `, and not one")
            title = ""
            files = 0
        }
        BEGIN { all = split(titles, list, " ") == 0; for (i in list) wanted[list[i]] }
        /^edit: [A-Za-z0-9_]+$/ {
            end_edit()
            title = $2
            if (title in found) refuse("the title " title " occurs twice")
            found[title]
            if (to != "") close(to)
            to = all || title in wanted ? folder "/" title ".edit" : "/dev/null"
            next
        }
        /^$/ { end_edit(); next }
        title == "" || !/^[a-z]+: / { refuse("this line is of no edit") }
        /^file: / { files++ }
        { print > to }
        END {
            if (refused) exit 1
            end_edit()
            for (title in wanted) if (!(title in found)) { print FILENAME " has no edit " title; refused = 1 }
            exit refused
        }
    ' "$edits_file"
}
