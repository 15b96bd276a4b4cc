# What the tests share that try a built program or a library. It counts cases, and makes the folder `work`, which goes at the end.
# `run` and `expect` try the program that `program` names.
. "$top/tests/lib/bounded.sh"
# What cargo builds is built once, and nobody looks at it in a debugger: that halves what it costs.
export CARGO_INCREMENTAL=0 CARGO_PROFILE_DEV_DEBUG=0
work=$(mktemp -d) || exit 1
trap 'rm -rf "$work"' EXIT
passed=0
failed=0

pass() { passed=$((passed + 1)); }

fail() {
    failed=$((failed + 1))
    echo "failed: $*"
}

# add_counts FILE: shows what the file tells, and counts the cases of its lines `PASSED FAILED`.
add_counts() {
    grep -v '^[0-9]* [0-9]*$' "$1"
    while read -r more_passed more_failed; do
        passed=$((passed + more_passed))
        failed=$((failed + more_failed))
    done << END
$(grep '^[0-9]* [0-9]*$' "$1")
END
}

# count: the last line. It ends well if there was a case, and none failed.
count() {
    echo "$passed passed, $failed failed"
    [ "$failed" -eq 0 ] && [ "$passed" -gt 0 ]
}

# leave_out WHAT NEEDED: ends the test, which tries nothing for want of a program or a library.
leave_out() {
    echo "left out: $1: there is no $2"
    echo '0 passed, 0 failed'
    exit 0
}

# has PROGRAM WHAT: whether the program is there. Without it the part WHAT of the test is left out.
has() { command -v "$1" > /dev/null || { echo "left out: $2: there is no $1" && return 1; }; }

# absolute FILE: its path from the root, for a test that then goes to the top of the repository.
absolute() { echo "$(cd "$(dirname "$1")" && pwd)/$(basename "$1")"; }

# any MOST: a random number below this.
any() { od -An -N2 -tu2 /dev/urandom | awk -v most="$1" '{ print $1 % most }'; }

# check CASE COMMAND..: the command ends well. Otherwise the end of what it says is shown. So is what it cost, if that is much.
check() {
    checked=$1
    shift
    times > "$work/costs"
    if "$@" > "$work/told" 2>&1; then
        pass
    else
        fail "$checked"
        tail -n 20 "$work/told"
    fi
    times >> "$work/costs"
    awk -v name="$checked" '
        function seconds(text,    part) { split(text, part, "m"); return part[1] * 60 + part[2] }
        NR == 2 { cost = -seconds($1) - seconds($2) }
        NR == 4 && (cost += seconds($1) + seconds($2)) >= 20 { printf "%s: %.0f processor seconds\n", name, cost }
    ' "$work/costs"
}

# c_source PROGRAM: the file of a program in C.
c_source() { find examples/c tests/c tools/speed -name "$1.c"; }

# install_rooms ARCHIVE PREFIX: installs the library of rooms, and not that of scripts.
install_rooms() { SERYUGO_ARCHIVE=$1 SERYUGO_SCRIPT_ARCHIVE=/nowhere sh bindings/install.sh "$2"; }

# Runs the program on standard input, and keeps its output, its errors, and its status. A program that hangs is
# stopped in the end, with status 124.
run() {
    bounded "$program" "$@" > "$work/out" 2> "$work/err"
    status=$?
}

# make_streams: builds what makes reads and writes short, or makes them fail. The head of tests/lib/streams.c has its variables.
make_streams() {
    command -v cc > /dev/null || { echo 'left out: there is no C compiler to make reads and writes short'; return 1; }
    cc -O1 -shared -fPIC -o "$work/streams.so" tests/lib/streams.c -ldl || { fail 'streams.c is built'; return 1; }
}

# run_so COMMAND VARIABLE=VALUE..: runs the program on $work/in where reads and writes are so.
run_so() {
    command=$1
    shift
    bounded env LD_PRELOAD="$work/streams.so" "$@" "$program" "$command" < "$work/in" > "$work/out" 2> "$work/err"
    status=$?
}

# expect CASE STATUS OUT ERR: what the last run did; OUT and ERR are `none`, `some`, or all of a text.
expect() {
    if [ "$status" = "$2" ] && holds "$work/out" "$3" && holds "$work/err" "$4"; then
        pass
    else
        fail "$1: status $status, output $(head -c 300 "$work/out"), errors $(head -c 300 "$work/err")"
    fi
}

holds() {
    case $2 in
        none) [ ! -s "$1" ] ;;
        some) [ -s "$1" ] ;;
        *) [ "$(cat "$1")" = "$2" ] ;;
    esac
}

# A script or a report, whose lines are parted by ` / `, to standard output.
script() { printf '%s\n' "$1" | sed 's| / |\n|g'; }

# seal LINES: the lines of sealed pieces. `SUM` at a line's end becomes the sum of the piece's lines before it, and `BEFORE` the
# sum of the piece before. `OTHER` becomes another sum.
seal() {
    sum=
    : > "$work/piece"
    script "$1" | while read -r line; do
        case $line in
            *BEFORE) line=${line%BEFORE}$sum ;;
            *OTHER) line=${line%OTHER}$(sha256sum < /dev/null | cut -c 1-64) ;;
        esac
        case $line in
            'end '*SUM)
                sum=$(sha256sum < "$work/piece" | cut -c 1-64)
                line=${line%SUM}$sum
                : > "$work/piece"
                ;;
            *) echo "$line" >> "$work/piece" ;;
        esac
        echo "$line"
    done
}
