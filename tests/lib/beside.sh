# What tests/quick.sh and tests/all.sh share: their steps run side by side, as many at once as there are processors. A script
# reads this after its function `step`, which does the step of a name. With `--step WORK NAME` the script does one step, shows and
# counts what it tells, and ends here; with `--alone WORK NAME` it does it alone. Otherwise `work` names a new folder for what the
# steps tell.
. tests/lib/bounded.sh

# beside SCRIPT STEP..: has SCRIPT do these steps, and sums what they count. The last line is `N passed, M failed`.
beside() {
    script=$1
    shift
    printf '%s\n' "$@" | xargs -P "$(nproc 2> /dev/null || echo 2)" -n 1 sh "$script" --step "$work"
    cat "$work"/*.count | awk -v steps=$# '
        { steps -= !/^crates: /; passed += $2; failed += $4 }
        END {
            # A step was stopped before it counted.
            failed += steps
            print passed + 0 " passed, " failed + 0 " failed"
            exit failed > 0
        }
    '
}

# counted NAME: does one step, shows what it tells with its name before each line, and what it cost, and keeps how many passed and
# failed.
counted() {
    sh -c 'echo $$ > "$0" && exec timeout "$@"' "$work/$1.process" --kill-after 30 $longest_step \
        sh "$0" --alone "$work" "$1" > "$work/$1.told" 2>&1
    status=$?
    rm -f "$work/$1.process"
    [ $status -ne 124 ] || echo "failed: the step did not end within $longest_step seconds" >> "$work/$1.told"
    grep -v '^[0-9]* passed, [0-9]* failed$' "$work/$1.told" | sed "s/^/$1: /"
    sed -n 's/^\([0-9]*\) passed, \([0-9]*\) failed$/\1 \2/p' "$work/$1.told" |
        awk -v name="$1" -v status="$status" '
            { passed += $1; failed += $2 }
            END {
                # It was stopped before its last line.
                if (!NR || (status && !failed)) failed++
                print name ": " passed + 0 " passed, " failed + 0 " failed"
            }
        ' | tee "$work/$1.count"
    times > "$work/$1.times"
    awk -v name="$1" '
        function seconds(text,    part) { split(text, part, "m"); return part[1] * 60 + part[2] }
        NR == 2 { printf "%s: %.0f processor seconds\n", name, seconds($1) + seconds($2) }
    ' "$work/$1.times"
}

case $1 in
    --step | --alone)
        work=$2
        if [ "$1" = --step ]; then counted "$3"; else step "$3"; fi
        exit
        ;;
esac

work=$(mktemp -d) || exit 1
trap 'rm -rf "$work"' EXIT
# An interrupt from a terminal reaches this script, but no step: `timeout` makes a process group for it.
trap 'kill $(cat "$work"/*.process 2> /dev/null) 2> /dev/null; exit 1' HUP INT TERM
