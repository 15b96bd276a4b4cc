#!/bin/sh
# Everything. `rt ci` proves every crate, has the prover refuse the wrong edits in must-fail, and runs tests and programs; it
# skips what it has passed on this machine before. Then the built programs are tried from outside, several steps at once: the
# tables of calls, also with the journal cut after each line; the guide's code against the sources, each link, and the pages of
# HTML; each request for memory refused in turn; logs and journals that are cut, which are not to grow; threads that wait for
# each other; scripts, faults and charts; all endings of scripts; journals as text, also compacted; simulated queues; the page
# of figures, without measuring any; bodies that the compiler refuses; and the libraries for C, which are built, installed, and used
# from C, Rust and Python, also by programs that are killed and go on. The last line is `N passed, M failed`.
cd "$(dirname "$0")/.." || exit 1

# The steps after `rt ci`, those that take longest first.
steps='libraries refused explore program waiting kept_file refused_bodies memory compact cuts calls html guide links chart journals queueing speed'

step() {
    rows=crates/cml_rows/out/cml_rows
    bench=crates/cml_bench/out/cml_bench
    cml=crates/cml/out/cml
    chart=crates/cml_chart/out/cml_chart
    case $1 in
        libraries) sh tests/libraries/archives.sh && sh tests/libraries/libraries.sh ;;
        refused) sh tests/stress/refused.sh crates/cml_guide/out/cml_guide "$rows" "$cml" "$chart" ;;
        program) sh tests/cml/program.sh "$cml" ;;
        chart) sh tests/cml/chart.sh "$chart" ;;
        journals | compact | explore) sh "tests/cml/$1.sh" "$cml" ;;
        calls | cuts) sh "tests/cml/$1.sh" "$rows" ;;
        memory) sh tests/stress/memory.sh "$bench" ;;
        waiting) sh tests/stress/waiting.sh "$bench" "$cml" ;;
        guide | html | links | speed) sh "tests/docs/$1.sh" ;;
        refused_bodies) sh tests/libraries/refused_bodies.sh ;;
        kept_file) sh tests/libraries/kept_file.sh "$rows" ;;
        queueing) sh tests/cml/queueing.sh crates/cml_queueing/out/cml_queueing "$cml" "$chart" ;;
    esac
}

. tests/lib/beside.sh

# As many proofs at once as there are processors. Without RT_JOBS `rt ci` expects more memory of a proof than it takes, and
# begins with the largest crate only when nearly all others have ended.
RT_JOBS=${RT_JOBS:-$(nproc 2> /dev/null || echo 2)}
export RT_JOBS
{ rt ci 2>&1; echo $? > "$work/status"; } | tee "$work/crates"
status=$(cat "$work/status")
[ "$status" -eq 0 ] || exit "$status"
tail -n 1 "$work/crates" | sed -n 's/^\([0-9]* passed, [0-9]* failed\).*/crates: \1/p' > "$work/crates.count"
beside tests/all.sh $steps
