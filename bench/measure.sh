#!/usr/bin/env bash
# measure.sh [--quick]: how fast steps are, as crates/measure_steps takes them. Builds that program, runs each job some
# times, and takes the least processor time. What a job does besides is taken away by the time of a smaller job.
set -euo pipefail
cd "$(dirname "$0")/../crates/measure_steps"
program=$PWD/out/measure_steps
ticks=1000000
often=20
calls=10000000
if [ "${1:-}" = --quick ]; then
    ticks=100000
    often=5
    calls=1000000
fi
rt run >/dev/null
note=$(mktemp)
trap 'rm -f "$note"' EXIT

least() { # least FORMAT WORDS..: the least of five runs, as /usr/bin/time tells it
    local format=$1 best="" run found
    shift
    for run in 1 2 3 4 5; do
        /usr/bin/time -f "$format" -o "$note" "$program" "$@" >/dev/null
        found=$(awk '{ print $1 + $2 }' "$note")
        if [ -z "$best" ] || awk "BEGIN { exit !($found < $best) }"; then best=$found; fi
    done
    echo "$best"
}

seconds() { least "%U %S" "$@"; }
kilobytes() { least "%M 0" "$@"; }

merged=$(seconds merge $ticks $often)
given=$(seconds given $ticks $often)
ring=$(seconds ring $ticks $often)
ring_all=$(seconds ring_all $ticks $often)
still=$(seconds still 10 $calls)
kept=$(kilobytes keep $ticks $often)
none=$(kilobytes keep 10 $often)

awk -v merged="$merged" -v given="$given" -v ring="$ring" -v ring_all="$ring_all" -v still="$still" \
    -v kept="$kept" -v none="$none" -v changes=$((ticks * often)) -v calls="$calls" 'BEGIN {
    print "| What | Measured |"
    print "|---|---:|"
    printf "| input changes a second that a step of an AND gate merges | %.1f M |\n", 2 * changes / (merged - given) / 1e6
    printf "| steps a second with one change each, by `step`, which gives a piece | %.1f M |\n", changes / ring / 1e6
    printf "| the same by `step_all`, which steps the ring and a net that is complete | %.1f M |\n", changes / ring_all / 1e6
    printf "| a step without reach, by `step` | %.1f ns |\n", still / calls * 1e9
    printf "| memory for a change that a wave keeps | %.1f bytes |\n", (kept - none) * 1024 / changes
}'
