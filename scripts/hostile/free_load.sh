#!/usr/bin/env bash
# free_load.sh [RUNS]: runs mode free RUNS times, 200 if not given, while every processor is kept busy. None may hang or write another text
# than mode rounds with one worker. The runs take 2, 3, 7 and 64 workers in turn, and several clusterings and circuits.
#
# 200 runs take some seven minutes on four processors. A worker without news gives its processor away, and on a busy machine gets it back
# only after a slice of another process, some milliseconds. So what counts is how often a change goes on from one worker to another, and
# not how much work a circuit is. Printed at the end: the seconds of each circuit's runs, and of its longest one.
# CMBSIM names the program, out/cmbsim if it isn't set. The last line is 'N passed, M failed'.
set -uo pipefail
cd "$(dirname "$0")/../.."
program=$(realpath "${CMBSIM:-out/cmbsim}")
runs=${1:-200}
room=$(mktemp -d)
busy=()
end() {
    [ "${#busy[@]}" = 0 ] || kill "${busy[@]}" 2>/dev/null
    rm -rf "$room"
}
trap end EXIT

if ! "$program" run --horizon 1 --mode free </dev/null >/dev/null 2>&1; then
    echo "free load: mode free isn't there"
    echo "0 passed, 0 failed"
    exit 0
fi

# Flip-flops in a ring with gates between them, a chain, many readers of one net, and nets without readers.
circuit() { # circuit NAME WORDS..: its netlist is standard input
    local name=$1
    shift
    cat >"$room/$name"
    printf '%s\n' run "$@" >"$room/$name.words"
    "$program" run "$@" --mode rounds <"$room/$name" >"$room/$name.vcd" || echo "free load: $name has no text"
}
printf 'tick,net,value\n0,a,0\n5,a,1\n11,a,x\n12,a,1\n' >"$room/a.csv"
printf 'by,name,delay\nkind,BUFF,20\nkind,DFF,3\n' >"$room/slow.csv"
{
    echo "INPUT(a)"
    echo "q0 = DFF(d99)"
    for ((i = 0; i < 100; i++)); do echo "d$i = XNOR(q$i, a)"; done
    for ((i = 1; i < 100; i++)); do echo "q$i = DFF(d$((i - 1)))"; done
} | circuit flops --horizon 2000 --clock 2:4 --init 0 --stimuli "$room/a.csv"
{
    echo "INPUT(a)"
    echo "n0 = NAND(a, n299)"
    for ((i = 1; i < 300; i++)); do echo "n$i = NOT(n$((i - 1)))"; done
} | circuit ring --horizon 2000 --stimuli "$room/a.csv"
{
    echo "INPUT(a)"
    for ((i = 0; i < 500; i++)); do echo "n$i = BUFF(a)"; done
} | circuit readers --horizon 100 --stimuli "$room/a.csv" --delays "$room/slow.csv"
printf 'INPUT(a)\ny = NOT(a)\n' | circuit inverter --horizon 10 --stimuli "$room/a.csv"
circuit nothing --horizon 5 </dev/null
circuits=(flops ring readers inverter nothing)
clusters=(1 2 5 64)
workers=(2 3 7 64)

for ((i = 0; i < 2 * $(nproc); i++)); do
    (while :; do :; done) &
    busy+=($!)
done

passed=0
failed=0
declare -A count sum longest
timed() { # timed NAME MICROSECONDS: counts a run
    count[$1]=$((${count[$1]:-0} + 1))
    sum[$1]=$((${sum[$1]:-0} + $2))
    [ "$2" -le "${longest[$1]:-0}" ] || longest[$1]=$2
}
for ((run = 0; run < runs; run++)); do
    name=${circuits[run / 16 % 5]}
    w=${workers[run % 4]}
    k=${clusters[run / 4 % 4]}
    mapfile -t words <"$room/$name.words"
    started=${EPOCHREALTIME/[.,]/}
    timeout 120 "$program" "${words[@]}" --mode free --workers "$w" --clusters "$k" <"$room/$name" >"$room/out" 2>"$room/err"
    status=$?
    timed "$name" $((${EPOCHREALTIME/[.,]/} - started))
    if [ "$status" = 0 ] && cmp -s "$room/out" "$room/$name.vcd"; then
        passed=$((passed + 1))
    else
        failed=$((failed + 1))
        [ "$status" = 124 ] && echo "free load: $name with $w workers and $k clusters didn't end in two minutes"
        echo "FAILED: $name with $w workers and $k clusters: status $status, $(stat -c %s "$room/out") bytes, $(cat "$room/err")"
    fi
done
for name in "${!count[@]}"; do
    echo "$name: ${count[$name]} runs, $((sum[$name] / 1000)) ms, the longest $((longest[$name] / 1000)) ms"
done
echo "$passed passed, $failed failed"
[ "$failed" = 0 ]
