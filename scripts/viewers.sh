#!/usr/bin/env bash
# viewers.sh [PROGRAM]: has what reads VCD on this machine read the waveforms of each example, and of a netlist whose names have
# to be escaped, with scopes and without, as PROGRAM writes them, out/cmbsim if not given. vcd2fst and fst2vcd, which come with
# GTKWave and read by its own reader, have to give back the same levels, by tools/compare_vcd.py; vcd2lxt2, which has another
# reader, and sigrok-cli have to read it; and GTKWave itself, in a window of xvfb-run's, has to show every net of it. A warning
# of any is a failure. What isn't installed is named and left out, so that this is no part of the gate. The last line is 'N
# passed, M failed'.
set -uo pipefail
cd "$(dirname "$0")/.."
program=${1:-out/cmbsim}
room=$(mktemp -d)
trap 'rm -rf "$room"' EXIT
passed=0
failed=0

judged() { # judged WHAT STATUS SAID: it has to end with 0, and to say nothing
    if [ "$2" = 0 ] && [ -z "$3" ]; then
        passed=$((passed + 1))
    else
        failed=$((failed + 1))
        echo "viewers: $1 FAILED: status $2, $(head -c 300 <<<"$3")"
    fi
}

by_fst() { # by_fst NAME: what comes back from GTKWave's own format is the same
    local said
    said=$(vcd2fst "$room/$1.vcd" "$room/fst" 2>&1 && fst2vcd "$room/fst" 2>&1 >"$room/back.vcd")
    judged "vcd2fst of $1" $? "$said"
    said=$(tools/compare_vcd.py "$room/$1.vcd" "$room/back.vcd" 2>&1)
    judged "fst2vcd of $1" $? "$(grep -v '^the same: ' <<<"$said")"
}

by_lxt() { # by_lxt NAME: vcd2lxt2 says what it reads, how many variables there are and the first and the last tick, and no more
    local said
    said=$(vcd2lxt2 "$room/$1.vcd" "$room/lxt" 2>&1)
    judged "vcd2lxt2 of $1" $? "$(grep -vE '^Converting VCD File|^[0-9]+ symbols span|^\[[0-9]+\] (start|end) time\.$|^$' <<<"$said")"
}

by_sigrok() { # by_sigrok NAME: it has a channel for each variable
    local said variables
    variables=$(grep -c '^\$var' "$room/$1.vcd")
    said=$(sigrok-cli -I vcd -i "$room/$1.vcd" -O csv 2>&1 >"$room/csv")
    judged "sigrok-cli of $1" $? "$said"
    said=$(grep -c "^; Channels ($variables/$variables):" "$room/csv")
    judged "the channels of $1 in sigrok-cli" 0 "$([ "$said" = 1 ] || echo "not $variables")"
}

by_window() { # by_window NAME: GTKWave says who it is, the first and the last tick, and shows as many nets as there are
    local said variables
    variables=$(grep -c '^\$var' "$room/$1.vcd")
    said=$(xvfb-run -a timeout 120 gtkwave --script="$room/show.tcl" "$room/$1.vcd" 2>&1)
    judged "the window of $1" $? \
        "$(grep -vE "^GTKW|^\[[0-9]+\] (start|end) time\.$|^Exiting\.$|^shown $variables of $variables$|^$" <<<"$said")"
    judged "the nets in the window of $1" 0 "$(grep -q "^shown $variables of" <<<"$said" || echo "not $variables")"
}

readers=()
for reader in vcd2fst:by_fst vcd2lxt2:by_lxt sigrok-cli:by_sigrok gtkwave+xvfb-run:by_window; do
    missing=
    for command in $(tr + ' ' <<<"${reader%:*}"); do
        command -v "$command" >/dev/null || missing="$missing $command"
    done
    if [ -z "$missing" ]; then
        readers+=("${reader#*:}")
    else
        echo "viewers: not installed:$missing"
    fi
done
cat >"$room/show.tcl" <<'END'
set names [list]
for {set i 0} {$i < [gtkwave::getNumFacs]} {incr i} { lappend names [gtkwave::getFacName $i] }
puts "shown [gtkwave::addSignalsFromList $names] of [llength $names]"
gtkwave::/File/Quit
END
for example in examples/*/; do
    name=$(basename "$example")
    CMBSIM=$program tools/simulate.sh "examples/$name" >"$room/$name.vcd"
    CMBSIM=$program tools/simulate.sh "examples/$name" --scopes >"$room/$name-scopes.vcd"
done
# names that Verilog couldn't write plainly, among them a number, a bit of a bus and one with a backslash
printf '%s\n' 'INPUT(10)' 'INPUT(a.b[3])' '$x = NOT(10)' '\y\z = AND(a.b[3], 10)' 'n-1 = NOT($x)' 'wire = NOT(n-1)' >"$room/names.bench"
printf 'tick,net,value\n0,10,1\n3,10,0\n2,a.b[3],1\n5,10,x\n' >"$room/names.csv"
"$program" run --horizon 20 --stimuli "$room/names.csv" <"$room/names.bench" >"$room/names.vcd"
"$program" run --horizon 20 --scopes --stimuli "$room/names.csv" <"$room/names.bench" >"$room/scopes.vcd"
for dump in "$room"/*.vcd; do
    for reader in "${readers[@]}"; do
        "$reader" "$(basename "$dump" .vcd)"
    done
done
echo "$passed passed, $failed failed"
[ "$failed" = 0 ]
