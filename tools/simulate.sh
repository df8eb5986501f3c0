#!/usr/bin/env bash
# simulate.sh FOLDER [WORDS..]: runs cmbsim on the files of a folder: netlist.bench; options, words for the program's line; and of delays.csv,
# stimuli.csv, constants.csv, clocks.csv and initial.csv those that are there. The words are further options of `cmbsim run`.
# The program is $CMBSIM, else cmbsim of the path, else out/cmbsim of this repository.
set -euo pipefail
if [ $# = 0 ] || [ "$1" = --help ]; then
    sed -n '2,4s/^# //p' "$0"
    exit $(($# == 0 ? 2 : 0))
fi
folder=$1
shift
if [ ! -f "$folder/netlist.bench" ]; then
    echo "simulate.sh: there is no file $folder/netlist.bench" >&2
    exit 2
fi
program=${CMBSIM:-$(command -v cmbsim || echo "$(dirname "$0")/../out/cmbsim")}
if ! command -v "$program" >/dev/null; then
    echo "simulate.sh: there is no program $program: run make build" >&2
    exit 2
fi
words=()
if [ -f "$folder/options" ]; then
    read -r -d '' -a words <"$folder/options" || true
fi
for table in delays clocks initial; do
    if [ -f "$folder/$table.csv" ]; then
        words+=("--$table" "$folder/$table.csv")
    fi
done
stimuli=$folder/stimuli.csv
room=
if [ -f "$folder/constants.csv" ] && [ "$(wc -l <"$folder/constants.csv")" -gt 1 ]; then
    # The stimuli stand first, so that a fault's line is theirs. Constants that they tell of themselves are left out.
    room=$(mktemp -d)
    trap 'rm -rf "$room"' EXIT
    [ -f "$stimuli" ] || { stimuli=$room/none && echo tick,net,value >"$stimuli"; }
    awk -F, 'FNR == NR {told[$2]; print} FNR < NR && FNR > 1 && !($2 in told)' "$stimuli" "$folder/constants.csv" >"$room/stimuli.csv"
    stimuli=$room/stimuli.csv
fi
if [ -f "$stimuli" ]; then
    words+=(--stimuli "$stimuli")
fi
"$program" run "${words[@]}" "$@" <"$folder/netlist.bench"
