#!/usr/bin/env bash
# try_example.sh NAME [MORE..]: runs the program on the files of examples/NAME as `rt try` builds it: unoptimised, with
# checks, and with nothing proved. What the toolchain says goes to standard error.
set -euo pipefail
name=$1
shift
cd "$(dirname "$0")/.."
folder=$PWD/examples/$name
read -r -a words <"$folder/options"
data=()
for table in delays stimuli clocks initial; do
    if [ -f "$folder/$table.csv" ]; then
        words+=("--$table" "$table.csv")
        data+=(--data "$table.csv=$folder/$table.csv")
    fi
done
cd crates/cmbsim
exec rt try "${data[@]}" -- run "${words[@]}" "$@" <"$folder/netlist.bench"
