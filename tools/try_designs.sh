#!/usr/bin/env bash
# try_designs.sh [FOLDER] [OPTIONS]: tries each module of the Verilog files in a folder by try_design.py, to which the options go: gates are
# made of it, and held against Icarus Verilog on the module itself. Without a folder the files are those of yosys's tests/simple, off
# Debian's source package, which `apt-get source` has to find. It needs yosys, iverilog and the program, as simulate.sh finds it.
# It prints a line for each module, those that differ last, and then how many were the same, refused and different. Status 1: some differ.
set -euo pipefail
if [ "${1:-}" = --help ]; then
    sed -n '2,5s/^# //p' "$0"
    exit
fi
tools=$(cd "$(dirname "$0")" && pwd)
for program in yosys iverilog; do
    command -v "$program" >/dev/null || { echo "try_designs.sh: $program isn't installed" >&2; exit 2; }
done
room=$(mktemp -d)
trap 'rm -rf "$room"' EXIT
if [ $# -gt 0 ] && [ -d "$1" ]; then
    folder=$(cd "$1" && pwd)
    shift
else
    (cd "$room" && apt-get source -qq --download-only yosys && tar xf yosys_*.orig.tar.* --wildcards '*/tests/simple')
    folder=$(echo "$room"/*/tests/simple)
fi

modules() { # modules FILE: the names of its modules, behind the preprocessor
    (cd "$folder" && iverilog -E -g2012 -o /dev/stdout "$1" 2>/dev/null) |
        grep -oP '^\s*(\(\*.*?\*\)\s*)?module\s+(automatic\s+|static\s+)?\K\w+' | sort -u
}

cd "$folder"
for file in *.v *.sv; do
    for module in $(modules "$file" || true); do
        printf '%s\0%s\0' "$module" "$file"
    done
done | xargs -0 -n 2 -P "$(nproc)" bash -c '
    said=$("$0" "${@:1:$#-2}" "${@: -2}") && status=0 || status=$?
    printf "%s %s\n" "$status" "$said"' "$tools/try_design.py" "$@" >"$room/lines"
for status in 0 3 1; do
    sed -n "s/^$status //p" "$room/lines" | sort
done
sed -n '/^[013] /!p' "$room/lines"
count() { grep -c "^$1" "$room/lines" || true; }
echo "$(count 0) are the same, $(count 3) are refused, $(count '[^03]') differ or failed"
[ "$(count '[^03]')" = 0 ]
