#!/usr/bin/env bash
# ends.sh: the program over streams that are closed, full, early at an end, or no files: its statuses and lines.
# CMBSIM names the program, out/cmbsim if it isn't set. The last line is 'N passed, M failed'.
set -uo pipefail
cd "$(dirname "$0")/../.."
program=$(realpath "${CMBSIM:-out/cmbsim}")
room=$(mktemp -d)
trap 'rm -rf "$room"' EXIT
passed=0
failed=0

check() { # check WHAT WANTED FOUND
    if [ "$2" = "$3" ]; then
        passed=$((passed + 1))
    else
        failed=$((failed + 1))
        echo "FAILED: $1: wanted '$2', found '$3'"
    fi
}

# A chain whose text is longer than a pipe holds, and the inverter.
{
    echo "INPUT(a)"
    echo "n0 = NOT(a)"
    for ((i = 1; i < 3000; i++)); do echo "n$i = NOT(n$((i - 1)))"; done
} >"$room/chain"
{
    printf 'INPUT(a)\ny = NAND(a'
    for ((i = 0; i < 100000; i++)); do printf ',a'; done
    echo ')'
} >"$room/operands"
printf 'tick,net,value\n0,a,0\n5,a,1\n' >"$room/stimuli.csv"
printf 'INPUT(a)\nOUTPUT(y)\ny = NOT(a)\n' >"$room/inverter"
: >"$room/empty"
inverter=(run --horizon 10 --stimuli "$room/stimuli.csv")
chain=(run --horizon 3500 --stimuli "$room/stimuli.csv")

modes=("--mode plain" "--mode rounds" "--mode rounds --workers 3 --clusters 5")
if "$program" run --horizon 1 --mode free <"$room/empty" >"$room/out" 2>&1; then
    modes+=("--mode free" "--mode free --workers 2 --clusters 2" "--mode free --workers 3 --clusters 5" "--mode free --workers 64 --clusters 64")
else
    echo "mode free isn't there"
fi

told() { # told: the line of standard error, and nothing else there
    cat "$room/err"
}

for mode in "${modes[@]}"; do
    read -r -a words <<<"$mode"

    # What is compared with: the whole texts.
    timeout 60 "$program" "${inverter[@]}" "${words[@]}" <"$room/inverter" >"$room/whole" 2>"$room/err"
    check "$mode: the inverter" "0 190 " "$? $(stat -c %s "$room/whole") $(told)"
    timeout 60 "$program" "${chain[@]}" "${words[@]}" <"$room/chain" >"$room/long" 2>"$room/err"
    check "$mode: the chain" "0 " "$? $(told)"

    # Standard output is a pipe whose reader takes ten bytes and goes: a fault 62 with the bytes that the pipe took, which are fewer than
    # all. The reader sees the beginning.
    timeout 60 "$program" "${chain[@]}" "${words[@]}" <"$room/chain" 2>"$room/err" | head -c 10 >"$room/out"
    status=${PIPESTATUS[0]}
    check "$mode: head -c 10" "1 yes $(head -c 10 "$room/long")" "$status $(told | grep -qx 'cmbsim: fault 62 at [0-9]*' && echo yes) $(cat "$room/out")"
    bytes=$(told | sed 's/.* at //')
    check "$mode: head -c 10: fewer bytes" yes "$([ "$bytes" -ge 10 ] && [ "$bytes" -lt "$(stat -c %s "$room/long")" ] && echo yes)"

    # A pipe that nobody reads any more.
    { sleep 0.2; timeout 60 "$program" "${inverter[@]}" "${words[@]}" <"$room/inverter" 2>"$room/err"; echo $? >"$room/status"; } | :
    check "$mode: a pipe that is closed" "1 cmbsim: fault 62 at 0" "$(cat "$room/status") $(told)"

    # A full device takes nothing.
    timeout 60 "$program" "${inverter[@]}" "${words[@]}" <"$room/inverter" >/dev/full 2>"$room/err"
    check "$mode: a full device" "1 cmbsim: fault 62 at 0" "$? $(told)"

    # A limit on the size of files: the bytes up to it are the beginning of the text. The signal is ignored, so that the write fails.
    (
        trap '' XFSZ
        ulimit -f 100
        timeout 60 "$program" "${chain[@]}" "${words[@]}" <"$room/chain" >"$room/cut" 2>"$room/err"
    )
    status=$?
    size=$(stat -c %s "$room/cut")
    check "$mode: a full file" "1 cmbsim: fault 62 at $size" "$status $(told)"
    check "$mode: a full file: the beginning" yes "$([ "$size" -gt 0 ] && head -c "$size" "$room/long" | cmp -s - "$room/cut" && echo yes)"

    # Standard output is closed, or can only be read.
    timeout 60 "$program" "${inverter[@]}" "${words[@]}" <"$room/inverter" >&- 2>"$room/err"
    check "$mode: standard output closed" "1 cmbsim: fault 62 at 0" "$? $(told)"
    timeout 60 "$program" "${inverter[@]}" "${words[@]}" <"$room/inverter" 1<"$room/empty" 2>"$room/err"
    check "$mode: standard output only to be read" "1 cmbsim: fault 62 at 0" "$? $(told)"

    # Standard input is closed, can only be written, or is a folder: the netlist can't be read, and nothing is written.
    timeout 60 "$program" "${inverter[@]}" "${words[@]}" <&- >"$room/out" 2>"$room/err"
    check "$mode: standard input closed" "1 0 cmbsim: fault 61 at 1" "$? $(stat -c %s "$room/out") $(told)"
    timeout 60 "$program" "${inverter[@]}" "${words[@]}" 0>"$room/other" >"$room/out" 2>"$room/err"
    check "$mode: standard input only to be written" "1 0 cmbsim: fault 61 at 1" "$? $(stat -c %s "$room/out") $(told)"
    timeout 60 "$program" "${inverter[@]}" "${words[@]}" <"$room" >"$room/out" 2>"$room/err"
    check "$mode: standard input a folder" "1 0 cmbsim: fault 61 at 1" "$? $(stat -c %s "$room/out") $(told)"

    # Standard error is closed or full: the status and the text are as ever.
    timeout 60 "$program" "${inverter[@]}" "${words[@]}" <"$room/inverter" >"$room/out" 2>&-
    check "$mode: standard error closed" "0 yes" "$? $(cmp -s "$room/out" "$room/whole" && echo yes)"
    timeout 60 "$program" "${inverter[@]}" "${words[@]}" <&- >"$room/out" 2>&-
    check "$mode: standard error closed, a fault" "1 0" "$? $(stat -c %s "$room/out")"
    timeout 60 "$program" "${inverter[@]}" "${words[@]}" <&- >"$room/out" 2>/dev/full
    check "$mode: standard error full, a fault" "1 0" "$? $(stat -c %s "$room/out")"

    # All three are closed.
    timeout 60 "$program" "${inverter[@]}" "${words[@]}" <&- >&- 2>&-
    check "$mode: all closed" 1 "$?"
    timeout 60 "$program" run --horizon 10 --stimuli "$room/missing" "${words[@]}" <&- >&- 2>&-
    check "$mode: all closed, a missing file" 1 "$?"

    # A file that opens must not come to stand in the place of a closed stream and be taken for it.
    timeout 60 "$program" run --horizon 10 --stimuli "$room/stimuli.csv" --clocks "$room/empty" "${words[@]}" <&- >&- 2>"$room/err"
    check "$mode: input and output closed, files open" "1 cmbsim: fault 61 at 1" "$? $(told)"
    cp "$room/stimuli.csv" "$room/before"
    timeout 60 "$program" "${inverter[@]}" "${words[@]}" <"$room/inverter" >&- 2>"$room/err"
    check "$mode: no file is written" "1 cmbsim: fault 62 at 0 yes" "$? $(told) $(cmp -s "$room/before" "$room/stimuli.csv" && echo yes)"

    # Files by the number of their input: missing, a folder, one that may not be read, one that stands below a file.
    number=2
    for table in delays stimuli clocks only initial; do
        for file in "$room/missing" "$room" "$room/empty/below" ""; do
            timeout 60 "$program" run --horizon 10 "--$table" "$file" "${words[@]}" <"$room/inverter" >"$room/out" 2>"$room/err"
            check "$mode: --$table '${file#"$room"}'" "1 0 cmbsim: fault 61 at $number" "$? $(stat -c %s "$room/out") $(told)"
        done
        number=$((number + 1))
    done
    printf 'kind\n' >"$room/locked"
    chmod 0 "$room/locked"
    if [ -r "$room/locked" ]; then # whoever may read everything is no test of this, so somebody else runs it
        chmod a+rx "$room"
        found=$(setpriv --reuid 65534 --regid 65534 --clear-groups "$program" run --horizon 10 --delays "$room/locked" "${words[@]}" <"$room/inverter" 2>&1)
    else
        found=$("$program" run --horizon 10 --delays "$room/locked" "${words[@]}" <"$room/inverter" 2>&1)
    fi
    check "$mode: a file that may not be read" "1 cmbsim: fault 61 at 2" "$? $found"

    # A missing file is found before anything is read; a folder only when its turn comes.
    timeout 60 "$program" run --horizon 10 --delays "$room" --clocks "$room/missing" "${words[@]}" <&- >"$room/out" 2>"$room/err"
    check "$mode: a missing file comes first" "1 cmbsim: fault 61 at 4" "$? $(told)"
    timeout 60 "$program" run --horizon 10 --delays "$room" "${words[@]}" <&- >"$room/out" 2>"$room/err"
    check "$mode: then the netlist" "1 cmbsim: fault 61 at 1" "$? $(told)"

    # A netlist that comes slowly, byte by byte, and an endless one.
    { while IFS= read -r -n1 -d '' byte; do printf '%s' "$byte"; sleep 0.01; done <"$room/inverter"; } |
        timeout 60 "$program" "${inverter[@]}" "${words[@]}" >"$room/out" 2>"$room/err"
    check "$mode: a slow netlist" "0 yes " "$? $(cmp -s "$room/out" "$room/whole" && echo yes) $(told)"
    timeout 60 "$program" "${inverter[@]}" "${words[@]}" </dev/zero >"$room/out" 2>"$room/err"
    check "$mode: an endless netlist" "1 0 cmbsim: fault 60 at 1" "$? $(stat -c %s "$room/out") $(told)"
    timeout 60 "$program" run --horizon 10 --clocks /dev/zero "${words[@]}" <"$room/inverter" >"$room/out" 2>"$room/err"
    check "$mode: an endless table" "1 0 cmbsim: fault 60 at 4" "$? $(stat -c %s "$room/out") $(told)"
    timeout 60 "$program" run --horizon 10 --only /dev/zero "${words[@]}" <"$room/inverter" >"$room/out" 2>"$room/err"
    check "$mode: an endless list" "1 0 cmbsim: fault 60 at 5" "$? $(stat -c %s "$room/out") $(told)"

    # One that comes in two halves, a signal between them.
    mkfifo "$room/pipe"
    timeout 60 "$program" "${inverter[@]}" "${words[@]}" <"$room/pipe" >"$room/out" 2>"$room/err" &
    pid=$!
    exec 7>"$room/pipe"
    head -c 12 "$room/inverter" >&7
    sleep 0.1
    kill -STOP "$pid" 2>/dev/null && kill -CONT "$pid" 2>/dev/null
    tail -c +13 "$room/inverter" >&7
    exec 7>&-
    wait "$pid"
    check "$mode: stopped and continued" "0 yes " "$? $(cmp -s "$room/out" "$room/whole" && echo yes) $(told)"
    rm "$room/pipe"

    # A small stack is enough, however long a chain or a list of operands is.
    (
        ulimit -s 128
        timeout 60 "$program" "${chain[@]}" "${words[@]}" <"$room/chain" 2>"$room/err" | cmp -s - "$room/long"
        echo "${PIPESTATUS[*]}" >"$room/status"
        timeout 60 "$program" "${inverter[@]}" "${words[@]}" <"$room/operands" >"$room/out" 2>>"$room/err"
        echo $? >>"$room/status"
    )
    check "$mode: a small stack" "0 0 0 " "$(tr '\n' ' ' <"$room/status")$(told)"

    # A reader that is slow: the pipe is full most of the time, and nothing is lost.
    timeout 60 "$program" "${chain[@]}" "${words[@]}" <"$room/chain" 2>"$room/err" | { sleep 0.3; cat; } | cmp -s - "$room/long"
    check "$mode: a slow reader" "0 0 " "${PIPESTATUS[0]} ${PIPESTATUS[2]} $(told)"
done

# Wrong lines and help: nothing on standard output, or nothing on standard error.
"$program" <"$room/empty" >"$room/out" 2>"$room/err"
check "no words" "2 0" "$? $(stat -c %s "$room/out")"
"$program" run --help <"$room/empty" >"$room/out" 2>"$room/err"
check "help" "0 0" "$? $(stat -c %s "$room/err")"
"$program" run --help <&- >/dev/full 2>"$room/err"
check "help on a full device" "1 cmbsim: fault 62 at 0" "$? $(told)"
"$program" run --horizon 10 --stimuli $'\xff' <"$room/empty" >"$room/out" 2>"$room/err"
check "a word that isn't UTF-8" "2 0" "$? $(stat -c %s "$room/out")"
"$program" run --horizon 10 --clock 2-4 --stimuli "$room/missing" <&- >"$room/out" 2>"$room/err"
check "a clock of another form" "1 0 cmbsim: fault 21 at 0" "$? $(stat -c %s "$room/out") $(told)"

echo "$passed passed, $failed failed"
[ "$failed" = 0 ]
