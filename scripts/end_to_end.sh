#!/usr/bin/env bash
# end_to_end.sh [PROGRAM]: runs the whole program on files, as `rt try` builds it from the sources that the gate
# has just proved (proving them once more for this would take as long again). The waveforms of each
# example have to be those of its expected.vcd, byte for byte, in each mode; a wrong use has to write nothing and to
# end with its status. The real designs, whose texts are longer than what `rt try` gives out, are run by PROGRAM,
# out/cmbsim if not given: what their expected.txt says has to be read off their waveforms. What PROGRAM tells of loops
# has to be what a search of its own finds in each example. It also has to tell each fault that files, settings
# and the machine can give, by the very line. The last line is 'N passed, M failed'.
set -uo pipefail
cd "$(dirname "$0")/.."
examples=$PWD/examples
program=$(realpath -m "${1:-out/cmbsim}")
cases=$(mktemp -d)
faulty=$(mktemp -d)
report=$(mktemp)
trap 'rm -rf "$cases" "$cases.long" "$faulty" "$report"' EXIT
data=()
declare -A statuses

tables() { # tables NAME: each table of the example is a file of its own
    local folder=$examples/$1 table
    words=()
    for table in delays stimuli clocks initial; do
        if [ -f "$folder/$table.csv" ]; then
            words+=("--$table" "$1.$table.csv")
            data+=(--data "$1.$table.csv=$folder/$table.csv")
        fi
    done
}

example() { # example NAME CASE WORDS..: the netlist is standard input, and the words say how it is run
    local name=$1 case=$1.$2 options
    shift 2
    read -r -a options <"$examples/$name/options"
    cp "$examples/$name/netlist.bench" "$cases/$case"
    words_of "$case" run "${options[@]}" "${words[@]}" "$@"
    cp "$examples/$name/expected.vcd" "$cases/$case.stdout"
    statuses[$case]=0
}

words_of() { # words_of CASE WORDS..: what the case is run with, a word a line
    local name=$1
    shift
    [ $# = 0 ] || printf '%s\n' "$@" >"$cases/$name.args"
}

inverter_counts='       2  nets
       1  inputs
       1  inputs that are x at all ticks
       -  a
       0  gates AND
       0  gates NAND
       0  gates OR
       0  gates NOR
       0  gates XOR
       0  gates XNOR
       1  gates NOT
       0  gates BUFF
       0  flip-flops
       0  flip-flops that never sample
       0  nets in feedback loops
       0  nets in loops of gates alone
       0  nets that drive nothing and are no outputs
       1  ticks in the largest delay
       1  ticks in the longest path
       -  y
       0  different clocks of flip-flops
       0  rows of delays
       0  rows of stimuli
       0  rows of clocks
       0  rows of first levels
'

# The nets led[0], led[1] and cpu.alu.q, of which the first is 0 from tick 0 on and 1 from tick 5 on.
scoped='$version cmbsim 1 $end
$timescale 1 ns $end
$scope module top $end
$var wire 1 ! led [0] $end
$var wire 1 " led [1] $end
$scope module cpu $end
$scope module alu $end
$var wire 1 # q $end
$upscope $end
$upscope $end
$upscope $end
$enddefinitions $end
#0
$dumpvars
0!
x"
x#
$end
#1
1"
0#
#5
1!
#6
0"
1#
#9
'

counted() { # counted NAME TEXT TASK WORDS..: the text is on standard output, of the netlist of the example
    local name=$1
    answered "$name.$3" "${@:2}"
    cp "$examples/$name/netlist.bench" "$cases/$name.$3"
}

answered() { # answered NAME TEXT WORDS..: the text is on standard output
    local name=$1
    statuses[$name]=0
    : >"$cases/$name"
    printf '%s' "$2" >"$cases/$name.stdout"
    shift 2
    words_of "$name" "$@"
}

refused() { # refused NAME STATUS WORDS..: nothing on standard output
    local name=$1
    statuses[$name]=$2
    shift 2
    cp "$examples/inverter/netlist.bench" "$cases/$name"
    words_of "$name" "$@"
    : >"$cases/$name.stdout"
}

for expected in "$examples"/*/expected.vcd; do
    name=$(basename "$(dirname "$expected")")
    tables "$name"
    example "$name" plain --mode plain
    example "$name" default
    example "$name" rounds --mode rounds --workers 3 --clusters 5
    example "$name" free --mode free --workers 3 --clusters 5
    example "$name" threads --threads 3
    example "$name" free_threads --mode free --threads 64
done
version=$(sed -n 's/^\$version \(.*\) \$end$/\1/p' examples/inverter/expected.vcd)
answered version "$version"$'\n' --version
refused no_words 2
refused fault_that_is_none 2 explain 9
refused check_with_stats 2 check --horizon 10 --stats
refused check_with_progress 2 check --horizon 10 --progress
refused check_with_scopes 2 check --horizon 10 --scopes
refused stats_with_a_value 2 run --horizon 10 --stats yes
refused check_with_a_mode 2 check --horizon 10 --mode plain
refused check_of_a_missing_file 1 check --horizon 10 --stimuli missing.csv
refused check_of_a_netlist_as_a_table 1 check --horizon 10 --delays inverter.netlist.csv
counted inverter "$inverter_counts" check --horizon 10
refused run_that_names_all 2 run --horizon 10 --all
counted inverter $'net,changes,low,high,unknown\na,0,0,0,10\ny,0,0,0,10\n' activity --horizon 10
for mode in rounds free plain; do
    answered "scopes.$mode" "$scoped" run --horizon 9 --stimuli scopes.csv --scopes --mode $mode
    printf 'INPUT(led[0])\nled[1] = NOT(led[0])\ncpu.alu.q = BUFF(led[0])\n' >"$cases/scopes.$mode"
done
printf 'tick,net,value\n0,led[0],0\n5,led[0],1\n' >"$faulty/scopes.csv"
data+=(--data "scopes.csv=$faulty/scopes.csv")
refused activity_with_stats 2 activity --horizon 10 --stats
refused activity_with_progress 2 activity --horizon 10 --progress
refused activity_with_scopes 2 activity --horizon 10 --scopes
refused activity_of_a_missing_list 1 activity --horizon 10 --only missing
refused expect_without_a_table 2 expect --horizon 10
refused expect_with_stats 2 expect --horizon 10 --expected missing --stats
refused expect_with_scopes 2 expect --horizon 10 --expected missing --scopes
refused expect_of_chosen_nets 2 expect --horizon 10 --expected missing --only-outputs
refused expect_of_a_missing_table 1 expect --horizon 10 --expected missing
refused run_with_a_table_of_what_is_expected 2 run --horizon 10 --expected missing
refused netlist_as_a_word 2 run --horizon 10 netlist.bench
refused horizon_of_0 2 run --horizon 0
refused no_horizon 2 run --mode rounds
refused no_such_mode 2 run --horizon 10 --mode slow
refused two_choices 2 run --horizon 10 --only nets --only-outputs
refused check_of_chosen_nets 2 check --horizon 10 --only-outputs
refused missing_list 1 run --horizon 10 --only missing
refused too_many_workers 2 run --horizon 10 --workers 65
refused too_many_threads 2 run --horizon 10 --threads 65
refused threads_and_workers 2 run --horizon 10 --threads 2 --workers 2
refused clock_of_another_form 1 run --horizon 10 --clock 2-4
refused period_of_0 1 run --horizon 10 --clock 2:0
refused missing_file 1 run --horizon 10 --stimuli missing.csv
refused netlist_as_a_table 1 run --horizon 10 --delays inverter.netlist.csv
data+=(--data "inverter.netlist.csv=$examples/inverter/netlist.bench")

# The cases take one processor for about as long as all the rest.
(cd crates/cmbsim && rt try --cases "$cases" "${data[@]}") >"$report" 2>&1 &
tried=$!
passed=0
failed=0

tried_cases() { # each case ended as it should
    local name
    wait "$tried"
    for name in "${!statuses[@]}"; do
        if grep -q "^case=$name run=ended status=${statuses[$name]} .*output=expected" "$report"; then
            passed=$((passed + 1))
        else
            failed=$((failed + 1))
            echo "end to end: $name FAILED: $(grep "^case=$name " "$report")"
        fi
    done
}

real() { # real NAME WORDS..: the levels that are read off at the end are those of expected.txt
    local name=$1 names=() levels=() net level
    shift
    while read -r net level; do
        names+=("$net")
        levels+=("$level")
    done <"$examples/$name/expected.txt"
    if [ "$(CMBSIM=$program tools/simulate.sh "$examples/$name" "$@" | tools/read_vcd.py "${names[@]}")" = "$(printf '%s\n' "${levels[@]}")" ]; then
        passed=$((passed + 1))
    else
        failed=$((failed + 1))
        echo "end to end: $name $* FAILED"
    fi
}

# outputs NAME WORDS..: the waveforms of the outputs are those of outputs.vcd
outputs() {
    local name=$1
    shift
    if CMBSIM=$program tools/simulate.sh "$examples/$name" --only-outputs "$@" | cmp - "$examples/$name/outputs.vcd"; then
        passed=$((passed + 1))
    else
        failed=$((failed + 1))
        echo "end to end: outputs of $name $* FAILED"
    fi
}

# as_expected NAME WORDS..: each level comes that expected.csv names
as_expected() {
    local folder=$examples/$1 options told
    shift
    read -r -a options <"$folder/options"
    told=$("$program" expect "${options[@]}" --stimuli "$folder/stimuli.csv" --expected "$folder/expected.csv" "$@" <"$folder/netlist.bench" 2>&1) &&
        [ "$told" = "tick,net,expected,value" ]
    if [ "$?" = 0 ]; then
        passed=$((passed + 1))
    else
        failed=$((failed + 1))
        echo "end to end: what is expected of $folder FAILED: $told"
    fi
}

# turned NAME LINE WORDS..: with the level in this line of expected.csv turned, that row is told, and no other
turned() {
    local folder=$examples/$1 line=$2 table=$faulty/turned.csv options tick net level told status wanted
    shift 2
    read -r -a options <"$folder/options"
    awk -F, -v OFS=, -v line="$line" 'NR == line {$3 = 1 - $3} 1' "$folder/expected.csv" >"$table"
    told=$("$program" expect "${options[@]}" --stimuli "$folder/stimuli.csv" --expected "$table" "$@" <"$folder/netlist.bench" 2>"$table.said")
    status=$?
    IFS=, read -r tick net level < <(sed -n "${line}p" "$folder/expected.csv")
    wanted="3 tick,net,expected,value
$tick,$net,$((1 - level)),$level
1 of $(($(wc -l <"$table") - 1)) rows differ"
    if [ "$status $told"$'\n'"$(cat "$table.said")" = "$wanted" ]; then
        passed=$((passed + 1))
    else
        failed=$((failed + 1))
        echo "end to end: a turned row of $folder FAILED: $status $told $(cat "$table.said")"
    fi
}

# looped NAME: how many nets are in loops is what a search of its own finds
looped() {
    local netlist=$examples/$1/netlist.bench
    if [ "$("$program" check --horizon 10 --clock 1:2 <"$netlist" | grep loops)" = "$(scripts/loop_counts.py "$netlist")" ]; then
        passed=$((passed + 1))
    else
        failed=$((failed + 1))
        echo "end to end: loops of $1 FAILED"
    fi
}

# on_full_disk WORDS..: where standard output takes nothing the status is 1, and the fault 62 at 0 bytes
on_full_disk() {
    local said status
    said=$("$program" "$@" <"$examples/inverter/netlist.bench" 2>&1 >/dev/full)
    status=$?
    if [ "$status" = 1 ] && [ "$said" = "cmbsim: fault 62 at 0" ]; then
        passed=$((passed + 1))
    else
        failed=$((failed + 1))
        echo "end to end: $* on a full disk FAILED: status $status, $said"
    fi
}

# the netlist that faults of tables and settings are told of: an input, a gate and a flip-flop
clocked='INPUT(a)\ny = AND(a, q)\nq = DFF(y)\n'

# told N P NETLIST WORDS..: of the netlist the status is 1, nothing is on standard output, and on standard error the one line of fault N at P
told() {
    local want="cmbsim: fault $1 at $2" netlist=$3 said status
    shift 3
    said=$(cd "$faulty" && printf "$netlist" | "$program" run --horizon 10 "$@" 2>&1 >written)
    status=$?
    if [ "$status" = 1 ] && [ "$said" = "$want" ] && [ ! -s "$faulty/written" ]; then
        passed=$((passed + 1))
    else
        failed=$((failed + 1))
        echo "end to end: $want FAILED: status $status, $said"
    fi
}

# told_of_table N P TABLE ROWS: the same of a table, whose header stands before the rows
told_of_table() {
    local headers
    declare -A headers=([delays]=by,name,delay [stimuli]=tick,net,value [clocks]=net,first,period [initial]=net,value)
    printf "${headers[$3]}\n$4\n" >"$faulty/$3.csv"
    told "$1" "$2" "$clocked" --clock 2:4 "--$3" "$3.csv"
}

told_of_netlists() { # the faults 1 to 8
    told 1 1 'INPUT(\303\244)\n'
    told 1 1 '\357\273\277INPUT(a)\n'
    told 2 2 'INPUT(a)\ny = NOT(a'
    told 3 1 'k = vdd\n'
    told 4 2 'INPUT(a)\ny = NOT(a, a)\n'
    told 5 2 'INPUT(a)\na = NOT(a)\n'
    told 6 2 'INPUT(a)\ny = NOT(b)\n'
    told 7 65536 "$(seq -f 'INPUT(n%.0f)' 65536)\n"
    told 8 1 "INPUT($(printf 'n%.0s' {1..256}))\n"
}

told_of_settings() { # the faults 21, 22 and 33
    told 21 0 "$clocked" --clock 2-4
    told 21 0 "$clocked" --clock 2:0
    told 21 0 "$clocked" --clock 1000001:1
    told 22 0 "$clocked"
    local said
    said=$(seq -f 'INPUT(n%.0f)' 17 | "$program" run --horizon 1000000 --mode plain 2>&1)
    if [ "$said" = "cmbsim: fault 33 at 0" ]; then
        passed=$((passed + 1))
    else
        failed=$((failed + 1))
        echo "end to end: fault 33 FAILED: $said"
    fi
}

told_of_tables() { # the faults 23 to 32 and 34 to 37
    local table
    for table in delays stimuli clocks; do
        printf 'a;b;c\n' >"$faulty/header.csv"
        told 23 1 "$clocked" --clock 2:4 "--$table" header.csv
        told_of_table 24 2 "$table" 'y,1'
    done
    told 23 1 "$clocked" --clock 2:4 --initial header.csv
    told_of_table 24 2 initial 'y,1,0'
    told_of_table 25 2 delays 'net,y,3ns'
    told_of_table 25 2 stimuli '-1,a,0'
    told_of_table 25 2 clocks 'q,1,'
    told_of_table 26 3 delays 'net,y,3\nnet,Y,3'
    told_of_table 26 3 stimuli '1,a,0\n2,A,0'
    told_of_table 26 2 clocks 'Q,1,2'
    told_of_table 26 2 initial 'Q,1'
    told_of_table 27 2 delays 'kind,MUX,3'
    told_of_table 28 2 delays 'net,y,0'
    told_of_table 29 3 delays 'net,y,2\nnet,y,3'
    told_of_table 29 3 stimuli '1,a,0\n1,a,1'
    told_of_table 29 3 clocks 'q,1,2\nq,1,3'
    told_of_table 29 3 initial 'q,1\nq,1'
    told_of_table 30 2 stimuli '1,y,0'
    told_of_table 31 2 stimuli '1,a,z'
    told_of_table 31 2 initial 'q,z'
    told_of_table 32 2 delays 'net,a,2'
    told_of_table 34 2 delays 'pin,y,2'
    told_of_table 35 2 delays 'pin,y:3,2'
    told_of_table 36 2 clocks 'q,1,0'
    told_of_table 37 2 clocks 'y,1,2'
    told_of_table 37 2 initial 'y,1'
}

told_of_lists() { # the fault 38, and 60 and 61 of a list
    printf '# nets\ny\n\nY\n' >"$faulty/nets"
    told 38 4 "$clocked" --clock 2:4 --only nets
    told 22 0 "$clocked" --only nets
    told 60 5 "$clocked" --clock 2:4 --only long.csv
    told 61 5 "$clocked" --clock 2:4 --only missing
    told 61 5 "$clocked" --clock 2:4 --only .
}

told_of_the_machine() { # the faults 60, 61 and 70; 62 is that of a full disk
    local said
    head -c 16777217 /dev/zero >"$faulty/long.csv"
    told 60 2 "$clocked" --delays long.csv
    told 60 3 "$clocked" --stimuli long.csv
    told 60 4 "$clocked" --clocks long.csv
    told 60 6 "$clocked" --initial long.csv
    told 61 2 "$clocked" --delays missing.csv
    told 61 3 "$clocked" --stimuli missing.csv
    told 61 4 "$clocked" --clocks .
    told 61 6 "$clocked" --initial missing.csv
    said=$(cd "$faulty" && {
        "$program" run --horizon 10 <long.csv
        "$program" run --horizon 10 <&-
        ulimit -v 16000
        head -c 16777216 long.csv | "$program" run --horizon 10
    } 2>&1)
    if [ "$said" = $'cmbsim: fault 60 at 1\ncmbsim: fault 61 at 1\ncmbsim: fault 70 at 0' ]; then
        passed=$((passed + 1))
    else
        failed=$((failed + 1))
        echo "end to end: faults of the netlist's bytes FAILED: $said"
    fi
}

told_of_no_memory() { # the example that the program gives of fault 70, with the 17 nets of s27
    local said
    said=$(ulimit -v 10000 && "$program" run --mode plain --horizon 900000 --clock 19:20 2>&1 >"$faulty/written" <"$examples/s27/netlist.bench")
    if [ "$said" = "cmbsim: fault 70 at 0" ] && [ ! -s "$faulty/written" ]; then
        passed=$((passed + 1))
    else
        failed=$((failed + 1))
        echo "end to end: the example of fault 70 FAILED: $said"
    fi
}

# in_words WANT NETLIST WORDS..: with --explain the fault's line is followed by this one
in_words() {
    local want="cmbsim: $1" netlist=$2 said
    shift 2
    said=$(cd "$faulty" && printf "$netlist" | "$program" run --horizon 10 --explain "$@" 2>&1 >/dev/null | tail -n +2)
    if [ "$said" = "$want" ]; then
        passed=$((passed + 1))
    else
        failed=$((failed + 1))
        echo "end to end: $want FAILED: $said"
    fi
}

told_in_words() {
    in_words 'the netlist, line 2: not driven: b, in y = NOT(b)' 'INPUT(a)\ny = NOT(b)\n'
    in_words 'the netlist, line 1: a byte that no netlist has: \u{feff}INPUT(a)' '\357\273\277INPUT(a)\n'
    in_words 'a flip-flop has no clock row, and there is no common clock: q' "$clocked"
    in_words 'missing.csv: No such file or directory (os error 2)' "$clocked" --clock 2:4 --delays missing.csv
    printf 'tick,net,value\n\n0,a,0\r\n\r\n5,A,1\n' >"$faulty/stimuli.csv"
    in_words "stimuli.csv, line 5: the netlist hasn't this net: A" "$clocked" --clock 2:4 --stimuli stimuli.csv
    printf 'net,first,period\nQ,1,2\n' >"$faulty/clocks.csv"
    in_words "clocks.csv, line 2: the netlist hasn't this net: Q" "$clocked" --clock 2:4 --clocks clocks.csv
    printf 'by,name,delay\nnet,y,2\nnet,y,3\n' >"$faulty/delays.csv"
    in_words "delays.csv, line 3: an earlier row is about the same: net,y,3" "$clocked" --clock 2:4 --delays delays.csv
    printf 'net;first;period\n' >"$faulty/clocks.csv"
    in_words "clocks.csv, line 1: not the table's header: net;first;period; it has to be net,first,period" "$clocked" --clock 2:4 --clocks clocks.csv
    printf 'net,value\nq,0\ny,1\n' >"$faulty/initial.csv"
    in_words "initial.csv, line 3: the net isn't driven by a flip-flop: y" "$clocked" --clock 2:4 --initial initial.csv
    in_words "nets, line 4: no net has this name: Y" "$clocked" --clock 2:4 --only nets
    in_words '.: Is a directory (os error 21)' "$clocked" --clock 2:4 --stimuli .
    local said
    said=$("$program" run --horizon 10 --explain 2>&1 >/dev/null </dev/null)
    if [ "$said" = "cmbsim: the netlist has no nets, so its waveforms have none, and some viewers refuse to open them" ]; then
        passed=$((passed + 1))
    else
        failed=$((failed + 1))
        echo "end to end: an empty netlist in words FAILED: $said"
    fi
}

# shared WORDS..: a run with so much to write that threads share it, told as it is by one
shared() {
    if [ "$(long "$@")" = "$one" ]; then
        passed=$((passed + 1))
    else
        failed=$((failed + 1))
        echo "end to end: a long run $* FAILED"
    fi
}

# long WORDS..: the sum of the text of a long run of the circuit in $cases.long, whose horizon stands first among its options
long() {
    local options
    read -r -a options <"$cases.long/options"
    "$program" run --horizon "$horizon" "${options[@]:2}" --clocks "$cases.long/clocks.csv" --stimuli "$cases.long/stimuli.csv" "$@" \
        <"$cases.long/netlist.bench" | cksum
}

# shared_out CIRCUIT HORIZON: a circuit of the benchmarks by one thread and by several
shared_out() {
    horizon=$2
    mkdir -p "$cases.long"
    rm -f "$cases.long"/*
    bench/circuits.py write "$1" "$cases.long"
    touch "$cases.long/clocks.csv" "$cases.long/stimuli.csv"
    one=$(long)
    shared --mode free
    for threads in 2 4 64; do
        shared --threads "$threads"
        shared --mode free --threads "$threads"
    done
}

# early THREADS: mode free writes the text of that run while it runs: the memory that it takes holds less than half of the text
early() {
    local told bytes memory
    told=$(long --mode free --threads "$1" --stats 2>&1)
    bytes=$(sed -n 's/ *\([0-9]*\)  bytes written/\1/p' <<<"$told")
    memory=$(sed -n 's/ *\([0-9]*\)  KB of memory at most/\1/p' <<<"$told")
    if [ -n "$memory" ] && [ $((2 * 1024 * memory)) -lt "${bytes:-0}" ]; then
        passed=$((passed + 1))
    else
        failed=$((failed + 1))
        echo "end to end: text by $1 threads comes at the end, FAILED: $bytes bytes, $memory KB"
    fi
}

# told_besides WANT WORDS..: of the inverter's run this is on standard error, its times left out, and the text is what it is without these words
told_besides() {
    local want=$1 said
    shift
    said=$("$program" run --horizon 1000 "$@" 2>&1 >"$faulty/told.vcd" <"$examples/inverter/netlist.bench" | grep -v "seconds\|memory")
    "$program" run --horizon 1000 >"$faulty/plain.vcd" 2>&1 <"$examples/inverter/netlist.bench"
    if [ "$said" = "$want" ] && cmp -s "$faulty/told.vcd" "$faulty/plain.vcd"; then
        passed=$((passed + 1))
    else
        failed=$((failed + 1))
        echo "end to end: $* FAILED: $said"
    fi
}

told_meanwhile() {
    local wipe=$'\r\e[K' stats
    stats=$(printf '%16d  %s\n' 2 nets 1000 ticks 2 'changes, with the levels at tick 0' 174 'bytes written')
    told_besides "$stats" --stats
    told_besides "$stats" --stats --mode plain
    told_besides "${wipe}cmbsim: tick 1000 of 1000, 2 changes$wipe" --progress
    told_besides "${wipe}cmbsim: tick 1000 of 1000, 2 changes$wipe" --progress --mode rounds
    told_besides "" --mode free
}

[ -x "$program" ] || echo "end to end: the real designs need a built program, and there is no $program: run make build"
if scripts/fault_tables.py "$program" --check; then
    passed=$((passed + 1))
else
    failed=$((failed + 1))
    echo "end to end: the table of faults FAILED"
fi
told_of_netlists
told_of_settings
told_of_tables
told_of_the_machine
told_of_lists
told_of_no_memory
told_in_words
told_meanwhile
if scripts/chosen_cases.py --random 30 "$program" "$examples"/*; then
    passed=$((passed + 1))
else
    failed=$((failed + 1))
    echo "end to end: chosen nets FAILED"
fi
if scripts/activity_cases.py --times 1 --random 30 "$program" "$examples"/*; then
    passed=$((passed + 1))
else
    failed=$((failed + 1))
    echo "end to end: activities FAILED"
fi
if scripts/expect_cases.py --times 2 --random 30 "$program" "$examples"/*; then
    passed=$((passed + 1))
else
    failed=$((failed + 1))
    echo "end to end: expectations FAILED"
fi
for netlist in "$examples"/*/netlist.bench; do
    looped "$(basename "$(dirname "$netlist")")"
done
on_full_disk run --horizon 10
on_full_disk activity --horizon 10
on_full_disk --help
on_full_disk --version
real aes128 --mode plain
real processor --mode plain
for name in aes128 sha256 processor; do
    real "$name"
    real "$name" --mode rounds --workers 2 --clusters 2
    real "$name" --mode free
    real "$name" --threads 4
    real "$name" --mode free --workers 2 --clusters 2
done
outputs processor
outputs processor --mode free
as_expected processor
as_expected processor --mode free
as_expected processor --mode plain
# The first row, one in between, and the one by which the processor has halted.
turned processor 2
turned processor 40 --mode plain
turned processor 80 --mode free
# Some 120 MB of text. None of the registers reads another.
shared_out "600 LFSRs of 16" 24000
# By one engine, by a team, and by shares.
for threads in 1 2 4 64; do
    early "$threads"
done
# Its parts read one another, so that each thread is given nets of those before it.
shared_out "clocked, local" 9000
# It has no flip-flops, so its nets aren't shared out: with four threads one has the engine, and all make its 45 MB of text.
shared_out "multiplier 104" 5024
tried_cases
echo "$passed passed, $failed failed"
[ "$failed" = 0 ]
