#!/usr/bin/env bash
# from_verilog.sh [OPTIONS] TOP FOLDER FILE.. [-- WORDS..]: has yosys make simple gates and plain flip-flops of the module TOP in these
# files of Verilog, and makes of them what from_yosys.py leaves in FOLDER. The words are further ones for from_yosys.py, as --clock clk=9:10.
#
#   --sv            the files are SystemVerilog
#   --liberty FILE  the cells that a netlist is mapped to are in this library
#   --async         flip-flops may have asynchronous resets, sets and loads; the register then waits for the next sample
#   --zero-init     registers begin as the source says, and with 0 where it says nothing
#   --latches       latches become loops of gates; data have to settle two ticks before one closes
#   --fsm           yosys may give the states of state machines other codes
#   --help          this text
set -euo pipefail
tools=$(dirname "$0")

wrong() { # wrong WORDS..: the line is wrong
    echo "from_verilog.sh: $*: from_verilog.sh [OPTIONS] TOP FOLDER FILE.. [-- WORDS..], and --help helps" >&2
    exit 2
}

language=verilog
liberty=
async=
zero=
latches=
fsm=-nofsm
while [[ "${1:-}" == --* ]]; do
    case $1 in
        --sv) language="verilog -sv" ;;
        --liberty)
            [ $# -gt 1 ] || wrong "--liberty needs a file"
            liberty=$2
            shift
            ;;
        --async) async="async2sync t:\$_DFF* t:\$_ALDFF*" ;;
        --zero-init) zero="zinit -all" ;;
        --latches) latches=yes ;;
        --fsm) fsm= ;;
        --help) sed -n '2,/^[^#]/s/^# \{0,1\}//p' "$0" && exit ;;
        *) wrong "there is no option $1" ;;
    esac
    shift
done
[ $# -ge 3 ] || wrong "give the top module, a folder for the files, and the Verilog files"
top=$1
folder=$2
shift 2
files=()
while [ $# -gt 0 ] && [ "$1" != -- ]; do
    [ -f "$1" ] || wrong "there is no file $1"
    files+=("$1")
    shift
done
command -v yosys >/dev/null || { echo "from_verilog.sh: yosys isn't installed" >&2 && exit 2; }
room=$(mktemp -d)
trap 'rm -rf "$room"' EXIT
library=
if [ -n "$liberty" ]; then
    [ -f "$liberty" ] || wrong "there is no file $liberty"
    cp "$liberty" "$room/cells.lib"
    library="read_liberty \"$room/cells.lib\""
fi
# With D & Q the output holds while E changes, and d is late, so that data may change as E does. This comes behind abc, which would leave it out.
cat >"$room/latches.v" <<'LATCHES'
module \$_DLATCH_P_ (input E, D, output Q); wire d = ~(~D); assign Q = (E & d) | (~E & Q) | (d & Q); endmodule
module \$_DLATCH_N_ (input E, D, output Q); wire d = ~(~D); assign Q = (~E & d) | (E & Q) | (d & Q); endmodule
LATCHES
gates=${latches:+"techmap -map \"$room/latches.v\"; simplemap"}
# -script has abc make short paths; without it abc looks for few gates first.
yosys -q -f "$language" -p "$library
design -push-copy; hierarchy -check -top $top; proc; flatten; write_json \"$room/source.json\"; design -pop
synth -flatten -noabc $fsm -top $top; $async; dffunmap; $zero; write_json \"$room/gates.json\"
abc -g AND,NAND,OR,NOR,XOR,XNOR -script +strash;dch;map
$gates
opt_clean; write_json \"$room/design.json\"" -- "${files[@]}"
[ -z "$async" ] || echo "--async: a reset shows at once, by a gate, and the register takes it at its next sample: so a reset has to hold over one"
[ -z "$zero" ] || echo "--zero-init: registers for which the source says nothing begin with 0, where Verilog has x"
"$tools/from_yosys.py" --source "$room/source.json" --before-abc "$room/gates.json" "${@:2}" "$room/design.json" "$folder"
