#compdef cmbsim
# Completions of cmbsim's line for zsh, made by scripts/command_texts.py; `make install` puts them where zsh looks.

_cmbsim() {
    local curcontext=$curcontext state line
    local -a commands faults
    typeset -A opt_args
    commands=(
        'run:Reads a netlist from standard input and writes a value change dump (VCD) to standard output'
        'activity:Reads what run would simulate, and writes how active each net is, as comma-separated values'
        'expect:Reads what run would simulate, and writes which of the expected levels come otherwise'
        'check:Reads what run would simulate, and counts its nets, gates, flip-flops, clocks and rows'
        'explain:Says what a fault means and what to do about it; without N it lists all faults'
        'help:Prints the help of a command'
    )
    faults=(
        '1:a byte that no netlist has'
        '2:not a statement'
        '3:not a kind'
        '4:too many operands'
        '5:driven twice'
        '6:not driven'
        '7:too many nets'
        '8:a name that is too long'
        '20:the horizon isn'\''t 1 to 1,000,000'
        '21:the common clock'\''s first tick is above 1,000,000, or its period isn'\''t 1 to 1,000,000'
        '22:a flip-flop has no clock row, and there is no common clock'
        '23:not the table'\''s header'
        '24:not as many fields as the header'
        '25:a number is 1 to 10 digits'
        '26:the netlist hasn'\''t this net'
        '27:no such kind'
        '28:the delay isn'\''t 1 to 1,000,000'
        '29:an earlier row is about the same'
        '30:the net isn'\''t an input'
        '31:a value is 0, 1, x or X'
        '32:an input has no delay'
        '33:the table of all levels would have more than 16,777,216 cells'
        '34:a pin'\''s name is a net'\''s name, a colon and a number'
        '35:the net has no such pin'
        '36:the first tick is above 1,000,000, or the period isn'\''t 1 to 1,000,000'
        '37:the net isn'\''t driven by a flip-flop'
        '38:no net has this name'
        '39:the tick isn'\''t below the horizon'
        '40:the number of clusters isn'\''t from 1 to 64'
        '53:the run was stopped'
        '54:the number of workers isn'\''t from 1 to 64'
        '60:more than 16,777,216 bytes'
        '61:couldn'\''t be read'
        '62:the output failed'
        '70:out of memory'
    )
    _arguments -C \
        '(- *)'{-h,--help}'[Print help (see more with '\''--help'\'')]' \
        '(- *)'{-V,--version}'[Print version]' \
        '1: :->command' '*:: :->rest'
    case $state in
        command) _describe -t commands command commands ;;
        rest)
            case $words[1] in
                run)
                    _arguments \
                        '--horizon[Simulates the ticks 0 to N-1, N from 1 to 1,000,000]:N: ' \
                        '--clock[Flip-flops sample at ticks F, F+P ..; F is at most 1,000,000, P 1 to 1,000,000]:F\:P: ' \
                        '--init[First level of each flip-flop]:LEVEL:(0 1 x)' \
                        '--delays[Table of delays in ticks; a pin without a row has a delay of 1]:FILE:_files' \
                        '--stimuli[Table of the levels of inputs; an input is x before its first row]:FILE:_files' \
                        '--clocks[Table of when single flip-flops sample, in the place of --clock]:FILE:_files' \
                        '--initial[Table of the first levels of single flip-flops, in the place of --init]:FILE:_files' \
                        '--explain[Says a fault in words too, with its file and its line or record]' \
                        '--no-explain[Says a fault by its one line alone, on a terminal too]' \
                        '--mode[How the text is made, and when it is written]:MODE:(rounds free plain)' \
                        '--threads[Threads that share the work as it pays, 1 to 64]:N: ' \
                        '--workers[Or, in a short run\: workers with nets of their own, 1 to 64]:W: ' \
                        '--clusters[Clusters of nets that workers share out, 1 to 64]:K: ' \
                        '--only[Writes only the nets whose names are in this file, one a line]:FILE:_files' \
                        '--only-outputs[Writes only the nets that OUTPUT statements name]' \
                        '--scopes[Parts names at dots into modules, and declares led\[3\] as bit 3 of the bus led]' \
                        '--progress[Shows meanwhile how far the text is; selects mode free unless --mode is given]' \
                        '--stats[Reports at the end, on standard error, what the run took]' \
                        '(- *)'{-h,--help}'[Print help (see more with '\''--help'\'')]'
                    ;;
                activity)
                    _arguments \
                        '--horizon[Simulates the ticks 0 to N-1, N from 1 to 1,000,000]:N: ' \
                        '--clock[Flip-flops sample at ticks F, F+P ..; F is at most 1,000,000, P 1 to 1,000,000]:F\:P: ' \
                        '--init[First level of each flip-flop]:LEVEL:(0 1 x)' \
                        '--delays[Table of delays in ticks; a pin without a row has a delay of 1]:FILE:_files' \
                        '--stimuli[Table of the levels of inputs; an input is x before its first row]:FILE:_files' \
                        '--clocks[Table of when single flip-flops sample, in the place of --clock]:FILE:_files' \
                        '--initial[Table of the first levels of single flip-flops, in the place of --init]:FILE:_files' \
                        '--explain[Says a fault in words too, with its file and its line or record]' \
                        '--no-explain[Says a fault by its one line alone, on a terminal too]' \
                        '--mode[How the text is made, and when it is written]:MODE:(rounds free plain)' \
                        '--threads[Threads that share the work as it pays, 1 to 64]:N: ' \
                        '--workers[Or, in a short run\: workers with nets of their own, 1 to 64]:W: ' \
                        '--clusters[Clusters of nets that workers share out, 1 to 64]:K: ' \
                        '--only[Writes only the nets whose names are in this file, one a line]:FILE:_files' \
                        '--only-outputs[Writes only the nets that OUTPUT statements name]' \
                        '(- *)'{-h,--help}'[Print help (see more with '\''--help'\'')]'
                    ;;
                expect)
                    _arguments \
                        '--horizon[Simulates the ticks 0 to N-1, N from 1 to 1,000,000]:N: ' \
                        '--clock[Flip-flops sample at ticks F, F+P ..; F is at most 1,000,000, P 1 to 1,000,000]:F\:P: ' \
                        '--init[First level of each flip-flop]:LEVEL:(0 1 x)' \
                        '--delays[Table of delays in ticks; a pin without a row has a delay of 1]:FILE:_files' \
                        '--stimuli[Table of the levels of inputs; an input is x before its first row]:FILE:_files' \
                        '--clocks[Table of when single flip-flops sample, in the place of --clock]:FILE:_files' \
                        '--initial[Table of the first levels of single flip-flops, in the place of --init]:FILE:_files' \
                        '--explain[Says a fault in words too, with its file and its line or record]' \
                        '--no-explain[Says a fault by its one line alone, on a terminal too]' \
                        '--mode[How the text is made, and when it is written]:MODE:(rounds free plain)' \
                        '--threads[Threads that share the work as it pays, 1 to 64]:N: ' \
                        '--workers[Or, in a short run\: workers with nets of their own, 1 to 64]:W: ' \
                        '--clusters[Clusters of nets that workers share out, 1 to 64]:K: ' \
                        '--expected[Table of the levels that nets are expected to have at ticks]:FILE:_files' \
                        '(- *)'{-h,--help}'[Print help (see more with '\''--help'\'')]'
                    ;;
                check)
                    _arguments \
                        '--horizon[Simulates the ticks 0 to N-1, N from 1 to 1,000,000]:N: ' \
                        '--clock[Flip-flops sample at ticks F, F+P ..; F is at most 1,000,000, P 1 to 1,000,000]:F\:P: ' \
                        '--init[First level of each flip-flop]:LEVEL:(0 1 x)' \
                        '--delays[Table of delays in ticks; a pin without a row has a delay of 1]:FILE:_files' \
                        '--stimuli[Table of the levels of inputs; an input is x before its first row]:FILE:_files' \
                        '--clocks[Table of when single flip-flops sample, in the place of --clock]:FILE:_files' \
                        '--initial[Table of the first levels of single flip-flops, in the place of --init]:FILE:_files' \
                        '--explain[Says a fault in words too, with its file and its line or record]' \
                        '--no-explain[Says a fault by its one line alone, on a terminal too]' \
                        '--all[Names all that is counted, and not the first twenty alone]' \
                        '(- *)'{-h,--help}'[Print help (see more with '\''--help'\'')]'
                    ;;
                explain) (( CURRENT == 2 )) && _describe -t faults fault faults ;;
                help)
                    commands=(${commands:#help:*})
                    (( CURRENT == 2 )) && _describe -t commands command commands
                    ;;
            esac
            ;;
    esac
}

_cmbsim "$@"
