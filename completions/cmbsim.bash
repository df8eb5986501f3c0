# Completions of cmbsim's line for bash, made by scripts/command_texts.py; `make install` puts them where bash-completion looks.

_cmbsim() {
    local current=${COMP_WORDS[COMP_CWORD]} before=${COMP_WORDS[COMP_CWORD - 1]} words=
    case $COMP_CWORD:$before in
        1:*) words="run activity expect check explain help -h --help -V --version" ;;
        2:explain) words="1 2 3 4 5 6 7 8 20 21 22 23 24 25 26 27 28 29 30 31 32 33 34 35 36 37 38 39 40 53 54 60 61 62 70 -h --help" ;;
        2:help) words="run activity expect check explain" ;;
        *:--init) words="0 1 x" ;;
        *:--mode) words="rounds free plain" ;;
        *:--delays | *:--stimuli | *:--clocks | *:--initial | *:--only | *:--expected)
            mapfile -t COMPREPLY < <(compgen -f -- "$current")
            return
            ;;
        *:--horizon | *:--clock | *:--threads | *:--workers | *:--clusters) ;;
        *)
            case ${COMP_WORDS[1]} in
                run) words="--horizon --clock --init --delays --stimuli --clocks --initial --explain --no-explain --mode --threads --workers --clusters --only --only-outputs --scopes --progress --stats -h --help" ;;
                activity) words="--horizon --clock --init --delays --stimuli --clocks --initial --explain --no-explain --mode --threads --workers --clusters --only --only-outputs -h --help" ;;
                expect) words="--horizon --clock --init --delays --stimuli --clocks --initial --explain --no-explain --mode --threads --workers --clusters --expected -h --help" ;;
                check) words="--horizon --clock --init --delays --stimuli --clocks --initial --explain --no-explain --all -h --help" ;;
                explain) words="-h --help" ;;
            esac
            ;;
    esac
    mapfile -t COMPREPLY < <(compgen -W "$words" -- "$current")
}

complete -o filenames -o bashdefault -F _cmbsim cmbsim
