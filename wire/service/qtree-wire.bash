# Completion of qtree-wire for bash.
_qtree_wire() {
    local word=${COMP_WORDS[COMP_CWORD]} before=${COMP_WORDS[COMP_CWORD - 1]} name cards="" names=""
    local questions="show counts promise metrics status reload"
    for name in /sys/class/net/*; do cards+=" ${name##*/}"; done
    for name in /run/qtree-wire/*/socket; do [ -e "$name" ] && name=${name%/socket} && names+=" ${name##*/}"; done
    COMPREPLY=()
    case $before in
        -i) mapfile -t COMPREPLY < <(compgen -W "packet xdp" -- "$word") && return ;;
        -n | -p | -w | -o | -b) return ;;
        top | show | counts | promise | metrics | status | reload) mapfile -t COMPREPLY < <(compgen -W "$names" -- "$word") && return ;;
        --check) mapfile -t COMPREPLY < <(compgen -f -- "$word") && return ;;
    esac
    case $COMP_CWORD:$word in
        1:-*) mapfile -t COMPREPLY < <(compgen -W "--check --new --burst --help -i -n -p -w -o -b -k" -- "$word") ;;
        *:-*) mapfile -t COMPREPLY < <(compgen -W "-i -n -p -w -o -b -k" -- "$word") ;;
        1:*) mapfile -t COMPREPLY < <(compgen -W "top $questions $cards" -- "$word") ;;
        *) mapfile -t COMPREPLY < <(compgen -W "$cards" -- "$word" && compgen -f -- "$word") ;;
    esac
}
complete -o filenames -F _qtree_wire qtree-wire
