# Completes the words of `pq` in bash. To use it: . tools/completion.bash
_pq() {
    local word=$2 before=$3 command=${COMP_WORDS[1]-} problem= options= given
    COMPREPLY=()
    # An option with = is three words to bash: its name, the sign and the value.
    if [ "$before" = = ]; then
        before=${COMP_WORDS[COMP_CWORD - 2]}
    elif [ "$word" = = ]; then
        word=
    fi
    for given in "${COMP_WORDS[@]:2}"; do
        case $given in knapsack | shop) problem=$given ;; esac
    done
    case $before in
        --queue)
            given='hunt plain'
            [ "$command" != drill ] || given=hunt
            COMPREPLY=($(compgen -W "$given" -- "$word"))
            return
            ;;
        --branching) COMPREPLY=($(compgen -W 'dispatch active' -- "$word")); return ;;
        --workers | --nodes | --capacity | --seed | --size) return ;;
    esac
    if [ "$COMP_CWORD" = 1 ]; then
        COMPREPLY=($(compgen -W 'solve bound check prove verify trace audit make drill' -- "$word"))
        return
    fi
    case $command in
        solve) options='--queue --workers --nodes --capacity' ;;
        prove) options='--queue --workers --nodes --capacity' ;;
        trace) options='--queue --capacity' ;;
        make) options='--seed --size' ;;
        drill) options='--queue --workers --seed --size' ;;
    esac
    case $command:$problem in solve:shop | bound:shop) options="--branching $options" ;; esac
    if [ -z "$problem" ]; then
        case $command in
            solve | bound | check | make) options="knapsack shop $options" ;;
            prove | verify) options="knapsack $options" ;;
        esac
    fi
    # Each option stands at most once.
    for given in "${COMP_WORDS[@]:2:COMP_CWORD-2}"; do
        options=" $options "
        options=${options/ ${given%%=*} / }
    done
    COMPREPLY=($(compgen -W "$options" -- "$word"))
}
complete -o default -F _pq pq
