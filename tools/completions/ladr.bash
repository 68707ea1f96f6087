# Completion of ladr's words in bash: `source tools/completions/ladr.bash`, or a copy named `ladr` in
# ~/.local/share/bash-completion/completions.

_ladr() {
    local word=${COMP_WORDS[COMP_CWORD]} before=${COMP_WORDS[COMP_CWORD - 1]} options="" option
    COMPREPLY=()
    case $before in
        "<" | ">" | ">>")
            compopt -o filenames 2> /dev/null
            mapfile -t COMPREPLY < <(compgen -f -- "$word")
            return
            ;;
        -n | -N | -m | -t) return ;;
    esac
    if ((COMP_CWORD == 1)); then
        options="prover9 mace4 check clausetester made"
    else
        # Each option once.
        case ${COMP_WORDS[1]} in
            mace4) options="-n -N -m -t" ;;
            prover9) options="-t" ;;
            clausetester) options="--filter" ;;
        esac
        for option in "${COMP_WORDS[@]:2:COMP_CWORD - 2}"; do
            [[ $option == -? || $option == --filter ]] && options=" $options " && options=${options/" $option "/ }
        done
    fi
    mapfile -t COMPREPLY < <(compgen -W "$options" -- "$word")
}

complete -F _ladr ladr
