# Completions of ibclab for bash. `source docs/completions/ibclab.bash` has bash know them; in
# /usr/share/bash-completion/completions/ibclab it finds them by itself.
_ibclab() {
    local word=${COMP_WORDS[COMP_CWORD]} options="--help --version"
    COMPREPLY=()
    case ${COMP_WORDS[1]} in
        explain) options="--json --race $options" ;;
        draw) options="--html --mermaid $options" ;;
        sim) options="--seed --steps --chains --window --race --out --replay $options" ;;
    esac
    if [[ $word == -* ]]; then
        mapfile -t COMPREPLY < <(compgen -W "$options" -- "$word")
    elif [ "$COMP_CWORD" -eq 1 ]; then
        mapfile -t COMPREPLY < <(compgen -W "check explain draw sim help $options" -- "$word")
    elif [[ " check explain draw sim " == *" ${COMP_WORDS[1]} "* ]]; then
        compopt -o filenames
        mapfile -t COMPREPLY < <(compgen -f -X '!*.json' -- "$word"; compgen -d -- "$word")
    elif [ "${COMP_WORDS[1]}" = help ]; then
        mapfile -t COMPREPLY < <(compgen -W "check explain draw sim" -- "$word")
    fi
}
complete -F _ibclab ibclab
