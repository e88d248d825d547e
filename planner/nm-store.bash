# Completion of nm-store for bash: the store, the commands, their options, and documents.
_nm_store() {
    local word=${COMP_WORDS[COMP_CWORD]} before=${COMP_WORDS[COMP_CWORD - 1]} command=${COMP_WORDS[2]}
    local commands="new file revise redate withdraw try model object timeline projects log summary chart check canon"
    case ${COMP_WORDS[1]} in check | canon) command=${COMP_WORDS[1]} ;; esac
    COMPREPLY=()
    if [ "$COMP_CWORD" -eq 1 ]; then
        mapfile -t COMPREPLY < <(compgen -W "check canon --help" -- "$word"; compgen -f -- "$word")
    elif [ "$COMP_CWORD" -eq 2 ] && [ "$command" = "${COMP_WORDS[2]}" ]; then
        mapfile -t COMPREPLY < <(compgen -W "$commands" -- "$word")
    elif [ "$before" = -o ]; then
        mapfile -t COMPREPLY < <(compgen -f -- "$word")
    elif [[ $word == -* ]]; then
        case $command in
            new | file | revise | redate | withdraw | try | check) mapfile -t COMPREPLY < <(compgen -W "--json --help" -- "$word") ;;
            *) mapfile -t COMPREPLY < <(compgen -W "-o --json --help" -- "$word") ;;
        esac
    else
        case $command in
            new | file | revise | try | check | canon) mapfile -t COMPREPLY < <(compgen -f -- "$word") ;;
        esac
    fi
}
complete -o filenames -F _nm_store nm-store
