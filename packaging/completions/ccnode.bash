# Completion of ccnode for bash: subcommands, their options, the commands of `ask`, and folders.

# The words that a subcommand has besides its options, by how many stand before it.
_ccnode_places() {
    case $1:$2 in
        format:0 | run:0 | dump:0) compgen -d -- "$3" ;;
        ask:2) compgen -W 'store collect snapshot max readmax flag readflag add readset' -- "$3" ;;
    esac
}

_ccnode_options() {
    case $1 in
        format) echo '--initial --contacts --beta --gamma --share --cluster --help' ;;
        run) echo '--listen --listen-clients --operators --speaks --peers --peers-file --status --http --http-sessions --http-origin --log --help' ;;
        ask) echo '--text --request --timeout --wait --snapshot --status --json --help' ;;
        status) echo '--json --watch --help' ;;
        load) echo '--clients --seconds --collects --sessions-from --json --help' ;;
        dump) echo '--node --help' ;;
        retire) echo '--peers-file --alive --help' ;;
        leave | share | play) echo '--help' ;;
        '') echo '--help --version' ;;
    esac
}

# The words are those between blanks: bash itself would take an address apart at its colon.
_ccnode() {
    local line=${COMP_LINE:0:COMP_POINT} words word before subcommand='' places=0 at
    read -ra words <<< "$line"
    [[ $line == *' ' ]] && words+=('')
    word=${words[-1]} before=${words[-2]}
    for ((at = 1; at < ${#words[@]} - 1; at++)); do
        case ${words[at]} in
            --initial | --contacts | --beta | --gamma | --share | --cluster | --listen | --peers | --peers-file) ((at++)) ;;
            --listen-clients | --operators | --speaks | --status | --http | --http-sessions | --http-origin | --log | --text | --request | --timeout) ((at++)) ;;
            --clients | --seconds | --sessions-from) ((at++)) ;;
            -*) ;;
            *) if [[ -z $subcommand ]]; then subcommand=${words[at]}; else ((places++)); fi ;;
        esac
    done
    COMPREPLY=()
    case $before in
        --initial | --contacts | --beta | --gamma | --share | --cluster | --listen | --peers) return ;;
        --listen-clients | --status | --text | --request | --timeout) return ;;
        --clients | --seconds | --sessions-from) return ;;
        --operators) mapfile -t COMPREPLY < <(compgen -W 'on off' -- "$word"); return ;;
        --speaks) mapfile -t COMPREPLY < <(compgen -W 'now 0.1' -- "$word"); return ;;
        --log) mapfile -t COMPREPLY < <(compgen -W 'error warn info debug' -- "$word"); return ;;
        --peers-file) mapfile -t COMPREPLY < <(compgen -f -- "$word"); return ;;
    esac
    if [[ $word == -* ]]; then
        mapfile -t COMPREPLY < <(compgen -W "$(_ccnode_options "$subcommand")" -- "$word")
    elif [[ -z $subcommand ]]; then
        mapfile -t COMPREPLY < <(compgen -W 'play format run ask status load leave retire share dump' -- "$word")
    else
        mapfile -t COMPREPLY < <(_ccnode_places "$subcommand" "$places" "$word")
    fi
}

complete -F _ccnode ccnode
