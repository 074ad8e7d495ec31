# Completions of optplan for bash: source this file, or put it into /usr/share/bash-completion/completions/optplan.

_optplan() {
    local current=${COMP_WORDS[COMP_CWORD]} previous=${COMP_WORDS[COMP_CWORD-1]} command=${COMP_WORDS[1]} options
    COMPREPLY=()
    if ((COMP_CWORD == 1)); then
        COMPREPLY=($(compgen -W 'solve validate check explain help --help --version' -- "$current"))
        return
    fi
    case $command in
        solve) options='--plan --cert --states --instances --seconds --cert-version --json --progress --help' ;;
        validate) options='--json --help' ;;
        check) options='--plan --instances --json --progress --help' ;;
        explain) options='--trace --cert --plan --instances --json --help' ;;
        help) COMPREPLY=($(compgen -W 'solve validate check explain' -- "$current")); return ;;
        *) return ;;
    esac
    case $previous in
        --states|--instances|--seconds) return ;;
        --cert-version) COMPREPLY=($(compgen -W '2 3 4' -- "$current")); return ;;
        --plan|--cert) COMPREPLY=($(compgen -f -- "$current")); return ;;
    esac
    if [[ $current == -* ]]; then
        COMPREPLY=($(compgen -W "$options" -- "$current"))
    else
        COMPREPLY=($(compgen -f -- "$current"))
    fi
}

complete -o filenames -F _optplan optplan
