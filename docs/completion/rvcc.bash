# Completion of the words of rvcc and rvcc-view for bash: source it, or keep it as share/bash-completion/completions/rvcc.

_rvcc_words() {
    local command=$1 kind=$2
    case $kind:$command in
        rvcc:) echo 'build run interp check session gen' ;;
        rvcc:build) echo '--recipe --code --workers --report' ;;
        rvcc:session) echo '--recipe --code --workers' ;;
        rvcc:check) echo '--code' ;;
        rvcc:run) echo '--steps' ;;
        rvcc:interp) echo '--bound' ;;
        rvcc-view:) echo 'graph steps listing explain' ;;
        rvcc-view:graph) echo '--recipe --function --after --form' ;;
        rvcc-view:steps | rvcc-view:listing | rvcc-view:explain) echo '--recipe' ;;
    esac
}

_rvcc() {
    local word=${COMP_WORDS[COMP_CWORD]} before=${COMP_WORDS[COMP_CWORD - 1]} command= kind=${1##*/} given=
    [ "$COMP_CWORD" -lt 2 ] || command=${COMP_WORDS[1]}
    COMPREPLY=()
    # `--option=value` is three words here.
    if [ "$word" = = ]; then word=; elif [ "$before" = = ]; then before=${COMP_WORDS[COMP_CWORD - 2]}; fi
    case $before in
        --recipe)
            # The names that were given, up to the last comma, and one more.
            case $word in *,*) given=${word%,*}, ;; esac
            COMPREPLY=($(compgen -P "$given" -W 'fold cne dne inv psh pll ivt url iln' -- "${word##*,}"))
            [ -n "$given" ] || COMPREPLY+=($(compgen -W none -- "$word"))
            compopt -o nospace 2>/dev/null
            ;;
        --code) COMPREPLY=($(compgen -W 'plain tight' -- "$word")) ;;
        --report) COMPREPLY=($(compgen -W 'count log' -- "$word")) ;;
        --form) COMPREPLY=($(compgen -W 'dot rows' -- "$word")) ;;
        --workers | --steps | --bound | --after | --function) ;;
        *)
            if [ -z "$command" ] || [ "${word#-}" != "$word" ]; then
                COMPREPLY=($(compgen -W "$(_rvcc_words "$command" "$kind")" -- "$word"))
            else
                compopt -o filenames 2>/dev/null
                COMPREPLY=($(compgen -f -- "$word"))
            fi
            ;;
    esac
}
complete -F _rvcc rvcc rvcc-view
