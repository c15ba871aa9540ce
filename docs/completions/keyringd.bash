# Completion of the words of keyringd(1) for bash: source it, or install it as completions/keyringd of bash-completion.
_keyringd() {
    local word=${COMP_WORDS[COMP_CWORD]} before=${COMP_WORDS[COMP_CWORD - 1]} options=
    COMPREPLY=()
    if ((COMP_CWORD == 1)); then
        mapfile -t COMPREPLY < <(compgen -W 'serve stdio load check' -- "$word")
        return
    fi
    case ${COMP_WORDS[1]} in
    serve) options='--uid --connections --until-eof' ;;
    check) options=--password ;;
    load) return ;;
    esac
    case $before in
    --uid)
        mapfile -t COMPREPLY < <(compgen -W "$(id -u)" -- "$word")
        return
        ;;
    --connections) return ;;
    esac
    if [[ $word == -* ]]; then
        mapfile -t COMPREPLY < <(compgen -W "$options" -- "$word")
    elif [[ ${COMP_WORDS[1]} == stdio ]] && ((COMP_CWORD == 3)); then
        mapfile -t COMPREPLY < <(compgen -W "$(id -u)" -- "$word")
    else
        compopt -o filenames
        mapfile -t COMPREPLY < <(compgen -f -- "$word")
    fi
}
complete -F _keyringd keyringd
