# Completion of keyringd-agent for bash.
_keyringd_agent() {
    local word=$2 previous=$3
    COMPREPLY=()
    case $previous in
        --socket | --password-file)
            compopt -o filenames
            mapfile -t COMPREPLY < <(compgen -f -- "$word") ;;
        --pinentry)
            mapfile -t COMPREPLY < <(compgen -c -- "$word" | grep '^pinentry' | sort -u) ;;
        --credential)
            [[ -d $CREDENTIALS_DIRECTORY ]] && mapfile -t COMPREPLY < <(cd "$CREDENTIALS_DIRECTORY" && compgen -f -- "$word") ;;
        --name | --timeout) ;;
        *)
            mapfile -t COMPREPLY < <(compgen -W '--socket --name --pinentry --timeout --password-file --credential --help' -- "$word") ;;
    esac
}
complete -F _keyringd_agent keyringd-agent
