# Completion of the words of secret_tool(1) for bash: source it, or install it as completions/secret_tool of bash-completion.
_secret_tool() {
    local word=${COMP_WORDS[COMP_CWORD]}
    COMPREPLY=()
    case $COMP_CWORD in
    1)
        compopt -o filenames
        mapfile -t COMPREPLY < <(compgen -f -- "$word")
        ;;
    2) mapfile -t COMPREPLY < <(compgen -W "$(id -u)" -- "$word") ;;
    3) mapfile -t COMPREPLY < <(compgen -W 'store lookup search clear lock' -- "$word") ;;
    esac
}
complete -F _secret_tool secret_tool
