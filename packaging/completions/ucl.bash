# Completion for bash: what the help of the programs names, and else files.
_ucl() {
    local command=() line
    [[ $COMP_CWORD -lt 2 || ${COMP_WORDS[1]} = -* || $1 != *ucl_night ]] || command=("${COMP_WORDS[1]}")
    line=$("$1" "${command[@]}" --help 2>/dev/null | awk -v before="$3" -f "/usr/share/ucl-board/words.awk")
    mapfile -t COMPREPLY < <(compgen -W "$line" -- "$2")
}
complete -o default -F _ucl ucl_follow ucl_live ucl_night
