# Completion of pgn_tool for bash: source this file, or put it into
# ~/.local/share/bash-completion/completions/ under the name pgn_tool.
_pgn_tool() {
    local word=${COMP_WORDS[COMP_CWORD]} command= choices= i
    for ((i = 1; i < COMP_CWORD; i++)); do
        case ${COMP_WORDS[i]} in
            export | check | list | split) command=${COMP_WORDS[i]}; break ;;
        esac
    done
    case $command in
        '') choices='export check list split' ;;
    esac
    if [[ $word == -* ]]; then
        case $command in
            '') choices='-h --help -V --version' ;;
            export) choices='--reduced --checked -h --help' ;;
            *) choices='-h --help' ;;
        esac
    fi
    COMPREPLY=()
    if [[ -n $choices ]]; then
        while IFS= read -r i; do
            COMPREPLY+=("$i")
        done < <(compgen -W "$choices" -- "$word")
    else
        compopt -o filenames 2>/dev/null
        while IFS= read -r i; do
            COMPREPLY+=("$i")
        done < <(compgen -f -- "$word")
    fi
}
complete -F _pgn_tool pgn_tool
