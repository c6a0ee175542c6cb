# Completion of pgn_conform for bash: source this file, or put it into
# ~/.local/share/bash-completion/completions/ under the name pgn_conform.
_pgn_conform() {
    local word=${COMP_WORDS[COMP_CWORD]} i at=1
    COMPREPLY=()
    # behind the converter all words are its own
    while ((at < COMP_CWORD)) && [[ ${COMP_WORDS[at]} == -?* ]]; do
        case ${COMP_WORDS[at]} in
            --) break ;;
            --full | --reduced | --counts | --refusal | --show | --theme | --seconds | --files)
                ((at += 1))
                ;;
        esac
        ((at += 1))
    done
    if ((at > COMP_CWORD)) && [[ ${COMP_WORDS[COMP_CWORD - 1]} != --files ]]; then
        return
    fi
    if ((at == COMP_CWORD)) && [[ $word == -* ]]; then
        while IFS= read -r i; do
            COMPREPLY+=("$i")
        done < <(compgen -W '-h --help --version --full --reduced --counts --refusal --list
            --show --theme --seconds --files --record' -- "$word")
        return
    fi
    compopt -o filenames 2>/dev/null
    while IFS= read -r i; do
        COMPREPLY+=("$i")
    done < <(compgen -f -- "$word")
}
complete -F _pgn_conform pgn_conform
