# Completion of gillspoon for bash: source this file, or put it into
# ~/.local/share/bash-completion/completions/ under the name gillspoon.
_gillspoon() {
    local word=${COMP_WORDS[COMP_CWORD]} before=${COMP_WORDS[COMP_CWORD - 1]} offered i
    local files='--exclude -j --jobs' shared='-h --help --version'
    COMPREPLY=()
    case ${COMP_WORDS[1]}:$before in
        *:--color) offered='auto always never' ;;
        lint:--language) offered='de es fr it nl ru' ;;
        *:--exclude | *:-j | *:--jobs | lint:--max | lint:--select | lint:--ignore | \
            fmt:--stdin-name)
            return
            ;;
        *)
            if ((COMP_CWORD == 1)); then
                offered='lint fmt where sieve'
                [[ $word == -* ]] && offered=$shared
            elif [[ $word == -* ]]; then
                offered="$shared --color"
                case ${COMP_WORDS[1]} in
                    lint) offered+=" $files --board --json --sarif --quiet --verbose --strict
                        --statistics --checked --max --fix --diff --fixes --unsafe-fixes --select
                        --ignore --language" ;;
                    fmt) offered+=" $files -c --check -w --write -d --diff -o --output --drop
                        --stdin-name --reduced --checked" ;;
                    sieve) offered+=" $files --good --bad --checked" ;;
                esac
            fi
            ;;
    esac
    if [[ $offered ]]; then
        while IFS= read -r i; do
            COMPREPLY+=("$i")
        done < <(compgen -W "$offered" -- "$word")
    else
        compopt -o filenames 2>/dev/null
        while IFS= read -r i; do
            COMPREPLY+=("$i")
        done < <(compgen -f -- "$word")
    fi
}
complete -F _gillspoon gillspoon
