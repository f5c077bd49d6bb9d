# Completion of roman's commands, of its tools and of file names for bash. It needs no other file.

_roman_files() {
    # Folders, and files whose names end so. All files if there are none.
    local ending IFS=$'\n'
    compopt -o filenames 2>/dev/null
    COMPREPLY+=($(compgen -d -- "$word"))
    for ending in "$@"; do
        COMPREPLY+=($(compgen -f -X "!*$ending" -- "$word"))
    done
    ((${#COMPREPLY[@]})) || COMPREPLY=($(compgen -f -- "$word"))
}

_roman() {
    local word=${COMP_WORDS[COMP_CWORD]}
    COMPREPLY=()
    case $COMP_CWORD:${COMP_WORDS[1]} in
        1:*) COMPREPLY=($(compgen -W "synth run certify check make resilience shortest advise" -- "$word")) ;;
        2:make) COMPREPLY=($(compgen -W "1 2 3 4 5 6 7 8 9 10" -- "$word")) ;;
        2:synth | 2:run | 2:certify | 2:check | 2:resilience | 2:shortest | 2:advise) _roman_files .json ;;
        3:run) _roman_files .session .txt ;;
        3:check) _roman_files .cert .txt ;;
        3:advise) _roman_files .costs .json ;;
    esac
}

_roman_tool() {
    local options word=${COMP_WORDS[COMP_CWORD]} before=${COMP_WORDS[COMP_CWORD - 1]}
    COMPREPLY=()
    case ${COMP_WORDS[0]} in
        *lint) options="--json --all --strict --program --no-program --help" ;;
        *expand) options="-o --map --costs --help" ;;
        *draw) options="--explanation --why --offers --all --first --text -o --dot --program --help" ;;
        *talk) options="--program --help" ;;
        *advice) options="--from --all --program --help" ;;
        *mend) options="--two --spare --program --help" ;;
    esac
    case $before:$word in
        -o:* | --map:* | --costs:* | --from:* | --program:* | --explanation:*) _roman_files "" ;;
        *:-*) COMPREPLY=($(compgen -W "$options" -- "$word")) ;;
        *.json:*) _roman_files .session .txt ;;
        *) _roman_files .json ;;
    esac
}

_roman_live() {
    local word=${COMP_WORDS[COMP_CWORD]} before=${COMP_WORDS[COMP_CWORD - 1]}
    local options="--check --simulate --verbose --help"
    COMPREPLY=()
    [ "$COMP_CWORD" = 1 ] && COMPREPLY=($(compgen -W "ask history" -- "$word"))
    [ "${COMP_WORDS[1]}" = ask ] && options="--key --help"
    [ "${COMP_WORDS[1]}" = history ] && options="--service --since --json --help"
    case $before:$word in
        --key:* | --service:* | --since:* | *.toml:*) ;;
        *:-*) COMPREPLY=($(compgen -W "$options" -- "$word")) ;;
        *) _roman_files .toml ;;
    esac
}

complete -F _roman roman ./roman
complete -F _roman_live roman-live
complete -F _roman_tool roman-lint roman-expand roman-draw roman-talk roman-advice roman-mend
