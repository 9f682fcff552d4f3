# Completions of protoparse for bash: options, folders behind -I, else .proto files and folders.
_protoparse() {
    local options='--check --outline --text --descriptor-set-out= -I --proto_path=
        --no-source-info --color -- -h --help -V --version'
    local word=${COMP_WORDS[COMP_CWORD]} before=${COMP_WORDS[COMP_CWORD - 1]}
    # bash takes --proto_path=DIR as three words, and the second is "=".
    if [ "$word" = = ]; then
        word=
    elif [ "$before" = = ]; then
        before=${COMP_WORDS[COMP_CWORD - 2]}
    fi
    case $before:$word in
        -I:* | --proto_path:*) mapfile -t COMPREPLY < <(compgen -d -- "$word") ;;
        --descriptor-set-out:*) mapfile -t COMPREPLY < <(compgen -f -- "$word") ;;
        *:-*) mapfile -t COMPREPLY < <(compgen -W "$options" -- "$word") ;;
        *)
            mapfile -t COMPREPLY < <(
                compgen -f -X '!*.proto' -- "$word"
                compgen -d -- "$word"
            )
            ;;
    esac
    case ${COMPREPLY[*]} in *=) compopt -o nospace 2>/dev/null || true ;; esac
}
complete -o filenames -F _protoparse protoparse
