# Completions of protolink for bash: options, folders behind -I, else .proto files and folders.
_protolink() {
    local options='-I --proto_path= -o --descriptor_set_out= --include_imports
        --include_source_info --dependency_out= --error_format= --fatal_warnings
        --version -h --help'
    local word=${COMP_WORDS[COMP_CWORD]} before=${COMP_WORDS[COMP_CWORD - 1]}
    # bash takes --proto_path=DIR as three words, and the second is "=".
    if [ "$word" = = ]; then
        word=
    elif [ "$before" = = ]; then
        before=${COMP_WORDS[COMP_CWORD - 2]}
    fi
    case $before:$word in
        -I:* | --proto_path:*) mapfile -t COMPREPLY < <(compgen -d -- "$word") ;;
        -o:* | --descriptor_set_out:* | --dependency_out:*)
            mapfile -t COMPREPLY < <(compgen -f -- "$word")
            ;;
        --error_format:*) mapfile -t COMPREPLY < <(compgen -W 'gcc msvs' -- "$word") ;;
        *:-*) mapfile -t COMPREPLY < <(compgen -W "$options" -- "$word") ;;
        *)
            mapfile -t COMPREPLY < <(
                compgen -f -X '!*.proto' -- "$word"
                compgen -d -- "$word"
            )
            ;;
    esac
    case ${COMPREPLY[*]} in *=) compopt -o nospace 2>/dev/null || true ;; esac
}
complete -o filenames -F _protolink protolink
