# Completions of protoscan for bash: the first word is a .proto file; the second is no file.
_protoscan() {
    local word=${COMP_WORDS[COMP_CWORD]}
    COMPREPLY=()
    if [ "$COMP_CWORD" -eq 1 ]; then
        mapfile -t COMPREPLY < <(
            compgen -f -X '!*.proto' -- "$word"
            compgen -d -- "$word"
        )
    fi
}
complete -o filenames -F _protoscan protoscan
