# Completions of protoscan for fish: a file, and then a path.
complete -c protoscan -f
complete -c protoscan -n 'test (count (commandline -opc)) -eq 1' \
    -k -a '(__fish_complete_suffix .proto)'
