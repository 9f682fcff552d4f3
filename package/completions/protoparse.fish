# Completions of protoparse for fish.
complete -c protoparse -f -k -a '(__fish_complete_suffix .proto)'
complete -c protoparse -l check -d 'Print only what is wrong'
complete -c protoparse -l outline -d 'Print the declarations'
complete -c protoparse -l text -d 'Print the descriptor in text format'
complete -c protoparse -l descriptor-set-out -r -F -d 'Write the descriptors to FILE'
complete -c protoparse -s I -x -a '(__fish_complete_directories)' -d 'Name the files as in DIR'
complete -c protoparse -l proto_path -x -a '(__fish_complete_directories)' \
    -d 'Name the files as in DIR'
complete -c protoparse -l no-source-info -d 'Leave the locations out'
complete -c protoparse -l color -d 'Print faults in colour'
complete -c protoparse -s h -l help -d 'Print a short help'
complete -c protoparse -s V -l version -d 'Print the version'
