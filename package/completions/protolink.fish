# Completions of protolink for fish.
complete -c protolink -f -k -a '(__fish_complete_suffix .proto)'
complete -c protolink -s I -x -a '(__fish_complete_directories)' -d 'Look for files in DIR'
complete -c protolink -l proto_path -x -a '(__fish_complete_directories)' \
    -d 'Look for files in DIR'
complete -c protolink -s o -r -F -d 'Write the linked files to FILE'
complete -c protolink -l descriptor_set_out -r -F -d 'Write the linked files to FILE'
complete -c protolink -l include_imports -d 'Write all that the files import, too'
complete -c protolink -l include_source_info -d 'Write places and comments'
complete -c protolink -l dependency_out -r -F -d 'Write a rule for make to FILE'
complete -c protolink -l error_format -x -a 'gcc msvs' -d 'Print each fault in a line'
complete -c protolink -l fatal_warnings -d 'Fail where there is a warning'
complete -c protolink -l version -d 'Print the version'
complete -c protolink -s h -l help -d 'Print a short help'
