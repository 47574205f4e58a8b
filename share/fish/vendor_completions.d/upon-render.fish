# Completion of upon-render's arguments in fish. Written by checks/write-arguments.
complete -c upon-render -s h -l help -d 'Print help'
complete -c upon-render -s V -l version -d 'Print version'
