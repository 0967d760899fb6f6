# fish completion of annex-remote-mirror(1)

complete -c annex-remote-mirror -f
complete -c annex-remote-mirror -n 'test (count (commandline -opc)) -eq 1' -l help -d 'print the help'
complete -c annex-remote-mirror -n 'test (count (commandline -opc)) -eq 1' -l version -d 'print the version'
