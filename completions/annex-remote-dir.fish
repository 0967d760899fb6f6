# fish completion of annex-remote-dir(1)

complete -c annex-remote-dir -f
complete -c annex-remote-dir -n 'test (count (commandline -opc)) -eq 1' -l help -d 'print the help'
complete -c annex-remote-dir -n 'test (count (commandline -opc)) -eq 1' -l version -d 'print the version'
