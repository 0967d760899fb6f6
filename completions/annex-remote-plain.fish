# fish completion of annex-remote-plain(1)

complete -c annex-remote-plain -f
complete -c annex-remote-plain -n 'test (count (commandline -opc)) -eq 1' -l help -d 'print the help'
complete -c annex-remote-plain -n 'test (count (commandline -opc)) -eq 1' -l version -d 'print the version'
