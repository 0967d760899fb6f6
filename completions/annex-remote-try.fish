# fish completion of annex-remote-try(1)

complete -c annex-remote-try -l place -x -d "the setting that is the remote's folder"
complete -c annex-remote-try -l only -x -a 'conversation contents faults tagged exports special lines (annex-remote-try --list 2>/dev/null | string replace -r " .*" "")' -d 'tests or groups to make'
complete -c annex-remote-try -l list -d 'print the tests, and make none'
complete -c annex-remote-try -l wait -x -d 'how long an answer may take, in seconds'
complete -c annex-remote-try -l gitdir -x -a '(__fish_complete_directories)' -d 'the answer to GETGITDIR'
complete -c annex-remote-try -l json -d 'print the report as JSON'
complete -c annex-remote-try -l html -r -d 'write the report as a page, too'
complete -c annex-remote-try -l help -d 'print the help'
complete -c annex-remote-try -l version -d 'print the version'
