# fish completion of annex-special(1)

function __annex_special_place
    # How many words that are no options stand before the cursor's.
    set -l place -1
    set -l skip 0
    for word in (commandline -opc)
        if test $skip -eq 1
            set skip 0
        else if contains -- $word --jobs -J --key --set --journals --from --repair-from
            set skip 1
        else if not string match -q -- '-*' $word
            set place (math $place + 1)
        end
    end
    echo $place
end

complete -c annex-special -n 'test (__annex_special_place) -lt 2' -f
complete -c annex-special -n 'test (__annex_special_place) -eq 0' -a '(git remote 2>/dev/null)' -d remote
complete -c annex-special -n 'test (__annex_special_place) -eq 1' -a 'check verify get copy drop restore'
complete -c annex-special -s A -l all -d 'all keys that the branch git-annex knows'
complete -c annex-special -l key -x -d 'this key'
complete -c annex-special -s U -l unused -d 'the keys that git annex unused found last'
complete -c annex-special -l in-remote -d 'all keys that the log has in the remote'
complete -c annex-special -s J -l jobs -x -d 'how many tasks are done at a time, 1 to 64'
complete -c annex-special -l from -x -a '(git remote 2>/dev/null)' -d 'copy: take the contents from this remote'
complete -c annex-special -l repair-from -x -a '(git remote 2>/dev/null) here' -d 'verify: take right contents from here'
complete -c annex-special -l unverified -d 'take contents of an export whose keys have no digest too'
complete -c annex-special -l record -d 'tell git-annex what the remote has'
complete -c annex-special -l set -x -d 'override a setting of the remote'
complete -c annex-special -l plain -d 'start the remote through annex-remote-plain'
complete -c annex-special -l strict -d 'start the remote directly'
complete -c annex-special -l dry-run -d 'only say which keys it is about'
complete -c annex-special -l journals -x -a '(__fish_complete_directories)' -d 'keep the journal of each run in this folder'
complete -c annex-special -l json -d 'print a JSON object for each key'
complete -c annex-special -s q -l quiet -d 'print only what went wrong'
complete -c annex-special -s v -l verbose -d 'print a line for each key'
complete -c annex-special -l help -d 'print the help'
complete -c annex-special -l version -d 'print the version'
