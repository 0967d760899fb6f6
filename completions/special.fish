# fish completion of special(1)

function __special_needs_program
    set -l words (commandline -opc)
    test (count $words) -eq 2; and contains -- $words[2] check info init
end

function __special_needs_world
    set -l words (commandline -opc)
    test (count $words) -eq 4; and test $words[2] = rehearse
end

complete -c special -f
complete -c special -n __fish_use_subcommand -a check -d 'ask whether a remote has the content of a key'
complete -c special -n __fish_use_subcommand -a info -d 'ask a remote about itself'
complete -c special -n __fish_use_subcommand -a init -d 'set a remote up'
complete -c special -n __fish_use_subcommand -a run -d 'store, get, check and drop by the lines of the input'
complete -c special -n __fish_use_subcommand -a audit -d 'check the text of a run'
complete -c special -n __fish_use_subcommand -a recover -d 'print the answers of a run that was cut off'
complete -c special -n __fish_use_subcommand -a rehearse -d 'do made-up tasks over remotes in memory'
complete -c special -l help -d 'print the help'
complete -c special -n __fish_use_subcommand -l version -d 'print the version'
complete -c special -n __special_needs_program -a '(__fish_complete_command)'
complete -c special -n '__fish_seen_subcommand_from init recover' -F
complete -c special -n __special_needs_world -a world -d 'in a closed world, one move after the other'

set -l run '__fish_seen_subcommand_from run'
complete -c special -n $run -l program -x -a '(__fish_complete_command)' -d 'the program that serves the remote'
complete -c special -n $run -l uuid -x -d "the remote's UUID"
complete -c special -n $run -l jobs -x -d 'how many tasks are done at a time, 1 to 64'
complete -c special -n $run -l chunk -x -d 'the size of the chunks that files are stored in'
complete -c special -n $run -l name -x -d "the remote's name"
complete -c special -n $run -l gitdir -x -a '(__fish_complete_directories)' -d "the repository's git directory"
complete -c special -n $run -l keep -r -F -d 'the kept file'
complete -c special -n $run -l journal -r -F -d 'the file for the journal of the run'
complete -c special -n $run -l work -x -a '(__fish_complete_directories)' -d 'the folder for files that the run makes'
complete -c special -n $run -l starts -x -d 'how often a child may be started, 1 to 16'
complete -c special -n $run -l again -x -d 'how often a task may be run again whose child was lost, 0 to 8'
