# fish completion of special-view(1)

complete -c special-view -s o -r -d 'the page'
complete -c special-view -l special -r -d 'the program that audits'
complete -c special-view -l no-audit -d "don't audit the journal"
complete -c special-view -l help -d 'print the help'
complete -c special-view -l version -d 'print the version'
