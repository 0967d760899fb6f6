# bash completion of annex-remote-dir(1)

_annex_remote_dir() {
  COMPREPLY=()
  if ((COMP_CWORD == 1)); then mapfile -t COMPREPLY < <(compgen -W "--help --version" -- "${COMP_WORDS[1]}"); fi
}

complete -F _annex_remote_dir annex-remote-dir
