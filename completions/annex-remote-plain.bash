# bash completion of annex-remote-plain(1)

_annex_remote_plain() {
  COMPREPLY=()
  if ((COMP_CWORD == 1)); then mapfile -t COMPREPLY < <(compgen -W "--help --version" -- "${COMP_WORDS[1]}"); fi
}

complete -F _annex_remote_plain annex-remote-plain
