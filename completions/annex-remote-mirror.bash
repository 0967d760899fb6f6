# bash completion of annex-remote-mirror(1)

_annex_remote_mirror() {
  COMPREPLY=()
  if ((COMP_CWORD == 1)); then mapfile -t COMPREPLY < <(compgen -W "--help --version" -- "${COMP_WORDS[1]}"); fi
}

complete -F _annex_remote_mirror annex-remote-mirror
