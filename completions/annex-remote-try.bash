# bash completion of annex-remote-try(1)

_annex_remote_try() {
  local current=${COMP_WORDS[COMP_CWORD]} previous=${COMP_WORDS[COMP_CWORD - 1]}
  COMPREPLY=()
  case $previous in
    --only) mapfile -t COMPREPLY < <(compgen -W "conversation contents faults tagged exports special lines $(annex-remote-try --list 2>/dev/null | cut -d' ' -f1)" -- "$current"); return ;;
    --wait | --place) return ;;
    --gitdir) mapfile -t COMPREPLY < <(compgen -d -- "$current"); return ;;
    --html) mapfile -t COMPREPLY < <(compgen -f -- "$current"); return ;;
  esac
  if [[ $current == -* ]]; then
    mapfile -t COMPREPLY < <(compgen -W "--place --only --list --wait --gitdir --json --html --help --version" -- "$current")
  else
    mapfile -t COMPREPLY < <({ compgen -f -- "$current"; compgen -c -- "$current" | grep '^git-annex-remote-\|^annex-remote-'; } | sort -u)
  fi
}

complete -o filenames -F _annex_remote_try annex-remote-try
