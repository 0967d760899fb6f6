# bash completion of special-view(1)

_special_view() {
  local current=${COMP_WORDS[COMP_CWORD]} previous=${COMP_WORDS[COMP_CWORD - 1]}
  COMPREPLY=()
  if [[ $current == -* && $previous != -o ]]; then
    mapfile -t COMPREPLY < <(compgen -W "-o --special --no-audit --help --version" -- "$current")
  else
    mapfile -t COMPREPLY < <(compgen -f -- "$current")
  fi
}

complete -o filenames -F _special_view special-view
