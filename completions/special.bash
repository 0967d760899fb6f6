# bash completion of special(1)

# What compgen offers, one word a line: a name may have spaces.
_special_offer() {
  mapfile -t COMPREPLY < <(compgen "$@")
}

_special_programs() {
  mapfile -t COMPREPLY < <(compgen -c -- "$1"; compgen -f -- "$1")
}

_special_run() {
  local current=$1 previous=$2
  case $previous in
    --program) _special_programs "$current" ;;
    --keep | --journal) _special_offer -f -- "$current" ;;
    --work | --gitdir) _special_offer -d -- "$current" ;;
    --uuid | --jobs | --chunk | --name | --starts | --again) COMPREPLY=() ;;
    *)
      _special_offer -W "--program --uuid --jobs --chunk --name --gitdir --keep --journal --work --starts --again --help" \
        -- "$current" ;;
  esac
}

_special() {
  local current=${COMP_WORDS[COMP_CWORD]} previous=${COMP_WORDS[COMP_CWORD - 1]}
  COMPREPLY=()
  if ((COMP_CWORD == 1)); then
    _special_offer -W "check info init run audit recover rehearse --help --version" -- "$current"
    return
  fi
  case ${COMP_WORDS[1]}:$COMP_CWORD in
    run:*) _special_run "$current" "$previous" ;;
    check:2 | info:2 | init:2)
      if [[ $current == -* ]]; then _special_offer -W "--help" -- "$current"
      else _special_programs "$current"; fi ;;
    init:4) _special_offer -f -- "$current" ;;
    audit:2 | rehearse:2) _special_offer -W "--help" -- "$current" ;;
    recover:2 | recover:3)
      if [[ $current == -* ]]; then _special_offer -W "--help" -- "$current"
      else _special_offer -f -- "$current"; fi ;;
    rehearse:4) _special_offer -W "world" -- "$current" ;;
  esac
}

complete -o filenames -F _special special
