# bash completion of annex-special(1)

# What compgen offers, one word a line: a name may have spaces.
_annex_special_offer() {
  mapfile -t COMPREPLY < <(compgen "$@")
}

_annex_special() {
  local current=${COMP_WORDS[COMP_CWORD]} previous=${COMP_WORDS[COMP_CWORD - 1]}
  local place=0 word index
  COMPREPLY=()
  case $previous in
    --jobs | -J | --key | --set) return ;;
    --journals) _annex_special_offer -d -- "$current"; return ;;
    --from | --repair-from) _annex_special_offer -W "$(git remote 2>/dev/null) here" -- "$current"; return ;;
  esac
  if [[ $current == -* ]]; then
    _annex_special_offer -W "--all --key --unused --in-remote --jobs --from --repair-from --unverified --record --set --plain --strict
      --dry-run --journals --json --quiet --verbose --help --version" -- "$current"
    return
  fi
  # The place of the word among those that are no options.
  for ((index = 1; index < COMP_CWORD; index++)); do
    word=${COMP_WORDS[index]}
    case $word in
      --jobs | -J | --key | --set | --journals | --from | --repair-from) index=$((index + 1)) ;;
      -*) ;;
      *) place=$((place + 1)) ;;
    esac
  done
  case $place in
    0) _annex_special_offer -W "$(git remote 2>/dev/null)" -- "$current" ;;
    1) _annex_special_offer -W "check verify get copy drop restore" -- "$current" ;;
    *) _annex_special_offer -f -- "$current" ;;
  esac
}

complete -o filenames -F _annex_special annex-special
