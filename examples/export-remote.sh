#!/bin/sh
# A git-annex external special remote that exports into a folder, for trying out the export tasks of `special`: a file is
# kept under the name that EXPORT gives it, and not under its key. The folder is the setting `directory`, which INITREMOTE
# asks for; where it isn't set, $REMOTE_DIR, or `exported` beside this script. It speaks VERSION 1 of
# https://git-annex.branchable.com/design/external_special_remote_protocol/ and exports, gets, checks, removes and renames;
# git-annex takes it with `exporttree=yes`. A name that leaves the folder is refused.
dir=${REMOTE_DIR:-$(dirname "$0")/exported}

say() {
  printf '%s\n' "$1"
}

# The value of the setting, which the host answers on one line.
setting() {
  say "GETCONFIG $1"
  IFS= read -r line
  value=${line#VALUE}
  value=${value# }
}

# Whether the name stays in the folder: it isn't absolute nor empty, and no part of it is `..`.
is_inside() {
  case "/$1/" in
    //* | */../*) return 1 ;;
  esac
}

# Puts the file $1 under the name $2, at once: whoever looks meanwhile finds what was there before.
put() {
  is_inside "$2" && [ -f "$1" ] && [ ! -d "$dir/$2" ] && mkdir -p -- "$(dirname -- "$dir/$2")" && mv -f -- "$1" "$dir/$2"
}

# What the remote does with a file under the name: $1 the direction, $2 the file.
transfer() {
  case "$1" in
    STORE)
      part=$(mktemp -d "$dir/.storing.XXXXXX") || return 1
      cp -- "$2" "$part/file" && put "$part/file" "$name"
      failed=$?
      rm -rf -- "$part"
      return $failed ;;
    RETRIEVE) is_inside "$name" && cp -- "$dir/$name" "$2" ;;
    *) return 1 ;;
  esac
}

name=
say "VERSION 1"
while IFS= read -r line; do
  word=${line%% *}
  rest=${line#"$word"}
  rest=${rest# }
  case "$word" in
    EXTENSIONS) say "EXTENSIONS" ;;
    EXPORTSUPPORTED) say "EXPORTSUPPORTED-SUCCESS" ;;
    LISTCONFIGS)
      say "CONFIG directory the folder that files are exported to"
      say "CONFIGEND" ;;
    INITREMOTE)
      setting directory
      if [ -z "$value" ]; then say "INITREMOTE-FAILURE directory is not set"
      elif mkdir -p -- "$value" 2>/dev/null; then say "INITREMOTE-SUCCESS"
      else say "INITREMOTE-FAILURE no folder $value"; fi ;;
    PREPARE)
      setting directory
      dir=${value:-$dir}
      if [ -d "$dir" ]; then say "PREPARE-SUCCESS"; else say "PREPARE-FAILURE no folder $dir"; fi ;;
    # The name that the next request is about. Nothing is said to it.
    EXPORT) name=$rest ;;
    TRANSFEREXPORT)
      way=${rest%% *}
      rest=${rest#* }
      key=${rest%% *}
      if transfer "$way" "${rest#* }" 2>/dev/null; then say "TRANSFER-SUCCESS $way $key"
      else say "TRANSFER-FAILURE $way $key cannot copy $name"; fi ;;
    CHECKPRESENTEXPORT)
      if ! is_inside "$name"; then say "CHECKPRESENT-UNKNOWN $rest outside the folder: $name"
      elif [ ! -d "$dir" ]; then say "CHECKPRESENT-UNKNOWN $rest no folder $dir"
      elif [ -f "$dir/$name" ]; then say "CHECKPRESENT-SUCCESS $rest"
      else say "CHECKPRESENT-FAILURE $rest"; fi ;;
    REMOVEEXPORT)
      if is_inside "$name" && rm -f -- "$dir/$name" 2>/dev/null; then say "REMOVE-SUCCESS $rest"
      else say "REMOVE-FAILURE $rest cannot remove $name"; fi ;;
    REMOVEEXPORTDIRECTORY)
      if is_inside "$rest" && { [ ! -d "$dir/$rest" ] || rmdir -- "$dir/$rest" 2>/dev/null; }; then say "REMOVEEXPORTDIRECTORY-SUCCESS"
      else say "REMOVEEXPORTDIRECTORY-FAILURE"; fi ;;
    RENAMEEXPORT)
      key=${rest%% *}
      if is_inside "$name" && put "$dir/$name" "${rest#* }" 2>/dev/null; then say "RENAMEEXPORT-SUCCESS $key"
      else say "RENAMEEXPORT-FAILURE $key"; fi ;;
    *) say "UNSUPPORTED-REQUEST" ;;
  esac
done
