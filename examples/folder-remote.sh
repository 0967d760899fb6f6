#!/bin/sh
# A git-annex external special remote over a folder, for trying out `special`: the content of a key is the file of
# its name. The folder is the setting `directory`, which INITREMOTE asks for; where it isn't set, $REMOTE_DIR, or
# `store` beside this script. It speaks VERSION 1 of
# https://git-annex.branchable.com/design/external_special_remote_protocol/ and stores, gets, checks and drops.
dir=${REMOTE_DIR:-$(dirname "$0")/store}

# The value of the setting, which the host answers on one line.
setting() {
  echo "GETCONFIG $1"
  IFS= read -r line
  value=${line#VALUE}
  value=${value# }
}

# What the remote does with a file: $1 the direction, $2 the key, $3 the file.
transfer() {
  case "$1" in
    STORE) cp -- "$3" "$dir/$2.part" && mv -- "$dir/$2.part" "$dir/$2" ;;
    RETRIEVE) cp -- "$dir/$2" "$3" ;;
    *) return 1 ;;
  esac
}

echo "VERSION 1"
while IFS= read -r line; do
  word=${line%% *}
  case "$word" in
    EXTENSIONS) echo "EXTENSIONS" ;;
    LISTCONFIGS)
      echo "CONFIG directory the folder that keeps the content"
      echo "CONFIGEND" ;;
    INITREMOTE)
      setting directory
      if [ -z "$value" ]; then echo "INITREMOTE-FAILURE directory is not set"
      elif mkdir -p "$value" 2>/dev/null; then echo "INITREMOTE-SUCCESS"
      else echo "INITREMOTE-FAILURE no folder $value"; fi ;;
    PREPARE)
      setting directory
      dir=${value:-$dir}
      if [ -d "$dir" ]; then echo "PREPARE-SUCCESS"; else echo "PREPARE-FAILURE no folder $dir"; fi ;;
    CHECKPRESENT)
      key=${line#CHECKPRESENT }
      if [ -f "$dir/$key" ]; then echo "CHECKPRESENT-SUCCESS $key"; else echo "CHECKPRESENT-FAILURE $key"; fi ;;
    TRANSFER)
      rest=${line#TRANSFER }
      way=${rest%% *}
      rest=${rest#* }
      key=${rest%% *}
      file=${rest#* }
      if transfer "$way" "$key" "$file" 2>/dev/null; then echo "TRANSFER-SUCCESS $way $key"
      else echo "TRANSFER-FAILURE $way $key cannot copy $file"; fi ;;
    REMOVE)
      key=${line#REMOVE }
      if rm -f -- "$dir/$key" 2>/dev/null; then echo "REMOVE-SUCCESS $key"
      else echo "REMOVE-FAILURE $key cannot remove it"; fi ;;
    *) echo "UNSUPPORTED-REQUEST" ;;
  esac
done
