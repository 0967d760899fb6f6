#!/bin/sh
# A remote over a folder that speaks the ASYNC extension: each line names the job that it belongs to (`J 5 CHECKPRESENT
# KEY`), and each request is done beside the others, in a subshell of its own that says one line at its end.
# https://git-annex.branchable.com/design/external_special_remote_protocol/async_appendix/
# A host that doesn't offer ASYNC gets plain answers, one after the other.
# The folder is $REMOTE_DIR, or `store` beside this script. The content of a key is the file of its name.
dir=${REMOTE_DIR:-$(dirname "$0")/store}

# What the remote does with a file: $1 the direction, $2 the key, $3 the file.
transfer() {
  case "$1" in
    STORE) cp -- "$3" "$dir/$2.part" && mv -- "$dir/$2.part" "$dir/$2" ;;
    RETRIEVE) cp -- "$dir/$2" "$3" ;;
    *) return 1 ;;
  esac
}

# The answer to the request $1.
answer() {
  case "${1%% *}" in
    INITREMOTE | PREPARE) if [ -d "$dir" ]; then echo "$1-SUCCESS"; else echo "$1-FAILURE no folder $dir"; fi ;;
    CHECKPRESENT)
      key=${1#CHECKPRESENT }
      if [ -f "$dir/$key" ]; then echo "CHECKPRESENT-SUCCESS $key"; else echo "CHECKPRESENT-FAILURE $key"; fi ;;
    TRANSFER)
      rest=${1#TRANSFER }
      way=${rest%% *}
      rest=${rest#* }
      key=${rest%% *}
      file=${rest#* }
      if transfer "$way" "$key" "$file" 2>/dev/null; then echo "TRANSFER-SUCCESS $way $key"
      else echo "TRANSFER-FAILURE $way $key cannot copy $file"; fi ;;
    REMOVE)
      key=${1#REMOVE }
      if rm -f -- "$dir/$key" 2>/dev/null; then echo "REMOVE-SUCCESS $key"
      else echo "REMOVE-FAILURE $key cannot remove it"; fi ;;
    *) echo "UNSUPPORTED-REQUEST" ;;
  esac
}

echo "VERSION 1"
while IFS= read -r line; do
  case "$line" in
    EXTENSIONS*)
      case " ${line#EXTENSIONS} " in
        *" ASYNC "*) echo "EXTENSIONS ASYNC" ;;
        *) echo "EXTENSIONS" ;;
      esac ;;
    "J "*)
      rest=${line#J }
      job=${rest%% *}
      request=${rest#* }
      # A line of at most PIPE_BUF bytes is written whole, so the answers don't mix.
      (echo "J $job $(answer "$request")") </dev/null & ;;
    *) answer "$line" ;;
  esac
done
wait
