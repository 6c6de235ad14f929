#!/usr/bin/env bash
# Lists the files that store-file.sh has stored in a pool: list-files.sh IMAGE..
#
# A line for each file: its first block, its bytes, its name.
. "$(dirname "$0")/common.bash"
[ $# -ge 1 ] || stop 'usage: list-files.sh IMAGE..'

look "$@"
list_ids >"$work/ids"
find_heads "$@"
files=0
end=-1
while read -r id digits; do
  # A block of a file's bytes is none of another, whatever it holds.
  ((id > end)) || continue
  tr a-f A-F <<<"$digits" | basenc --base16 -d >"$work/head"
  read_head "$work/head"
  if [ "$kind" = part ]; then
    say "block $id: $name was not stored to its end, store it again"
    continue
  fi
  printf '%s %s %s\n' "$id" "$length" "$name"
  files=$((files + 1))
  end=$((id + pieces))
done <"$work/heads"
[ $files = 1 ] && word=file || word=files
say "$files $word; the pool has $blocks blocks"
