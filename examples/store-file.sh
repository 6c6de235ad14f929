#!/usr/bin/env bash
# Stores a file of any kind in a pool: store-file.sh FILE FIRST IMAGE..
#
# Block FIRST gets the head of the file: its length, its SHA-256 and its name. The blocks after it get its bytes, 64 KiB
# each. A file that was stored at FIRST before is freed first, and then is gone, also where the new one finds no room.
# Other blocks are left alone: where one is in the way nothing is stored.
#
# Each step is synced before the next one begins, and the head is written last. So there is no head that can be read
# before all bytes of its file are durable, wherever this is stopped; store the file again then.
. "$(dirname "$0")/common.bash"
[ $# -ge 3 ] || stop 'usage: store-file.sh FILE FIRST IMAGE..'
file=$1
first=$2
images=("${@:3}")

# put_all: carries out the calls on standard input, and a sync. Whether no call was refused.
put_all() {
  { echo 'clients 1' && cat && echo 'a sync'; } >"$work/script"
  carry_out "${images[@]}" -- run <"$work/script"
  refused=$(sed -n 's/^[0-9]* a\.[0-9]* put \(.*\)/\1/p' "$work/text" | grep -v ' ok$') || return 0
  return 1
}

# put_head KIND: puts the head, and syncs.
put_head() {
  { echo "$1 $new_length $new_digest" && printf '%s' "${file##*/}"; } | basenc --base16 -w $((2 * head_limit)) |
    tr A-F a-f | sed "s/^/a puthex $first /" | put_all
}

# give_up WHY: frees what was stored of the file, and ends.
give_up() {
  calls free "$first" $((first + new_pieces)) | put_all
  stop "$1: nothing is stored at $first"
}

# no_room: gives up as a block found none.
no_room() { give_up "the pool has no room for $new_length bytes (block $(head -n 1 <<<"$refused"))"; }

number FIRST "$first"
[ -f "$file" ] && [ -r "$file" ] || stop "$file: no file that can be read"
new_length=$(wc -c <"$file")
new_pieces=$(((new_length + block - 1) / block))
((new_pieces < 512)) || stop "$file has $new_length bytes, and a pool has 512 blocks: at most 33488896 bytes fit"
new_digest=$(sha256sum <"$file" | cut -c 1-64)
look "${images[@]}"

# The older file at FIRST, if there is one.
printf 'clients 1\na get %s\n' "$first" >"$work/script"
carry_out "${images[@]}" -- run <"$work/script"
bytes >"$work/head"
old_pieces=-1
if read_head "$work/head"; then
  old_pieces=$pieces
  if [ "$kind" = part ]; then
    seq $((first + 1)) $((first + old_pieces)) >"$work/ids"
    find_heads "${images[@]}"
    [ ! -s "$work/heads" ] ||
      stop "block $(cut -d ' ' -f 1 "$work/heads" | head -n 1) is the head of another file: free it, or block $first"
  fi
elif ! grep -q ' absent$' "$work/text"; then
  stop "block $first is there, and is not the head of a file: free it, or choose another number"
fi
# Blocks in the way of the new one.
if ((new_pieces > old_pieces)); then
  { echo 'clients 1' && calls sum $((first + 1 + old_pieces)) $((first + new_pieces)); } >"$work/script"
  carry_out "${images[@]}" -- run <"$work/script"
  others=$(sed -n '/ absent$/d; s/.* a\.[0-9]* sum \([0-9]*\) .*/\1/p' "$work/text")
  [ -z "$others" ] || stop "block $(head -n 1 <<<"$others") is in the way: free it, or choose another number"
fi

# What is freed here can be taken once that is synced.
((old_pieces < 0)) || calls free "$first" $((first + old_pieces)) | put_all
put_head part || no_room
for ((at = 0; at < new_pieces; at += lot)); do
  to=$((at + lot < new_pieces ? at + lot : new_pieces))
  dd if="$file" bs=$block skip=$at count=$lot iflag=fullblock status=none |
    basenc --base16 -w $((2 * block)) | tr A-F a-f >"$work/digits"
  calls puthex $((first + at + 1)) $((first + to)) | paste -d ' ' - "$work/digits" | put_all || no_room
done
[ "$(sha256sum <"$file" | cut -c 1-64)" = "$new_digest" ] || give_up "$file has changed meanwhile"
put_head file || no_room
say "${file##*/}, $new_length bytes: blocks $first to $((first + new_pieces))"
