#!/usr/bin/env bash
# Copies all blocks of a pool into another one: copy-pool.sh OLD-IMAGE.. -- NEW-IMAGE..
#
# That is the way to a whole pool once an image is out for good: create a pool with an id that was never used, on other
# images, then copy. This creates none: the new pool has to be there, with all of its images. There it replaces the
# blocks of the same numbers, leaves all others alone, and frees none.
#
# At the end it compares the sums of all blocks that were copied. The exit status is 0 where each block was read and is
# the same in both pools. Where a block can't be read it is told, and the others are copied.
. "$(dirname "$0")/common.bash"
usage='usage: copy-pool.sh OLD-IMAGE.. -- NEW-IMAGE..'
old=()
while [ $# -gt 0 ] && [ "$1" != -- ]; do
  old+=("$1")
  shift
done
new=("${@:2}")
[ ${#old[@]} -gt 0 ] && [ ${#new[@]} -gt 0 ] || stop "$usage"

# sum_all IMAGE..: sums the blocks whose numbers are in $work/ids. The sums are in $work/sums, what can't be read in
# $work/unread.
sum_all() {
  : >"$work/sums"
  : >"$work/unread"
  while [ -s "$work/ids" ]; do
    { echo 'clients 1' && head -n 9999 "$work/ids" | sed 's/^/a sum /'; } >"$work/script"
    start "$@" -- run <"$work/script"
    [ "$status" = 4 ] && grep -q ' a\.1 ' "$work/text" || checked
    sed -n 's/.* sum \([0-9]*\) at [0-9]* \(length .*\)/\1 \2/p' "$work/text" >>"$work/sums"
    sed -n 's/.* sum \([0-9]*\) at [0-9]* \(damaged\)$/\1 \2/p' "$work/text" >>"$work/unread"
    # Where images fail in a run, all calls after that fail in it. The first is left out, and those behind it are tried
    # again.
    sed -n 's/.* a\.[0-9]* sum \([0-9]*\) \(too many failed .*\)/\1 \2/p' "$work/text" >"$work/cut"
    head -n 1 "$work/cut" >>"$work/unread"
    { tail -n +2 "$work/cut" | cut -d ' ' -f 1 && tail -n +10000 "$work/ids"; } >"$work/left"
    mv "$work/left" "$work/ids"
  done
}

look "${old[@]}"
list_ids >"$work/old_ids"
old_pool=$pool
old_blocks=$blocks
start "${new[@]}" -- status
[ "$status" != 3 ] || stop 'the new pool is not there: create it first'
look "${new[@]}"
[ "$out" = none ] || stop "images of the new pool are out: $out"
[ "$pool" != "$old_pool" ] || stop "both pools have the id $pool: give a new pool an id of its own"
say "$old_blocks blocks of pool $old_pool, to pool $pool"

mv "$work/old_ids" "$work/ids"
sum_all "${old[@]}"
mv "$work/sums" "$work/old"
mv "$work/unread" "$work/not_read"
while IFS= read -r line; do say "not copied: block $line"; done <"$work/not_read"
count=$(wc -l <"$work/old")
for ((from = 1; from <= count; from += lot)); do
  { echo 'clients 1' && tail -n +$from "$work/old" | head -n $lot | sed 's/ .*//; s/^/a get /'; } >"$work/script"
  start "${old[@]}" -- run <"$work/script"
  [ "$status" = 4 ] || checked
  { echo 'clients 1' && sed -n 's/.* get \([0-9]*\) at [0-9]* bytes \(.*\)/a puthex \1 \2/p' "$work/text" &&
    echo 'a sync'; } >"$work/script"
  carry_out "${new[@]}" -- run <"$work/script"
  refused=$(sed -n 's/^[0-9]* a\.[0-9]* put \(.*\)/\1/p' "$work/text" | grep -v ' ok$') || continue
  stop "the new pool has no room: block $(head -n 1 <<<"$refused")"
done

cut -d ' ' -f 1 "$work/old" >"$work/ids"
sum_all "${new[@]}"
differing=$(comm -3 <(sort "$work/old") <(sort "$work/sums") | wc -l)
[ "$differing" = 0 ] || stop "of $count blocks some have other sums in the new pool"
say "copied $count blocks: each has the same sum in both pools"
[ ! -s "$work/not_read" ]
