#!/usr/bin/env bash
# Blocks that lie above 16 MiB of their images: where they stand, that nothing else of an image is changed, as what lies
# 16 MiB below, and that later runs read them.
[ ! -w /dev/shm ] || export TMPDIR=/dev/shm # long images
. "$(dirname "$0")/build.sh"

# At parity 1 and width 2 a block of 65,536 bytes takes 128 rows, and its bytes stand in both columns. So block K, from 0,
# has the device sectors from 192 + 128 * K on: block 300 begins at byte 19,759,104, and block 44 stands 16 MiB below.
far=38592
near=5824
[ $far = $((192 + 128 * 300)) ] && [ $near = $((192 + 128 * 44)) ] && [ $far = $((near + 32768)) ] ||
  failed 'where block 300 stands' "$far"
pattern 65536 300 >far_block
pattern 65536 44 >near_block

pool 1 2 65728
puts=()
for id in $(seq 0 299); do puts+=("put $id 65536 $id"); done
text='0 group 3 after 0'
for id in $(seq 0 299); do text+=$'\n'"$((id + 1)) a.$((id + 1)) put $id ok"; done
runs '300 blocks fill what is below' 0 "$text
301 group 4 after 301
302 a.301 sync group 4" "${puts[@]}" sync
keep below
runs 'a block above 16 MiB is put, read and synced' 0 "0 group 6 after 0
1 a.1 put 300 ok
2 a.2 sum 300 at 2 $(summed_file far_block)
3 a.3 sum 44 at 3 $(summed_file near_block)
4 group 7 after 4
5 a.4 sync group 7" 'put 300 65536 300' 'sum 300' 'sum 44' sync

for image in "${IMAGES[@]}"; do
  sectors $image $far 128 | cmp -s - far_block || failed 'the bytes of the block' $image
  sectors $image $near 128 | cmp -s - near_block || failed 'the bytes 16 MiB below' $image
  # cmp ends with 1, as the files differ
  { cmp -l below/$image $image || true; } | awk '{ print int(($1 - 1) / 512) }' | uniq >changed
  awk '$1 >= 192' changed | cmp -s - <(seq $far $((far + 127))) || failed 'the data rows that changed' "$image"
  awk '$1 >= 32 && $1 < 64' changed | cmp -s - /dev/null || failed 'the scratch area' "$image"
done
echo 'ok it stands at its place, and no other data row of an image has changed'

calls 'sum 300' 'sum 44' >reads
printf '%s\n' "sum 300 $(summed_file far_block)" "sum 44 $(summed_file near_block)" >wanted
without_each 'a block above 16 MiB'
