#!/usr/bin/env bash
# Disks that return wrong bytes without an error cost no block: as many as there are parities, at each width, and where
# an expansion was stopped.
[ ! -w /dev/shm ] || export TMPDIR=/dev/shm # many short runs: files in memory will do
. "$(dirname "$0")/build.sh"

# over IMAGE FIRST LAST: other bytes in these sectors.
over() { head -c $((($3 - $2 + 1) * 512)) /dev/zero | tr '\0' '\133' | dd of="$1" bs=512 seek="$2" conv=notrunc status=none; }

# spoil IMAGE: other bytes in its scratch area and in all its data rows.
spoil() {
  over "$1" 32 63
  over "$1" 192 $(($(stat -c %s "$1") / 512 - 1))
}

# each_of COUNT SIZE: the choices of so many of the first COUNT images, one a line.
each_of() {
  local choice number chosen
  for ((choice = 1; choice < 1 << $1; choice++)); do
    chosen=()
    for ((number = 0; number < $1; number++)); do
      ((!(choice >> number & 1))) || chosen+=("disk$number")
    done
    [ ${#chosen[@]} != "$2" ] || echo "${chosen[@]}"
  done
}

# blocks LEN..: a script that stores blocks of these lengths and syncs. `reads` and `wanted` are of them.
blocks() {
  local id=0 len
  calls >reads
  : >wanted
  calls
  for len; do
    id=$((id + 1))
    echo "a put $id $len $id"
    echo "a sum $id" >>reads
    echo "sum $id $(summed "$len" $id)" >>wanted
  done
  echo 'a sync'
}

# A pool at rest: as many images as there are parities, whichever they are, return other bytes.
for parity in 1 2 3; do
  pool $parity $((parity + 2)) 256
  blocks 1 512 3000 20000 >script
  "$RAIDZX" "${IMAGES[@]}" -- run <script >/dev/null 2>told
  keep whole
  while read -r chosen; do
    back whole
    for image in $chosen; do spoil "$image"; done
    reads_wanted "$parity parities, $chosen"
    for image in $chosen; do
      [ "$(sectors "$image" 192 4 | tr -d '\133' | wc -c)" = 0 ] || failed "$parity parities, $chosen" 'a read has written'
    done
  done < <(each_of $((parity + 2)) $parity)
  echo "ok $parity parities: blocks are read where as many disks return wrong bytes"

  # One more is one too many, and no other bytes are given for the block's.
  read -r chosen < <(each_of $((parity + 2)) $((parity + 1)))
  back whole
  for image in $chosen; do spoil "$image"; done
  "$RAIDZX" "${IMAGES[@]}" -- replay <reads >found 2>told || failed 'one more' "$(cat found)"
  [ "$(grep -c ' damaged$' found)" -ge 1 ] || failed 'one more' "$(cat found)"
  answers <found | grep -v ' damaged$' | grep -vxFf wanted && failed 'one more' 'other bytes' || true
  echo "ok $parity parities: a block that nothing tells is damaged"

  # Beside wrong bytes as many disks may be lost as there are parities left.
  if [ $parity -gt 1 ]; then
    back whole
    spoil disk0
    rm disk1
    reads_wanted "$parity parities, one lost and one wrong"
    echo "ok $parity parities: one disk is lost, another returns wrong bytes"
  fi
done

# One sector alone is wrong, of each row and column.
pool 1 3 256
blocks 3000 >script
"$RAIDZX" "${IMAGES[@]}" -- run <script >/dev/null 2>told
keep whole
for image in "${IMAGES[@]}"; do
  for sector in 192 193 194; do
    back whole
    over "$image" $sector $sector
    reads_wanted "$image, sector $sector"
  done
done
echo 'ok one sector that is wrong costs nothing'

# An expansion from three disks to four that was stopped: blocks across the mark are read at two widths.
if command -v strace >/dev/null && strace -o /dev/null true 2>/dev/null; then
  pool_and 1
  blocks 20000 9000 512 30000 >script
  "$RAIDZX" "${IMAGES[@]}" -- run <script >/dev/null 2>told
  calls attach >script
  "$RAIDZX" "${IMAGES[@]}" -- run <script >found 2>told
  grep -q 'attach width 4' found || failed 'an attach' "$(cat found)"
  keep attached
  calls copy >script
  states=0
  for when in 1 9 17 25 33 41 49 57 65 73; do
    back attached
    strace -f -o /dev/null -e trace=fdatasync -e inject=fdatasync:signal=KILL:when=$when \
      "$RAIDZX" "${IMAGES[@]}" -- replay <script >found 2>told || true
    "$RAIDZX" "${IMAGES[@]}" -- status >status 2>told
    keep stopped
    for image in "${IMAGES[@]}"; do
      back stopped
      spoil "$image"
      reads_wanted "$(sed -n 2p status), $image"
    done
    states=$((states + 1))
    ! grep -q 'copy done' found || break
  done
  echo "ok an expansion that was stopped $states times: blocks are read where a disk returns wrong bytes"
else
  echo 'passed over: there is no strace here'
fi
