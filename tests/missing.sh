#!/usr/bin/env bash
# Every set of images is missing once, on fresh copies: a device that was out is never taken back.
[ ! -w /dev/shm ] || export TMPDIR=/dev/shm # many short runs: files in memory will do
. "$(dirname "$0")/build.sh"

# block ID LEN SEED: what a sum of this block answers.
block() { printf 'sum %s length %s sha %s\n' "$1" "$2" "$(pattern "$2" "$3" | sha256sum | cut -c 1-64)"; }
{
  echo 'get 1 bytes 09'
  block 2 1500 4
  block 3 5000 2
  block 4 9000 3
  echo 'sum 5 absent'
} >wanted
{
  cat wanted
  block 6 4000 7
} >wanted_later
calls 'put 1 1 9' 'put 2 600 1' 'put 3 5000 2' 'put 5 40 1' sync 'put 2 1500 4' 'free 5' 'put 4 9000 3' sync >puts
reads=('get 1' 'sum 2' 'sum 3' 'sum 4' 'sum 5')
calls "${reads[@]}" 'put 6 4000 7' sync >reads
calls "${reads[@]}" 'sum 6' >later

# without SET: the images as they were copied, but for the devices of this set, whose bits are set.
without() {
  rm -f disk*
  MISSING=()
  LEFT=()
  for number in "${!IMAGES[@]}"; do
    if (($1 >> number & 1)); then
      MISSING+=("$number")
    else
      cp "made/disk$number" .
      LEFT+=("disk$number")
    fi
  done
}

# check PARITY WIDTH
check() {
  local parity=$1 width=$2 set sets=0 refused=0 status
  pool "$parity" "$width" 256
  "$RAIDZX" "${IMAGES[@]}" -- run <puts >/dev/null
  keep made
  for ((set = 0; set < 1 << width; set++)); do
    without $set
    [ ${#MISSING[@]} -le $((parity + 1)) ] || continue
    status=0
    "$RAIDZX" "${IMAGES[@]}" -- run <reads >found 2>told || status=$?
    if [ ${#MISSING[@]} -le "$parity" ]; then
      { [ $status = 0 ] && answers <found | cmp -s - wanted; } || failed "without ${MISSING[*]}" "$(cat found)"
      "$RAIDZX" "${IMAGES[@]}" -- run <later 2>told | answers | cmp -s - wanted_later ||
        failed "a later run without ${MISSING[*]}" 'other blocks'
      sets=$((sets + 1))
    else
      { [ $status = 4 ] && [ "$(cat found)" = "too many failed ${MISSING[*]}" ]; } ||
        failed "without ${MISSING[*]}" "status $status, text $(cat found)"
      unchanged 'those that are left' made "${LEFT[@]}" >/dev/null
      refused=$((refused + 1))
    fi
  done
  printf 'ok parity %s, width %s: all blocks without each of %s sets, before and after more puts\n' \
    "$parity" "$width" $sets
  printf 'ok parity %s, width %s: the failed devices are named for each of %s sets, and nothing is written\n' \
    "$parity" "$width" $refused
}

check 1 3
check 1 4
check 2 4
check 2 5
check 3 5
check 3 6
