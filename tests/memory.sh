#!/usr/bin/env bash
# Runs that may have so much memory and no more, up to what they need: each ends by itself, with all that is asked or with
# `no memory`, and leaves a pool as one of its groups has it.
[ ! -w /dev/shm ] || export TMPDIR=/dev/shm # many short runs: files in memory will do
. "$(dirname "$0")/build.sh"

# within KIB WORD..: the program with these words, and no more address space than that. Its text stands in `found`.
within() {
  local most=$1
  shift
  STATUS=0
  (ulimit -v "$most" && exec "$RAIDZX" "$@") <"${INPUT:-/dev/null}" >found 2>told || STATUS=$?
}
# The least in which the program is loaded, in steps of 64 KiB. With less the system starts no program.
for ((least = 1024; least < 65536; least += 64)); do
  within $least --help
  [ $STATUS != 1 ] || break
done
[ $least -lt 65536 ] || { echo 'skipped runs that lack memory: the address space can not be bounded here'; exit 0; }

# ended NAME: the run did all that was asked, or ended for want of memory; TIMES counts both.
declare -A TIMES
ended() {
  { [ $STATUS = 0 ] && ! grep -q 'no memory' found; } || { [ $STATUS = 8 ] && [ "$(tail -n 1 found)" = 'no memory' ]; } ||
    failed "$1" "status $STATUS, text: $(tail -n 3 found | cut -c 1-200), told: $(cat told)"
  TIMES[$STATUS]=$((${TIMES[$STATUS]:-0} + 1))
}
# ends NAME: how often it came to each end.
ends() {
  printf 'ok %s: %s times it did all, %s times it told that there was no memory\n' "$1" "${TIMES[0]:-0}" "${TIMES[8]:-0}"
  TIMES=()
}
# both NAME: it came to both.
both() {
  [ ${TIMES[0]:-0} -gt 0 ] && [ ${TIMES[8]:-0} -gt 0 ] || failed "$1" "${TIMES[0]:-0} times all, ${TIMES[8]:-0} times no memory"
  ends "$1"
}

# Block K has 20,000 bytes of seed K. Those of 1 to 4 are in the pool at the start.
for id in $(seq 20); do echo "sum $id $(summed 20000 $id)"; done >blocks
pool 1 3 2048
calls 'put 1 20000 1' 'put 2 20000 2' 'put 3 20000 3' 'put 4 20000 4' sync >script
"$RAIDZX" "${IMAGES[@]}" -- run <script >found 2>told || failed 'a pool' "$(cat found)"
keep made
{ calls; for id in $(seq 20); do echo "a sum $id"; done; } >reads

# sums FILE: what a journal answers to its sums.
sums() { sed -n 's/^[0-9]* [a-h]\.[0-9]* \(sum [0-9]*\) at [0-9]*/\1/p' "$1"; }
# left NAME: what the run read is right. A status, for which there is memory, tells a whole pool, and each block is read
# that the last group listed has. Any other one is there or not.
left() {
  local name=$1
  ! sums found | grep -vxFf blocks | grep -v ' absent$' >wrong || failed "$name, a read" "$(cat wrong)"
  "$RAIDZX" "${IMAGES[@]}" -- status >seen 2>told || failed "$name, a status" "$(cat seen)"
  grep -qx 'out none' seen && grep -q '^raidzx: all blocks can be read' told || failed "$name, a status" "$(cat seen told)"
  {
    seq 4
    awk '/ put [0-9]* ok$/ { put[$4] = $1 } $2 == "group" { for (id in put) if (put[id] < $5) print id }' found
  } | sed 's/.*/sum & absent/' >lost
  "$RAIDZX" "${IMAGES[@]}" -- replay <reads >again 2>told || failed "$name, read again" "$(tail -n 1 again)"
  sums again >answered
  [ "$(wc -l <answered)" = 20 ] || failed "$name, read again" "$(cat again)"
  ! grep -xFf lost answered >wrong || failed "$name, a block that was synced" "$(cat wrong)"
  ! grep -vxFf blocks answered | grep -v ' absent$' >wrong || failed "$name, a block" "$(cat wrong)"
}

# The calls of one client: blocks that are put and synced, and then a get of all, which takes more memory than all before.
{
  calls 'sum 1' 'put 5 20000 5' 'put 6 20000 6' sync
  for id in $(seq 7 20); do echo "a put $id 20000 $id"; done
  for id in $(seq 20); do printf 'a %s\n' "get $id" "sum $id"; done
  echo 'a sync'
} >script
INPUT=script
for command in run replay; do
  back made
  "$RAIDZX" "${IMAGES[@]}" -- $command <script >whole
  for ((more = 0; more < 4096; more += 160)); do
    back made
    within $((least + more)) "${IMAGES[@]}" -- $command
    ended "a $command in $((least + more)) KiB"
    [ $STATUS != 0 ] || cmp -s found whole || failed "a $command in $((least + more)) KiB" 'another journal'
    left "a $command in $((least + more)) KiB"
  done
  both "a $command of one client"
done

# Four clients, beside one that attaches an image and copies: each thread takes an address space of its own.
fresh disk3 2048
IMAGES+=(disk3)
keep made
{
  echo 'clients 4'
  for id in $(seq 5 20); do echo "$(cut -c $((id % 4 + 1)) <<<abcd) put $id 20000 $id"; done
  for client in a b c d; do echo "$client sync"; done
  for id in $(seq 20); do
    client=$(cut -c $((id % 4 + 1)) <<<abcd)
    printf '%s\n' "$client sum $id" "$client get $id"
  done
} >script
for more in $(seq 0 160 1600) $(seq 6144 6144 131072); do
  back made
  within $((least + more)) "${IMAGES[@]}" -- run --attach
  ended "four clients in $((least + more)) KiB"
  left "four clients in $((least + more)) KiB"
done
both 'a run of four clients'
INPUT=/dev/null

# A status and a create.
back made
for ((more = 0; more < 2048; more += 64)); do
  within $((least + more)) "${IMAGES[@]}" -- status
  ended "a status in $((least + more)) KiB"
done
unchanged 'a status changes no image' made
ends 'a status'
rm disk3
IMAGES=(disk0 disk1 disk2)
for ((more = 0; more < 2048; more += 64)); do
  back made
  within $((least + more)) "${IMAGES[@]}" -- create --parity 1 --width 3 --id 5
  ended "a create in $((least + more)) KiB"
  [ $STATUS = 0 ] || unchanged 'a create that is refused' made >/dev/null
done
ends 'a create'
