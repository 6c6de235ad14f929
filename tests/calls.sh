#!/usr/bin/env bash
# The system calls of a run, one by one: each image is opened once, and read, written and synced by whole sectors, those
# that lie side by side in one call.
command -v strace >/dev/null || { echo 'ok calls are passed over: there is no strace'; exit 0; }
strace -o /dev/null true 2>/dev/null || { echo 'ok calls are passed over: strace may not trace here'; exit 0; }
[ ! -w /dev/shm ] || export TMPDIR=/dev/shm # there syncs take no time, so that none is begun beside another
. "$(dirname "$0")/build.sh"

# traced CALL..: the calls on files of a run, as words: `read disk1 192 4` is a read of 4 sectors from 192 on. A call that
# is none of these, moves a part, or is not of whole sectors, is left as it is, and is missed in the lists below.
traced() {
  calls "$@" >script
  strace -f -y -s 0 -e trace=%desc -o trace "$RAIDZX" disk0 disk1 disk2 -- run <script >text
  sed -nE -e 's/^[0-9]+ +//' \
    -e 's/^openat\(.*"(disk.)", O_RDWR\|O_NOCTTY\|O_CLOEXEC\) = .*/open \1/' \
    -e 's/^flock\(.*(disk.)>, LOCK_EX\|LOCK_NB\) += 0$/lock \1/' \
    -e 's/^lseek\(.*(disk.)>, 0, SEEK_END\) += [0-9]+$/measure \1/' \
    -e 's/^(fdatasync|close)\(.*(disk.)>\) += 0$/\1 \2/' \
    -e 's/^p(read|write)64\(.*(disk.)>, ""..., ([0-9]+), ([0-9]*)\) += \3$/\1 \2 \4 \3/' \
    -e 's/^write\(1<.*, ""..., ([0-9]+)\) = ([0-9]+)$/answer \1 \2/' \
    -e '/disk/p' -e '/^answer/p' trace |
    awk '$1 ~ /^(read|write)$/ && $3 % 512 + $4 % 512 == 0 { $3 /= 512; $4 /= 512 } { print }'
}
# each WORD [SECTOR]: a call on each image, in order, of one sector.
each() { for number in 0 1 2; do echo "$1 disk$number${2:+ $2 1}"; done; }
begin() {
  for number in 0 1 2; do printf '%s disk'$number'\n' open lock measure; done
  for _ in 1 2; do # what each image shows, and the opening: the ring, and what lies behind it
    for number in 0 1 2; do echo "read disk$number 0 64"; done
  done
}
# group SLOT [SECTOR COUNT]: a commit, with its index sectors: page, sync, uberblock, sync. A sync hands over what was
# written to its image.
group() {
  for number in 0 1 2; do
    [ $# = 1 ] || echo "write disk$number $2 $3"
    echo "fdatasync disk$number"
  done
  for number in 0 1 2; do printf '%s\n' "write disk$number $1 1" "fdatasync disk$number"; done
}

pool 1 3 256
traced 'put 7 3 5' 'get 7' sync >found
{
  begin
  group 3 # the opening
  printf '%s\n' 'write disk0 192 1' 'write disk1 192 1' # the block is read before, from what is kept
  group 4 64 1
  echo "answer $(wc -c <text) $(wc -c <text)"
  each read 4 # whether the last group lists an image as out
  each close
} >wanted
same 'the calls of a first run' found wanted
traced 'get 7' >found
{
  begin
  for number in 0 1 2; do echo "read disk$number 64 64"; done # the page of the chosen group, and what lies behind it
  group 6
  printf '%s\n' 'read disk0 192 64' 'read disk1 192 64' # the parity too, and what lies behind both
  echo "answer $(wc -c <text) $(wc -c <text)"
  each read 6
  each close
} >wanted
same 'the calls of a later run' found wanted

# Many blocks, each of 4 rows of 2 content columns: the number of calls, and answers in large pieces.
pool 1 3 1024
many=()
for id in $(seq 100); do many+=("put $id 4000 $id"); done
many+=(sync)
for id in $(seq 100); do many+=("get $id"); done
traced "${many[@]}" >found
grep -c 'sync' <found >counts
for word in write read; do grep -c "^$word" found >>counts; done
grep -vcE '^((write|read) disk. [0-9]+ [0-9]+|(open|lock|measure|fdatasync|close) disk.|answer .*)$' found >>counts || true
# Syncs: 6 of the opening, 6 of the sync. Writes: 3 uberblocks, 400 sectors of columns an image in rows of 64, 3 pages of
# 13 sectors, 3 uberblocks. Reads: each ring twice; on each image 7 rows of columns; 3 uberblocks at the end.
printf '%s\n' 12 $((3 + 3 * 7 + 3 + 3)) $((3 * 2 + 3 * 7 + 3)) 0 >wanted
same 'the number of calls' counts wanted
grep '^answer' found |
  awk 'last != "" && last < 4096 || $2 != $3 { exit } { last = $2; sum += $3 } END { print sum }' >sum
wc -c <text | tr -d ' ' >wanted
same 'answers go out in pieces of 4 KiB and more' sum wanted
